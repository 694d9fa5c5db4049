//! ASC lines for CAN (W-201 of document 02, after source document 004): types 1,
//! 3 and 4 each become one line of text that ends in CR LF, and such a line is
//! read again. Where the papers can be read in two ways, points 70 to 77 of
//! docs/DECISIONS.md hold.
//!
//! ```
//! use mshelovat_reference::{asc, records::CanOverload};
//! let mut record = CanOverload { channel: 1, ..Default::default() };
//! (record.head.unit, record.head.time) = (2, 1_000_000);
//! let mut out = [0; 64];
//! let used = asc::overload_line(&record, &mut out).unwrap();
//! assert_eq!(&out[..used], b"0.001000000 1 OverloadFrame\r\n");
//! assert_eq!(asc::read_line(&out[..used]).unwrap().nanoseconds, 1_000_000);
//! ```

mod line;
mod read;

pub use read::read_line;

use crate::header::{body, Header, SHORT_HEADER};
use crate::layout::*;
use crate::object::{head_holds, step, Answer};
use crate::records::{record_in, CanMessage, CanOverload, CanStatistic, Head, Record};
use line::Line;

/// The data bytes that a message's line has at most.
const MOST_BYTES: u8 = 8;

/// What a line tells.
#[derive(Clone, Copy, Debug, PartialEq, Eq)]
pub struct Told {
    /// The time: whole seconds.
    pub seconds: u64,
    /// The time: the nanoseconds over.
    pub nanoseconds: u32,
    /// The channel.
    pub channel: u16,
    /// The rest, by type.
    pub event: Event,
}

/// What a line tells behind time and channel.
#[derive(Clone, Copy, Debug, PartialEq, Eq)]
pub enum Event {
    /// Type 1.
    Message(Message),
    /// Type 3: nothing more.
    Overload,
    /// Type 4.
    Statistic(Statistic),
}

/// What the line of a message tells.
#[derive(Clone, Copy, Debug, PartialEq, Eq)]
pub struct Message {
    /// The id without bit 31.
    pub id: u32,
    /// Bit 31 of the id: an `x` stands behind it.
    pub extended: bool,
    /// `Tx` and not `Rx`.
    pub sent: bool,
    /// `r` and not `d`.
    pub remote: bool,
    /// The DLC as it stands.
    pub dlc: u8,
    /// The bytes that stand in the line, zeros behind them.
    pub data: [u8; 8],
}

/// What the line of a statistic tells.
#[derive(Clone, Copy, Debug, PartialEq, Eq)]
pub struct Statistic {
    /// The bus load in 1/100 percent.
    pub load: u16,
    /// Standard data, extended data, standard remote, extended remote, errors,
    /// overloads: the object's order, which is not the line's.
    pub counters: [u32; 6],
}

impl Told {
    /// The type of the object that has such a line: 1, 3 or 4.
    pub fn kind(&self) -> u32 {
        match self.event {
            Event::Message(_) => kind::CAN_MESSAGE,
            Event::Overload => kind::CAN_OVERLOAD,
            Event::Statistic(_) => kind::CAN_STATISTIC,
        }
    }

    /// All of it as numbers: type, seconds, nanoseconds, channel; id, extended,
    /// sent, remote, DLC, eight bytes; load, six counters. What the line does
    /// not tell is 0.
    pub fn numbers(&self) -> [u64; 24] {
        let mut numbers = [0; 24];
        numbers[0] = self.kind().into();
        numbers[1] = self.seconds;
        numbers[2] = self.nanoseconds.into();
        numbers[3] = self.channel.into();
        match &self.event {
            Event::Message(message) => {
                numbers[4] = message.id.into();
                numbers[5] = message.extended.into();
                numbers[6] = message.sent.into();
                numbers[7] = message.remote.into();
                numbers[8] = message.dlc.into();
                fill(&mut numbers[9..17], &message.data);
            }
            Event::Overload => {}
            Event::Statistic(statistic) => {
                numbers[17] = statistic.load.into();
                fill(&mut numbers[18..], &statistic.counters);
            }
        }
        numbers
    }
}

fn fill<N: Copy + Into<u64>>(numbers: &mut [u64], from: &[N]) {
    for (number, value) in numbers.iter_mut().zip(from) {
        *number = (*value).into();
    }
}

fn refused(number: u8) -> Result<usize, Refusal> {
    Err(Refusal::new(number, 0))
}

/// The time stamp in whole seconds and the nanoseconds over, never the original
/// one; none for a wrong unit.
fn time(head: &Head) -> Option<(u64, u32)> {
    match head.unit {
        1 => Some((head.time / 100_000, (head.time % 100_000) as u32 * 10_000)),
        2 => Some((
            head.time / 1_000_000_000,
            (head.time % 1_000_000_000) as u32,
        )),
        _ => None,
    }
}

/// The line of a message. Tries 7, then 10; returns the bytes used.
pub fn message_line(record: &CanMessage, out: &mut [u8]) -> Result<usize, Refusal> {
    let Some(time) = time(&record.head) else {
        return refused(number::UNIT);
    };
    let front = &record.front;
    let (sent, remote) = (front.flags & 0x01 != 0, front.flags & 0x80 != 0);
    let mut line = Line::new();
    if !remote {
        line.bytes(&record.data[..usize::from(front.dlc.min(MOST_BYTES))]);
    }
    line.decimal(front.dlc.into());
    line.text(if remote { b" r " } else { b" d " });
    line.text(if sent { b" Tx" } else { b" Rx" });
    if front.id >> 31 != 0 {
        line.byte(b'x');
    }
    line.hex(front.id & 0x7FFF_FFFF);
    line.front(time, front.channel);
    line.copy_to(out)
}

/// The line of an overload. Tries 7, then 10; returns the bytes used.
pub fn overload_line(record: &CanOverload, out: &mut [u8]) -> Result<usize, Refusal> {
    let Some(time) = time(&record.head) else {
        return refused(number::UNIT);
    };
    let mut line = Line::new();
    line.text(b"OverloadFrame");
    line.front(time, record.channel);
    line.copy_to(out)
}

/// The line of a statistic. Tries 7, then 10; returns the bytes used.
pub fn statistic_line(record: &CanStatistic, out: &mut [u8]) -> Result<usize, Refusal> {
    let Some(time) = time(&record.head) else {
        return refused(number::UNIT);
    };
    let mut line = Line::new();
    line.percent(record.bus_load);
    line.text(b" B ");
    line.decimal(record.overload.into());
    line.text(b" O ");
    line.decimal(record.error.into());
    line.text(b" E ");
    line.decimal(record.extended_remote.into());
    line.text(b" XR ");
    line.decimal(record.extended_data.into());
    line.text(b" XD ");
    line.decimal(record.standard_remote.into());
    line.text(b" R ");
    line.decimal(record.standard_data.into());
    line.text(b"Statistic: D ");
    line.front(time, record.channel);
    line.copy_to(out)
}

/// Is this one of the types that become a line? 86 and 100 are not.
fn has_line(kind: u32) -> bool {
    matches!(
        kind,
        kind::CAN_MESSAGE | kind::CAN_OVERLOAD | kind::CAN_STATISTIC
    )
}

/// The line of an object whose bytes are known to be whole; 0 for other types.
fn whole_line(kind: u32, object: &[u8], out: &mut [u8]) -> Result<usize, Refusal> {
    if !has_line(kind) {
        return Ok(0);
    }
    match record_in(kind, object) {
        Record::CanMessage(record) => message_line(&record, out),
        Record::CanOverload(record) => overload_line(&record, out),
        Record::CanStatistic(record) => statistic_line(&record, out),
        _ => Ok(0),
    }
}

/// Are these 16 bytes or more, of a type that has a line, one whole object,
/// without padding, under either header? 1 to 6 and 8 are asked, 8 of the header
/// too; 7 is not, and 9 has nothing to say to these types.
fn is_whole(object: &[u8], row: &Row) -> bool {
    head_holds(object)
        && u64::from(u32_at(object, 8)) == object.len() as u64
        && Header::of(object).reserved_holds(object)
        && row.reserved_holds(body(object))
}

/// The line of the object that these bytes are, without padding. Bytes that
/// are not exactly one whole object of type 1, 3 or 4 give 0 bytes. Then 7 and
/// 10 are tried; returns the bytes used.
pub fn object_line(object: &[u8], out: &mut [u8]) -> Result<usize, Refusal> {
    if object.len() < SHORT_HEADER {
        return Ok(0);
    }
    let kind = u32_at(object, 12);
    match row(kind) {
        Some(row) if has_line(kind) && is_whole(object, row) => whole_line(kind, object, out),
        _ => Ok(0),
    }
}

/// The answer of [`line_at`].
#[derive(Clone, Copy, Debug, PartialEq, Eq)]
pub enum LineAt {
    /// An object's line.
    Line {
        /// The bytes used; 0 for an object of another type.
        used: usize,
        /// The position behind the object's padding.
        next: usize,
    },
    /// The position is exactly the end of the log.
    Done,
    /// A refusal: 1 to 9 at the place that the step tells, or 10 at place 0.
    Refused(Refusal),
}

impl LineAt {
    /// The caller's position after this answer, given the one before.
    pub fn position_after(&self, before: usize) -> usize {
        match self {
            LineAt::Line { next, .. } => *next,
            LineAt::Done | LineAt::Refused(_) => before,
        }
    }
}

/// The line of the object at a position of a log. Tries 1 to 9, then 10.
pub fn line_at(log: &[u8], position: usize, out: &mut [u8]) -> LineAt {
    let object = match step(log, position) {
        Answer::Object(object) => object,
        Answer::Done => return LineAt::Done,
        Answer::Refused(refusal) => return LineAt::Refused(refusal),
    };
    match whole_line(object.kind, object.bytes(log), out) {
        Ok(used) => LineAt::Line {
            used,
            next: object.next,
        },
        Err(refusal) => LineAt::Refused(refusal),
    }
}
