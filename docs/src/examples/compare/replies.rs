//! This reader's own answer to a case, and the faults that `--break` puts in.
use super::cases::Case;
use super::numbers::Numbers;
use mshelovat_reference::layout::{kind, number, occupied, row, u32_at, Refusal};
use mshelovat_reference::object::{reserved_bytes, step, walk, Answer};
use mshelovat_reference::records::*;
use mshelovat_reference::slips::{check, check_plain};

/// Five numbers.
pub type Reply = [u64; 5];

/// A reply and the bytes behind it.
#[derive(PartialEq, Eq)]
pub struct Told {
    pub reply: Reply,
    pub behind: Vec<u8>,
}

impl Told {
    /// The reply as it is written.
    pub fn bytes(&self) -> Vec<u8> {
        let mut bytes: Vec<u8> = self.reply.iter().flat_map(|n| n.to_le_bytes()).collect();
        bytes.extend(&self.behind);
        bytes
    }
}

/// One place in which this reader answers wrongly.
#[derive(Clone, Copy, PartialEq, Eq)]
pub enum Break {
    Nothing,
    /// Padding that is not zero passes in a step.
    Padding,
    /// A CAN message's DLC is read where its flags stand.
    Offset,
    /// An object does not go into a room of exactly its length.
    Room,
    /// A step goes on behind the padding that document 01 had, up to a multiple of four.
    Rule,
    /// What is read is refused at the object's start, as before W-205.
    Place,
    /// Of two wrong bytes or more that are reserved, or padding, the last one is told.
    Last,
}

impl Break {
    pub fn named(name: &str) -> Option<Break> {
        match name {
            "padding" => Some(Break::Padding),
            "offset" => Some(Break::Offset),
            "room" => Some(Break::Room),
            "rule" => Some(Break::Rule),
            "place" => Some(Break::Place),
            "last" => Some(Break::Last),
            _ => None,
        }
    }
}

/// The answer to a case. What is written goes to the page.
pub fn tell(case: &Case, page: &mut [u8], wrong: Break) -> Told {
    let mut told = tell_all_but_place(case, page, wrong);
    let [word, number, place, ..] = &mut told.reply;
    if (*word, case.question <= 5) == (3, true) && (2..=9).contains(number) {
        *place = told_place(case, *number as u8, *place, wrong);
    }
    told
}

/// The place that is told of a refusal by 2 to 9.
fn told_place(case: &Case, number: u8, place: u64, wrong: Break) -> u64 {
    let start = case.refused_at();
    let last = match (wrong, number) {
        (Break::Place, _) => start,
        (Break::Last, number::PADDING | number::RESERVED) => {
            start + last_wrong(&case.log[start..], number)
        }
        _ => return place,
    };
    last as u64
}

/// The last wrong byte of the padding, or of the reserved bytes, of an object that starts these bytes.
fn last_wrong(object: &[u8], number: u8) -> usize {
    let size = u32_at(object, 8);
    let mut bytes: Vec<usize> = match row(u32_at(object, 12)) {
        Some(row) if number == number::RESERVED => {
            reserved_bytes(Header::of(object), row).collect()
        }
        _ => (size as usize..occupied(size) as usize).collect(),
    };
    bytes.retain(|at| object[*at] != 0);
    bytes.pop().expect("a refusal by a wrong byte")
}

fn tell_all_but_place(case: &Case, page: &mut [u8], wrong: Break) -> Told {
    let room = &mut page[..case.room()];
    let plain = |reply| Told {
        reply,
        behind: Vec::new(),
    };
    match case.question {
        1 => plain(step_reply(case, wrong)),
        2 => plain(count_reply(walk(&case.log))),
        3 => {
            let verdict = check(&case.log, &case.behind);
            assert_eq!(verdict, check_plain(&case.log, &case.behind));
            plain(count_reply(verdict))
        }
        5 => read_reply(case, wrong),
        question => {
            let before = room.to_vec();
            let mut answer = written(question, &case.log, room);
            if wrong == Break::Room && answer == Ok(room.len()) {
                answer = Err(Refusal::new(number::ROOM, 0));
                room.copy_from_slice(&before);
            }
            Told {
                reply: written_reply(answer),
                behind: room.to_vec(),
            }
        }
    }
}

fn refused(refusal: Refusal, next: u64) -> Reply {
    let Refusal { number, place } = refusal;
    [3, number.into(), place as u64, 0, next]
}

fn step_reply(case: &Case, wrong: Break) -> Reply {
    let (log, position) = (&case.log, case.number);
    match step(log, position as usize) {
        Answer::Object(o) => {
            let next = match wrong {
                Break::Rule => position + u64::from(o.size).next_multiple_of(4),
                _ => o.next as u64,
            };
            [1, o.start as u64, o.size.into(), o.kind.into(), next]
        }
        Answer::Done => [2, 0, 0, 0, position],
        Answer::Refused(r) if wrong == Break::Padding && r.number == number::PADDING => {
            let object = &log[position as usize..];
            let (size, kind) = (u32_at(object, 8), u32_at(object, 12));
            let next = position + occupied(size);
            [1, position, size.into(), kind.into(), next]
        }
        Answer::Refused(r) => refused(r, position),
    }
}

fn count_reply(answer: Result<usize, Refusal>) -> Reply {
    match answer {
        Ok(count) => [4, count as u64, 0, 0, 0],
        Err(r) => refused(r, 0),
    }
}

fn written_reply(answer: Result<usize, Refusal>) -> Reply {
    match answer {
        Ok(used) => [5, used as u64, 0, 0, 0],
        Err(r) => refused(r, 0),
    }
}

/// 4: the log again; 6: the object that the bytes are; 7: the bytes as a foreign object.
fn written(question: u8, bytes: &[u8], room: &mut [u8]) -> Result<usize, Refusal> {
    match question {
        4 => rewrite(bytes, room),
        6 if bytes.len() >= 16 => write_any(&record_in(u32_at(bytes, 12), bytes), room),
        _ => write_foreign(bytes, room),
    }
}

/// The record of the wanted type, field by field.
fn read_reply(case: &Case, wrong: Break) -> Told {
    let (log, at) = (&case.log[..], case.number as usize);
    match case.wanted() {
        kind::CAN_MESSAGE => record_told(read_can_message(log, at), case, wrong),
        kind::CAN_OVERLOAD => record_told(read_can_overload(log, at), case, wrong),
        kind::CAN_STATISTIC => record_told(read_can_statistic(log, at), case, wrong),
        kind::FLEXRAY_RECEIVE => record_told(read_flexray_receive(log, at), case, wrong),
        kind::LIN_MESSAGE => record_told(read_lin_message(log, at), case, wrong),
        kind::LIN_WAKE_UP => record_told(read_lin_wake_up(log, at), case, wrong),
        kind::CAN_MESSAGE_2 => record_told(read_can_message_2(log, at), case, wrong),
        kind::CAN_FD_MESSAGE => record_told(read_can_fd_message(log, at), case, wrong),
        kind::ETHERNET_STATUS => record_told(read_ethernet_status(log, at), case, wrong),
        kind::ETHERNET_FRAME => record_told(read_ethernet_frame(log, at), case, wrong),
        kind::FORWARDED_FRAME => record_told(read_forwarded_frame(log, at), case, wrong),
        kind::ETHERNET_ERROR => record_told(read_ethernet_error(log, at), case, wrong),
        kind::FORWARDED_ERROR => record_told(read_forwarded_error(log, at), case, wrong),
        other => panic!("type {other} has no record"),
    }
}

fn record_told<R: Numbers>(read: Read<R>, case: &Case, wrong: Break) -> Told {
    let next = read.position_after(case.number as usize) as u64;
    let mut behind = Vec::new();
    let reply = match read {
        Read::Record { record, .. } => {
            let mut numbers = record.numbers();
            if wrong == Break::Offset && case.wanted() == kind::CAN_MESSAGE {
                numbers[8] = numbers[7];
            }
            behind.extend(numbers.iter().flat_map(|n| n.to_le_bytes()));
            behind.extend(record.frame());
            let end = 40 + 8 * numbers.len() as u64;
            [6, end, record.frame().len() as u64, 0, next]
        }
        Read::Other { .. } => [7, 0, 0, 0, next],
        Read::Done => [2, 0, 0, 0, next],
        Read::Refused(r) => refused(r, next),
    };
    Told { reply, behind }
}
