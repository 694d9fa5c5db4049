//! The proved library, called from Rust: a safe function on slices for each
//! call of include/mshelovat.h. Nothing here is proved; it only lends slices
//! and names the numbers that come back.
//!
//! It is there with the feature `speed` alone, since it asks for the archive
//! of crate `exported`: docs/native-object takes the one that tools/archive
//! makes (target/staticlib/libexported.a), which is for x86-64.

use crate::asc::LineAt;
use crate::layout::Refusal;
use crate::object::{Answer, Object};
use crate::records::Own;
use crate::ring;
use crate::tray::{Common, Trayed};

#[link(name = "exported", kind = "static")]
extern "C" {
    fn mshelovat_walk(log: *const u8, n: usize, out: *mut u64, m: usize) -> u32;
    fn mshelovat_step(log: *const u8, n: usize, at: usize, out: *mut u64, m: usize) -> u32;
    fn mshelovat_list(
        log: *const u8,
        n: usize,
        at: usize,
        entries: *mut u64,
        k: usize,
        out: *mut u64,
        m: usize,
    ) -> u32;
    fn mshelovat_check(
        log: *const u8,
        n: usize,
        bundle: *const u8,
        k: usize,
        out: *mut u64,
        m: usize,
    ) -> u32;
    fn mshelovat_read(
        log: *const u8,
        n: usize,
        at: usize,
        kind: u32,
        bytes: *mut u8,
        k: usize,
        out: *mut u64,
        m: usize,
    ) -> u32;
    fn mshelovat_write(
        object: *const u8,
        n: usize,
        bytes: *mut u8,
        k: usize,
        out: *mut u64,
        m: usize,
    ) -> u32;
    fn mshelovat_line(
        object: *const u8,
        n: usize,
        bytes: *mut u8,
        k: usize,
        out: *mut u64,
        m: usize,
    ) -> u32;
    fn mshelovat_line_at(
        log: *const u8,
        n: usize,
        at: usize,
        bytes: *mut u8,
        k: usize,
        out: *mut u64,
        m: usize,
    ) -> u32;
    fn mshelovat_read_line(text: *const u8, n: usize, out: *mut u64, m: usize) -> u32;
    fn mshelovat_ring_step(
        first: *const u8,
        n: usize,
        second: *const u8,
        k: usize,
        at: usize,
        scratch: *mut u8,
        s: usize,
        out: *mut u64,
        m: usize,
    ) -> u32;
    fn mshelovat_tray_first(
        unit: u32,
        client: u16,
        version: u16,
        channel: u16,
        flags: u8,
        dlc: u8,
        ids: *const u32,
        n: usize,
        stamps: *const u64,
        s: usize,
        data: *const u8,
        d: usize,
        bytes: *mut u8,
        k: usize,
        out: *mut u64,
        m: usize,
    ) -> u32;
    fn mshelovat_tray_second(
        unit: u32,
        status: u8,
        version: u16,
        original: u64,
        channel: u16,
        flags: u8,
        dlc: u8,
        ids: *const u32,
        n: usize,
        stamps: *const u64,
        s: usize,
        data: *const u8,
        d: usize,
        bytes: *mut u8,
        k: usize,
        out: *mut u64,
        m: usize,
    ) -> u32;
}

/// No line has more bytes than this: so many have room for every one.
pub const LONGEST_LINE: usize = 134;

/// How many numbers a line tells.
pub const TOLD: usize = 24;

/// No room, as [`read`] tells it.
const ROOM: u32 = 10;

/// The position is exactly the end of the log.
const DONE: u32 = 100;

/// An object of another type was let through.
const OTHER: u32 = 101;

fn refusal(number: u32, place: u64) -> Refusal {
    Refusal::new(number as u8, place as usize)
}

fn told(number: u32, value: u64) -> Result<usize, Refusal> {
    match number {
        0 => Ok(value as usize),
        n => Err(refusal(n, value)),
    }
}

/// The count of objects in the log, or the first refusal.
pub fn walk(log: &[u8]) -> Result<usize, Refusal> {
    let mut out = [0u64; 1];
    // Safe: log and out are slices, apart from each other; the call asks for nothing more.
    let number = unsafe { mshelovat_walk(log.as_ptr(), log.len(), out.as_mut_ptr(), 1) };
    told(number, out[0])
}

/// The next object at a position, which may be any number.
#[inline]
pub fn step(log: &[u8], at: usize) -> Answer {
    let mut out = [0u64; 4];
    // Safe: as in `walk`.
    let number = unsafe { mshelovat_step(log.as_ptr(), log.len(), at, out.as_mut_ptr(), 4) };
    match number {
        0 => Answer::Object(Object {
            start: out[0] as usize,
            size: out[1] as u32,
            kind: out[2] as u32,
            next: out[3] as usize,
        }),
        DONE => Answer::Done,
        n => Answer::Refused(refusal(n, out[0])),
    }
}

/// Why a list ended.
#[derive(Clone, Copy, Debug, PartialEq, Eq)]
pub enum End {
    /// There was no room for another object.
    Full,
    /// The log's end.
    Done,
    /// The object at the position was refused by this number.
    Refused(u8),
}

/// What a list gives beside the entries.
#[derive(Clone, Copy, Debug, PartialEq, Eq)]
pub struct Listed {
    /// How many objects were listed.
    pub count: usize,
    /// Where the next call goes on; at a refusal the refused object's start.
    pub at: usize,
    /// The place that a refusal tells; 0 where there is none.
    pub place: usize,
    /// Why it ended.
    pub end: End,
}

/// Lists objects from a position on: start, size and type of each.
pub fn list(log: &[u8], at: usize, entries: &mut [[u64; 3]]) -> Listed {
    let mut out = [0u64; 3];
    let numbers = entries.as_flattened_mut();
    let (p, k) = (numbers.as_mut_ptr(), numbers.len());
    // Safe: as in `walk`, with one slice more that is lent to the call alone.
    let number = unsafe { mshelovat_list(log.as_ptr(), log.len(), at, p, k, out.as_mut_ptr(), 3) };
    Listed {
        count: out[0] as usize,
        at: out[1] as usize,
        place: out[2] as usize,
        end: match number {
            0 => End::Full,
            DONE => End::Done,
            n => End::Refused(n as u8),
        },
    }
}

/// The count of objects where the bundle names each exactly once, or the first refusal.
pub fn check(log: &[u8], bundle: &[u8]) -> Result<usize, Refusal> {
    let mut out = [0u64; 1];
    let (log, n, b, k) = (log.as_ptr(), log.len(), bundle.as_ptr(), bundle.len());
    // Safe: as in `walk`.
    let number = unsafe { mshelovat_check(log, n, b, k, out.as_mut_ptr(), 1) };
    told(number, out[0])
}

/// What a read of one type is told.
#[derive(Clone, Copy, Debug, PartialEq, Eq)]
pub enum Read {
    /// The object stands at the front of the bytes.
    Object {
        /// Its size without the padding.
        size: usize,
        /// The position behind its padding.
        next: usize,
    },
    /// An object of another type was let through.
    Other {
        /// The position behind its padding.
        next: usize,
    },
    /// The position is exactly the end of the log.
    Done,
    /// The bytes have no room for the object; nothing was written.
    Room,
    /// A refusal, 1 to 9.
    Refused(Refusal),
}

/// The object of a type at a position, copied to the front of the bytes without its padding.
pub fn read(log: &[u8], at: usize, kind: u32, bytes: &mut [u8]) -> Read {
    let mut out = [0u64; 2];
    let (p, k) = (bytes.as_mut_ptr(), bytes.len());
    // Safe: as in `list`.
    let number =
        unsafe { mshelovat_read(log.as_ptr(), log.len(), at, kind, p, k, out.as_mut_ptr(), 2) };
    let next = out[1] as usize;
    match number {
        0 => Read::Object {
            size: out[0] as usize,
            next,
        },
        OTHER => Read::Other { next },
        DONE => Read::Done,
        ROOM => Read::Room,
        n => Read::Refused(refusal(n, out[0])),
    }
}

/// Writes an object, handed in as its bytes without padding, with its padding to the front of
/// the bytes, one of the thirteen types under the second header where it says header size 40 and
/// version 2, else under the first: how many were used; or 7, 9, 10, 11.
pub fn write(object: &[u8], bytes: &mut [u8]) -> Result<usize, Refusal> {
    let mut out = [0u64; 1];
    let (p, k) = (bytes.as_mut_ptr(), bytes.len());
    // Safe: as in `list`.
    let number =
        unsafe { mshelovat_write(object.as_ptr(), object.len(), p, k, out.as_mut_ptr(), 1) };
    told(number, out[0])
}

/// The line of an object, handed in as its bytes without padding, to the front of the bytes: how
/// many it has, 0 for another type and for bytes that are no object; or 7, 10.
pub fn line(object: &[u8], bytes: &mut [u8]) -> Result<usize, Refusal> {
    let mut out = [0u64; 1];
    let (p, k) = (bytes.as_mut_ptr(), bytes.len());
    // Safe: as in `list`.
    let number =
        unsafe { mshelovat_line(object.as_ptr(), object.len(), p, k, out.as_mut_ptr(), 1) };
    told(number, out[0])
}

/// The line of the object at a position, which may be any number, to the front of the bytes.
pub fn line_at(log: &[u8], at: usize, bytes: &mut [u8]) -> LineAt {
    let mut out = [0u64; 2];
    let (p, k) = (bytes.as_mut_ptr(), bytes.len());
    // Safe: as in `list`.
    let number =
        unsafe { mshelovat_line_at(log.as_ptr(), log.len(), at, p, k, out.as_mut_ptr(), 2) };
    match number {
        0 => LineAt::Line {
            used: out[0] as usize,
            next: out[1] as usize,
        },
        DONE => LineAt::Done,
        n => LineAt::Refused(refusal(n, out[0])),
    }
}

/// What a line tells, in the order of [`crate::asc::Told::numbers`]; or 30.
pub fn read_line(text: &[u8]) -> Result<[u64; TOLD], Refusal> {
    let mut out = [0u64; TOLD];
    // Safe: as in `walk`.
    let number = unsafe { mshelovat_read_line(text.as_ptr(), text.len(), out.as_mut_ptr(), TOLD) };
    match number {
        0 => Ok(out),
        n => Err(refusal(n, 0)),
    }
}

/// How many numbers a step over a ring tells.
const RING_TOLD: usize = 5;

/// The next object at a position, which may be any number, of a log in two segments. Where it
/// lies in both it is copied to the front of the scratch, without its padding.
#[inline]
pub fn ring_step(first: &[u8], second: &[u8], at: usize, scratch: &mut [u8]) -> ring::Answer {
    let mut out = [0u64; RING_TOLD];
    let (f, n, s, k) = (first.as_ptr(), first.len(), second.as_ptr(), second.len());
    let (p, r) = (scratch.as_mut_ptr(), scratch.len());
    // Safe: as in `list`.
    let number = unsafe { mshelovat_ring_step(f, n, s, k, at, p, r, out.as_mut_ptr(), RING_TOLD) };
    let object = Object {
        start: out[0] as usize,
        size: out[1] as u32,
        kind: out[2] as u32,
        next: out[3] as usize,
    };
    match (number, out[4]) {
        (0, 1) => ring::Answer::First(object),
        (0, 2) => ring::Answer::Second(object),
        (0, 3) => ring::Answer::Copied(object),
        (0, lies) => panic!("an object that lies in {lies}"),
        (DONE, _) => ring::Answer::Done,
        (n, _) => ring::Answer::Refused(refusal(n, out[0])),
    }
}

/// Writes a tray of CAN messages to the front of the bytes, one behind the other: how many were
/// written, and what the next one was refused by: 31, 7 or 10.
pub fn tray(common: &Common, ids: &[u32], stamps: &[u64], data: &[u8], bytes: &mut [u8]) -> Trayed {
    let mut out = [0u64; 1];
    let number = tray_number(common, ids, stamps, data, bytes, &mut out);
    Trayed {
        written: out[0] as usize,
        refusal: (number != 0).then(|| refusal(number, 0)),
    }
}

/// The number that comes back; in the first of `out`, how many were written.
fn tray_number(
    common: &Common,
    ids: &[u32],
    stamps: &[u64],
    data: &[u8],
    bytes: &mut [u8],
    out: &mut [u64],
) -> u32 {
    let Common {
        unit,
        own,
        version,
        channel,
        flags,
        dlc,
    } = *common;
    let (i, n, t, s) = (ids.as_ptr(), ids.len(), stamps.as_ptr(), stamps.len());
    let (a, d, p, k) = (data.as_ptr(), data.len(), bytes.as_mut_ptr(), bytes.len());
    let (o, m) = (out.as_mut_ptr(), out.len());
    // Safe: as in `list`.
    match own {
        Own::First { client_index: c } => unsafe {
            mshelovat_tray_first(
                unit, c, version, channel, flags, dlc, i, n, t, s, a, d, p, k, o, m,
            )
        },
        Own::Second { status, original } => unsafe {
            mshelovat_tray_second(
                unit, status, version, original, channel, flags, dlc, i, n, t, s, a, d, p, k, o, m,
            )
        },
    }
}

#[cfg(test)]
mod tests {
    use super::*;

    /// Too few numbers lent: 10, and nothing is written.
    #[test]
    fn too_few_lent() {
        let mut out = [7u64; TOLD - 1];
        let mut bytes = [7u8; 16];
        let mut entries = [7u64; 3];
        let log = include_bytes!("library.rs").as_ptr();
        let (ids, stamps) = ([7u32; 1], [7u64; 1]);
        let (i, t) = (ids.as_ptr(), stamps.as_ptr());
        let (o, b, e) = (out.as_mut_ptr(), bytes.as_mut_ptr(), entries.as_mut_ptr());
        // Safe: each pointer is to as many values as its count says, or more.
        let numbers = unsafe {
            [
                mshelovat_walk(log, 0, o, 0),
                mshelovat_step(log, 0, 0, o, 3),
                mshelovat_list(log, 0, 0, e, 3, o, 2),
                mshelovat_check(log, 0, log, 0, o, 0),
                mshelovat_read(log, 0, 0, 3, b, 16, o, 1),
                mshelovat_write(log, 16, b, 16, o, 0),
                mshelovat_line(log, 16, b, 16, o, 0),
                mshelovat_line_at(log, 0, 0, b, 16, o, 1),
                mshelovat_read_line(log, 16, o, TOLD - 1),
                mshelovat_ring_step(log, 0, log, 0, 0, b, 16, o, RING_TOLD - 1),
                // Trays of none, which need no room.
                mshelovat_tray_first(1, 0, 0, 0, 0, 0, i, 0, t, 0, log, 0, b, 16, o, 0),
                mshelovat_tray_second(1, 0, 0, 0, 0, 0, 0, i, 0, t, 0, log, 0, b, 16, o, 0),
            ]
        };
        assert_eq!(numbers, [10; 12]);
        assert_eq!((out, bytes, entries), ([7; TOLD - 1], [7; 16], [7; 3]));
    }

    /// A text that is no line clears the numbers, and none behind them.
    #[test]
    fn no_line_tells_zeros() {
        let mut out = [7u64; TOLD + 1];
        let text = b"0.001000000 1 OverloadFrame\n";
        // Safe: each pointer is to as many values as its count says.
        let number =
            unsafe { mshelovat_read_line(text.as_ptr(), text.len(), out.as_mut_ptr(), TOLD + 1) };
        assert_eq!((number, &out[..TOLD], out[TOLD]), (30, &[0; TOLD][..], 7));
    }

    /// The number and all that a step over a ring tells, in more numbers than it asks for, and the
    /// scratch afterwards.
    fn ring_told(first: &[u8], second: &[u8], at: usize, room: usize) -> (u32, [u64; 6], Vec<u8>) {
        let (mut out, mut scratch) = ([7u64; RING_TOLD + 1], vec![7; room]);
        let (f, n, s, k) = (first.as_ptr(), first.len(), second.as_ptr(), second.len());
        let (p, o) = (scratch.as_mut_ptr(), out.as_mut_ptr());
        // Safe: each pointer is to as many values as its count says.
        let number = unsafe { mshelovat_ring_step(f, n, s, k, at, p, room, o, RING_TOLD + 1) };
        (number, out, scratch)
    }

    /// A step over a ring tells where the object lies, and after done and refusals the position.
    #[test]
    fn ring_step_tells() {
        use crate::records::{raw, CanOverload, Head, Record};
        let head = Head {
            unit: 1,
            ..Default::default()
        };
        let object = raw(&Record::CanOverload(CanOverload { head, channel: 1 }));
        let log = [&object[..], &object].concat();
        let told = |cut: usize, at, room| ring_told(&log[..cut], &log[cut..], at, room);
        let kept = |number, out, room| (number, out, vec![7; room]);
        assert_eq!(told(72, 36, 40), kept(0, [36, 36, 3, 72, 1, 7], 40));
        assert_eq!(told(36, 36, 40), kept(0, [36, 36, 3, 72, 2, 7], 40));
        let copied = [&object[..], &[7; 4]].concat();
        assert_eq!(told(37, 36, 40), (0, [36, 36, 3, 72, 3, 7], copied));
        assert_eq!(told(37, 36, 35), kept(12, [36, 0, 0, 36, 0, 7], 35));
        assert_eq!(told(37, 1, 40), kept(2, [1, 0, 0, 1, 0, 7], 40));
        assert_eq!(told(37, 72, 40), kept(DONE, [72, 0, 0, 72, 0, 7], 40));
    }

    /// A tray of two under each header tells its number and how many were written, and changes no
    /// number and no byte behind.
    #[test]
    fn tray_tells() {
        let (ids, stamps, data) = ([1, 2], [3, 4], [5; 16]);
        let second = Own::Second {
            status: 6,
            original: 8,
        };
        for (own, size) in [(Own::First { client_index: 9 }, 48), (second, 56)] {
            let common = |unit| Common {
                unit,
                own,
                ..Default::default()
            };
            let mut whole = [0; 112];
            let written = crate::tray::write(&common(1), &ids, &stamps, &data, &mut whole).written;
            assert_eq!(written, 2);
            let told = |unit, stamps: &[u64], room, lent| {
                let (mut out, mut bytes) = ([7; 2], vec![7; room]);
                let (common, out_lent) = (common(unit), &mut out[..lent]);
                let number = tray_number(&common, &ids, stamps, &data, &mut bytes, out_lent);
                (number, out, bytes)
            };
            let front = |messages: usize, room| {
                let mut bytes = whole[..messages * size].to_vec();
                bytes.resize(room, 7);
                bytes
            };
            let enough = 2 * size + 3;
            assert_eq!(told(1, &stamps, enough, 2), (0, [2, 7], front(2, enough)));
            let short = 2 * size - 1;
            assert_eq!(told(1, &stamps, short, 2), (10, [1, 7], front(1, short)));
            let kept = |number, written| (number, [written, 7], vec![7; enough]);
            assert_eq!(told(3, &stamps, enough, 1), kept(7, 0));
            assert_eq!(told(3, &stamps[1..], enough, 1), kept(31, 0));
            assert_eq!(told(1, &stamps, enough, 0), kept(10, 7));
        }
    }

    /// The longest line just fits the bytes that are always enough.
    #[test]
    fn longest_line() {
        use crate::records::{raw, CanStatistic, Head, Record};
        let most = u32::MAX;
        let object = raw(&Record::CanStatistic(CanStatistic {
            head: Head {
                unit: 1,
                time: u64::MAX,
                ..Default::default()
            },
            channel: u16::MAX,
            bus_load: u16::MAX,
            standard_data: most,
            extended_data: most,
            standard_remote: most,
            extended_remote: most,
            error: most,
            overload: most,
        }));
        let mut bytes = [0; LONGEST_LINE];
        assert_eq!(line(&object, &mut bytes), Ok(LONGEST_LINE));
        let short = line(&object, &mut bytes[1..]);
        assert_eq!(short, Err(Refusal::new(10, 0)));
    }
}
