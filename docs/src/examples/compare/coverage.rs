//! What came, and what must come.
use super::cases::{whole, Case};
use super::places_seen;
use super::replies::Told;
use mshelovat_reference::gen::LISTED;
use mshelovat_reference::header::{body, Header, SIGNATURE, STATUS_GAP};
use mshelovat_reference::layout::{kind, number, put, row, u16_at, u32_at, u64_at, FRAME_START};
use mshelovat_reference::object::{has_frame, step, Answer, Object};
use mshelovat_reference::records::write_foreign;
use std::collections::BTreeMap;

const READ: [&str; 2] = ["read, first header", "read, second header"];
const WRITTEN: [&str; 2] = ["written, first header", "written, second header"];
const STAMPS: [&str; 2] = ["bits of the time stamp", "bits of the original time stamp"];

/// What a refusal can show of the headers, and its number.
const SHOWN: [(&str, u8); 7] = [
    (PAIR_AND_SIZE, number::HEADER),
    (FIRST_SIZE, number::SIZE),
    (SECOND_SIZE, number::SIZE),
    (GAP, number::RESERVED),
    (GAP_AND_CONTENT, number::RESERVED),
    (GAP_AND_UNIT, number::UNIT),
    (FIRST_LENGTH, number::CONTENT),
];
const PAIR_AND_SIZE: &str = "refused, the size being wrong under both headers";
const FIRST_SIZE: &str = "refused under (40, 2), with a size of the first header";
const SECOND_SIZE: &str = "refused under (32, 1), with a size of the second header";
const GAP: &str = "refused for byte 21";
const GAP_AND_CONTENT: &str = "refused for byte 21, the content being wrong too";
const GAP_AND_UNIT: &str = "refused for the unit, byte 21 being set too";
const FIRST_LENGTH: &str = "refused under (40, 2), the frame length being size minus 64";

/// What the size of an object that was let through leaves over when divided by four: listed or foreign, within its log
/// or last in it.
const SIZE_OVER: [[&str; 2]; 2] = [
    ["size over, listed, within", "size over, listed, last"],
    ["size over, foreign, within", "size over, foreign, last"],
];
/// The same of what was written.
const WRITTEN_OVER: [&str; 2] = ["size over, frame written", "size over, foreign written"];
/// What the start of an object leaves over, by question, and what it can.
const START_OVER: [(&str, &[u64]); 5] = [
    ("start over, step", &[0, 1, 2, 3]),
    ("start over, walk", &[0, 2]),
    ("start over, check", &[0, 2]),
    ("start over, log written again", &[0, 2]),
    ("start over, read", &[0, 1, 2, 3]),
];
/// What an object is refused by whose padding goes up to a multiple of four: listed or foreign.
const OLD: [&str; 2] = [
    "refused, listed, padded as document 01 had it",
    "refused, foreign, padded as document 01 had it",
];

/// Header (1 or 2).
const VALID: &str = "not written for the valid bytes, by header";
/// The type of what is offered as a foreign object and would be one if that type were foreign.
const COPY: &str = "not written as a foreign object for its type alone, by type";

/// What must come, and with which numbers.
fn musts() -> Vec<(&'static str, Vec<u64>)> {
    let types = LISTED.map(u64::from).to_vec();
    let by_type = READ.iter().chain(&WRITTEN);
    let by_size = SIZE_OVER.iter().flatten().chain(&WRITTEN_OVER);
    let mut musts = vec![("refused", (1..=11).chain(20..=27).collect())];
    musts.extend(by_type.map(|what| (*what, types.clone())));
    musts.extend(SHOWN.map(|(what, number)| (what, vec![number.into()])));
    musts.extend(by_size.map(|what| (*what, vec![0, 1, 2, 3])));
    musts.extend(START_OVER.map(|(what, over)| (what, over.to_vec())));
    musts.extend(OLD.map(|what| (what, vec![1, 2, 5, 6])));
    musts.extend([(VALID, vec![1, 2]), (COPY, vec![86, 100])]);
    musts.extend(places_seen::musts());
    musts
}

/// How often each refusal came, and each type was read and written under each header; what the refusals showed of the
/// headers, of the padding and of their places; what was not written; what sizes and starts left over; what else came,
/// by question. Of the records read: the bits of both time stamps.
#[derive(Default)]
pub struct Seen {
    times: BTreeMap<&'static str, BTreeMap<u64, usize>>,
    stamps: [Bits; 2],
}

impl Seen {
    pub fn note(&mut self, case: &Case, told: &Told) {
        let [came, number, place, ..] = told.reply;
        match (case.question, came) {
            (question, 3) => {
                self.count("refused", number);
                if question <= 5 && number <= 9 {
                    self.note_refusal(case, number as u8, place as usize);
                }
                if question > 5 {
                    self.note_not_written(case, number as u8);
                }
            }
            (5, 6) => self.note_record(case.wanted(), &told.behind),
            (6, 5) if LISTED.contains(&u32_at(&case.log, 12)) => {
                let header = Header::of(&case.log) as usize;
                self.count(WRITTEN[header], u32_at(&case.log, 12).into());
            }
            (question, _) => self.count("not refused, by question", question.into()),
        }
        if came != 3 {
            for object in let_through(case) {
                self.note_over(case, &object);
            }
            self.note_written_over(case, &told.behind);
        }
    }

    /// What the refusal of an object shows.
    fn note_refusal(&mut self, case: &Case, number: u8, place: usize) {
        let start = case.refused_at();
        let shown = shown(&case.log, number, start).into_iter();
        for what in shown.chain(old_padding(&case.log, number, start)) {
            self.count(what, number.into());
        }
        for (what, came) in places_seen::shown(case, number, place, start) {
            self.count(what, came);
        }
    }

    /// What it shows that an object was not written.
    fn note_not_written(&mut self, case: &Case, number: u8) {
        match (case.question, number) {
            (6, number::CONTENT) if u32_at(&case.log, 12) == kind::CAN_FD_MESSAGE => {
                self.count(VALID, Header::of(&case.log) as u64 + 1);
            }
            (7, number::NOT_FOREIGN) => {
                if let Some(kind) = no_foreign_type(&case.log) {
                    self.count(COPY, kind.into());
                }
            }
            _ => {}
        }
    }

    /// What size and start of an object leave over.
    fn note_over(&mut self, case: &Case, object: &Object) {
        let last = object.next == case.log.len();
        let what = SIZE_OVER[usize::from(object.is_foreign())][usize::from(last)];
        self.count(what, u64::from(object.size % 4));
        let (what, _) = START_OVER[usize::from(case.question) - 1];
        self.count(what, object.start as u64 % 4);
    }

    /// The same of the size of an object that was written to the front of a room.
    fn note_written_over(&mut self, case: &Case, room: &[u8]) {
        if !matches!(case.question, 6 | 7) {
            return;
        }
        let (size, kind) = (u32_at(room, 8), u32_at(room, 12));
        let foreign = row(kind).is_none();
        if foreign || has_frame(kind) {
            self.count(WRITTEN_OVER[usize::from(foreign)], u64::from(size % 4));
        }
    }

    /// The second of a record's numbers is its header, the fifth its time stamp; the sixth is the original one, which
    /// the first header does not have.
    fn note_record(&mut self, kind: u32, numbers: &[u8]) {
        let number = |i: usize| u64_at(numbers, 8 * i);
        let header = number(1) as usize;
        self.count(READ[header - 1], kind.into());
        let [time, original] = &mut self.stamps;
        time.note(number(4));
        if header == 2 {
            original.note(number(5));
        }
    }

    fn count(&mut self, what: &'static str, number: u64) {
        let times = self.times.entry(what).or_default();
        *times.entry(number).or_default() += 1;
    }

    pub fn print(&self) {
        for (what, times) in &self.times {
            println!("{what}: {times:?}");
        }
        for (what, Bits { set, clear }) in STAMPS.iter().zip(&self.stamps) {
            println!("{what}: set {set:016x}, clear {clear:016x}");
        }
    }

    fn missing(&self, what: &str, numbers: &[u64]) -> usize {
        let times = self.times.get(what);
        let came = |number| times.is_some_and(|times| times.contains_key(&number));
        missing(what, numbers, came)
    }

    /// How many never came of what must come.
    pub fn all_missing(&self) -> usize {
        let musts = musts();
        let counted = musts.iter().map(|(what, of)| self.missing(what, of));
        let stamps = STAMPS.iter().zip(&self.stamps);
        let bits = stamps.map(|(what, bits)| bits.missing(what));
        counted.sum::<usize>() + bits.sum::<usize>()
    }
}

/// The bits of a number that came set, and those that came clear.
#[derive(Default)]
struct Bits {
    set: u64,
    clear: u64,
}

impl Bits {
    fn note(&mut self, number: u64) {
        self.set |= number;
        self.clear |= !number;
    }

    /// Each of the 64 must come both ways.
    fn missing(&self, what: &str) -> usize {
        let all: Vec<u64> = (0..64).collect();
        let one_way = |way, bits: u64| {
            let came = |bit| (bits >> bit) & 1 == 1;
            missing(&format!("{way}, {what}"), &all, came)
        };
        one_way("set", self.set) + one_way("clear", self.clear)
    }
}

/// Prints and counts those of the numbers that never came.
fn missing(what: &str, numbers: &[u64], came: impl Fn(u64) -> bool) -> usize {
    let never: Vec<_> = numbers.iter().filter(|number| !came(**number)).collect();
    if !never.is_empty() {
        println!("never {what}: {never:?}");
    }
    never.len()
}

/// What it shows of the headers that the object at this start was refused by this number.
fn shown(log: &[u8], number: u8, start: usize) -> Vec<&'static str> {
    let holds = |(what, of): &(&'static str, u8)| {
        (*of == number && shows(what, log, start)).then_some(*what)
    };
    SHOWN.iter().filter_map(holds).collect()
}

fn shows(what: &str, log: &[u8], start: usize) -> bool {
    let object = &log[start..];
    let size = u32_at(object, 8);
    let Some(row) = row(u32_at(object, 12)) else {
        return false;
    };
    let allowed = |header| row.bodies.allow(header, size);
    let second = Header::of(object) == Header::Second;
    match what {
        PAIR_AND_SIZE => !Header::BOTH.into_iter().any(allowed),
        FIRST_SIZE => second && allowed(Header::First),
        SECOND_SIZE => !second && allowed(Header::Second),
        GAP => second && object[STATUS_GAP] != 0 && without_gap(log, start) != Some(8),
        GAP_AND_CONTENT => second && without_gap(log, start) == Some(9),
        GAP_AND_UNIT => second && object[STATUS_GAP] != 0,
        _ => {
            let end = Header::First.length() + FRAME_START;
            second
                && row.kind >= 120
                && usize::from(u16_at(body(object), 22)) + end == size as usize
        }
    }
}

/// The number by which the object is refused once byte 21 is zero.
fn without_gap(log: &[u8], start: usize) -> Option<u8> {
    let mut log = log.to_vec();
    log[start + STATUS_GAP] = 0;
    match step(&log, start) {
        Answer::Refused(refusal) => Some(refusal.number),
        _ => None,
    }
}

/// The type of these bytes, where nothing else keeps them from being a foreign object.
fn no_foreign_type(object: &[u8]) -> Option<u32> {
    let kind = u32_at(object.get(..16)?, 12);
    let mut foreign = object.to_vec();
    put(&mut foreign, 12, &9_999u32.to_le_bytes());
    let written = write_foreign(&foreign, &mut vec![0; whole(object)]);
    written.is_ok().then_some(kind)
}

/// The objects that were let through where nothing was refused: that at the position, or all of a log.
fn let_through(case: &Case) -> Vec<Object> {
    let mut objects = Vec::new();
    let (mut position, most) = match case.question {
        1 | 5 => (case.number as usize, 1),
        2..=4 => (0, usize::MAX),
        _ => return objects,
    };
    while let Answer::Object(object) = step(&case.log, position) {
        position = object.next;
        objects.push(object);
        if objects.len() == most {
            break;
        }
    }
    objects
}

/// Is what is refused here an object whose padding goes up to a multiple of four? Two zero bytes too many stand behind
/// it (1 and 2: these are refused, it is the one before) or two too few (5 and 6), and then comes the log's end (1 and
/// 5) or an object (2 and 6).
fn old_padding(log: &[u8], number: u8, at: usize) -> Option<&'static str> {
    let start = match number {
        number::HEAD | number::SIGNATURE => object_up_to(log, at)?,
        number::CUT | number::PADDING => at,
        _ => return None,
    };
    let object = &log[start..];
    let size = u32_at(object, 8) as usize;
    let old = size.next_multiple_of(4);
    let zeros = object.get(size..old)?;
    let behind = &object[old..];
    let follows = match number {
        number::HEAD | number::CUT => behind.is_empty(),
        _ => behind.starts_with(&SIGNATURE),
    };
    let foreign = row(u32_at(object, 12)).is_none();
    let is_old = size % 2 == 1 && zeros.iter().all(|b| *b == 0) && follows;
    is_old.then_some(OLD[usize::from(foreign)])
}

/// The start of the object that a walk meets right before this place.
fn object_up_to(log: &[u8], place: usize) -> Option<usize> {
    let mut position = 0;
    while let Answer::Object(object) = step(log, position) {
        if object.next == place {
            return Some(object.start);
        }
        position = object.next;
    }
    None
}
