//! W-201: the cases of questions 1 to 4, by sweeps and at random.
use super::asc::walked;
use super::asc_texts;
use super::cases::{Case, LIMIT};
use mshelovat_reference::asc::{self, LineAt};
use mshelovat_reference::gen::{self, Damage, Rng, DAMAGES, LISTED};
use mshelovat_reference::header::{header_length, STATUS_GAP};
use mshelovat_reference::layout::{put, u32_at};
use mshelovat_reference::records::*;

/// The types that have a line.
pub const KINDS: [u32; 3] = [1, 3, 4];
/// Ids of every length, and both sides of bit 31.
#[rustfmt::skip]
const IDS: [u32; 12] = [
    0, 0xF, 0x10, 0x7FF, 0x800, 0x1FFF_FFFF, 0x0ABC_DEF0, 0x7FFF_FFFF, 0x8000_0000, 0x8000_0001,
    0x9FFF_FFFF, 0xFFFF_FFFF,
];

impl Case {
    fn object(object: Vec<u8>, room: usize) -> Case {
        Case {
            question: 1,
            number: room.min(LIMIT) as u64,
            first: object,
            second: Vec::new(),
        }
    }

    fn position(log: Vec<u8>, position: u64, room: usize) -> Case {
        Case {
            question: 2,
            number: position,
            first: log,
            second: (room.min(LIMIT) as u32).to_le_bytes().to_vec(),
        }
    }

    fn text(text: Vec<u8>) -> Case {
        Case {
            question: 3,
            number: 0,
            first: text,
            second: Vec::new(),
        }
    }

    fn record(object: Vec<u8>, kind: u32, room: usize) -> Case {
        Case {
            question: 4,
            number: room.min(LIMIT) as u64,
            first: object,
            second: kind.to_le_bytes().to_vec(),
        }
    }
}

/// A number up to `most`, which is all ones: often at its end or where a digit more begins.
fn number(rng: &mut Rng, most: u64) -> u64 {
    match rng.below(4) {
        0 => 10u64.pow(rng.below(most.ilog10() as usize + 1) as u32) - rng.below(2) as u64,
        1 => most - rng.below(3) as u64,
        _ => rng.number() & most,
    }
}

fn counter(rng: &mut Rng) -> u32 {
    number(rng, u32::MAX.into()) as u32
}

fn head(rng: &mut Rng) -> Head {
    let first = Own::First {
        client_index: rng.number() as u16,
    };
    let both = [first, gen::second_own(rng)];
    Head {
        unit: rng.pick(&[1, 2]),
        own: rng.pick(&both),
        version: rng.number() as u16,
        time: number(rng, u64::MAX),
    }
}

fn message(rng: &mut Rng, head: Head, channel: u16) -> CanMessage {
    let (flags, dlc, id) = (rng.byte(), rng.byte(), rng.number() as u32);
    let front = CanFront {
        channel,
        flags: rng.pick(&[0, 0, 1, 1, 0x80, 0x81, 0x7E, flags]),
        dlc: rng.pick(&[
            0, 1, 2, 3, 4, 5, 6, 7, 8, 8, 9, 10, 15, 16, 99, 100, 255, dlc,
        ]),
        id: if rng.once_in(2) { rng.pick(&IDS) } else { id },
    };
    CanMessage {
        head,
        front,
        data: rng.array(),
    }
}

/// A valid record that has a line.
fn record(rng: &mut Rng, kind: u32) -> Record<'static> {
    let head = head(rng);
    let channel = number(rng, u16::MAX.into()) as u16;
    match kind {
        1 => Record::CanMessage(message(rng, head, channel)),
        3 => Record::CanOverload(CanOverload { head, channel }),
        _ => Record::CanStatistic(CanStatistic {
            head,
            channel,
            bus_load: number(rng, u16::MAX.into()) as u16,
            standard_data: counter(rng),
            extended_data: counter(rng),
            standard_remote: counter(rng),
            extended_remote: counter(rng),
            error: counter(rng),
            overload: counter(rng),
        }),
    }
}

/// A sound object that has a line.
fn can_object(rng: &mut Rng, kind: u32) -> Vec<u8> {
    raw(&record(rng, kind))
}

/// The line of an object; nothing where it has none.
fn line_of(object: &[u8]) -> Vec<u8> {
    let mut out = [0; 256];
    let used = asc::object_line(object, &mut out).unwrap_or(0);
    out[..used].to_vec()
}

/// A random record's line.
pub fn any_line(rng: &mut Rng) -> Vec<u8> {
    let kind = rng.pick(&KINDS);
    line_of(&can_object(rng, kind))
}

/// Room for a line of this length: often exactly so much or next to it.
fn any_room(rng: &mut Rng, length: usize) -> usize {
    match rng.below(8) {
        0 => 0,
        1 | 2 => rng.below(length + 1),
        3 | 4 => (length + 2).saturating_sub(rng.below(5)),
        5 => length + rng.below(200),
        _ => length,
    }
}

/// A case of one of the four questions.
pub fn at_random(rng: &mut Rng, question: usize, turn: usize) -> Case {
    match question {
        1 => {
            let object = any_object(rng, turn);
            let room = any_room(rng, line_of(&object).len());
            Case::object(object, room)
        }
        2 => at_position(rng, turn),
        3 => {
            let mut text = asc_texts::any_text(rng, turn);
            text.truncate(LIMIT);
            Case::text(text)
        }
        _ => any_record(rng, turn),
    }
}

/// An object that has a line, one that has none, or bytes that are none; no longer than a part.
fn any_object(rng: &mut Rng, turn: usize) -> Vec<u8> {
    let mut object = can_object(rng, KINDS[turn % 3]);
    match turn % 10 {
        0..=3 => {}
        4 => wrong_unit(rng, &mut object),
        5 => {
            let kind = rng.pick(&LISTED);
            object = gen::object(rng, kind);
        }
        6 => object = gen::foreign(rng),
        7 => {
            let length = rng.below(80);
            object = rng.bytes(length);
        }
        _ => damage(rng, &mut object, turn / 10),
    }
    object
}

fn wrong_unit(rng: &mut Rng, object: &mut [u8]) {
    let any = rng.number() as u32;
    let unit = rng.pick(&[0, 3, 0x0100, 0x0201, 0x0100_0000, 0x0200_0002, any]);
    put(object, 16, &unit.to_le_bytes());
}

/// Damages an object that has a line; half the time its unit is wrong besides.
fn damage(rng: &mut Rng, object: &mut Vec<u8>, turn: usize) {
    if rng.once_in(2) {
        wrong_unit(rng, object);
    }
    let length = object.len();
    let any = rng.number() as u32;
    match turn % 12 {
        0 => object[rng.below(4)] ^= rng.nonzero(),
        1 => {
            let size = rng.pick(&[0, 15, 16, 31, 32, 33, 40, 41, 48, 0x2020, any as u16]);
            put(object, 4, &size.to_le_bytes());
        }
        2 => {
            let version = rng.pick(&[0, 1, 2, 3, 0x0101, 0x0102, any as u16]);
            put(object, 6, &version.to_le_bytes());
        }
        3 => put(object, 8, &any_size(rng).to_le_bytes()),
        4 => {
            let kind = rng.pick(&[0, 1, 2, 3, 4, 5, 50, 86, 100, 103, 120, 0x0100_0003, any]);
            put(object, 12, &kind.to_le_bytes());
        }
        5 => object.truncate(rng.below(length)),
        6 => {
            let more = rng.from_to(1, 8);
            object.resize(length + more, 0);
        }
        7 => {
            let size = rng.from_to(33, 76);
            object.resize(size, 0);
            put(object, 8, &(size as u32).to_le_bytes());
        }
        8 => set_reserved(rng, object),
        9 => {
            let other = Header::of(object).other();
            put(object, 4, &other.pair());
        }
        10 => {
            put(object, 4, &gen::wrong_pair(rng));
            put(object, 8, &any_size(rng).to_le_bytes());
        }
        _ => object.extend_from_within(..),
    }
}

/// An object size: of one of the types under one of the headers, next to one, or any.
fn any_size(rng: &mut Rng) -> u32 {
    let any = rng.number() as u32;
    rng.pick(&[
        0,
        5,
        15,
        16,
        35,
        36,
        37,
        44,
        45,
        48,
        49,
        56,
        60,
        64,
        68,
        0x0100_0024,
        any,
    ])
}

/// Sets a byte that is reserved in an overload, of the body or of the second header. In the other types, and in the
/// first header, it is a field's.
fn set_reserved(rng: &mut Rng, object: &mut [u8]) {
    let body = header_length(object);
    let at = rng.pick(&[body + 2, body + 3, STATUS_GAP, STATUS_GAP]);
    object[at] = rng.nonzero();
}

/// A line at a position: mostly an object's, in a log of lines or in any log.
fn at_position(rng: &mut Rng, turn: usize) -> Case {
    let few = rng.below(4);
    let mut log = match turn % 6 {
        0 => gen::any_log(rng, few),
        1 => gen::damaged_log(rng, few, DAMAGES[(turn / 6) % DAMAGES.len()]),
        _ => can_log(rng, turn),
    };
    log.truncate(LIMIT);
    let position = match rng.below(8) {
        0 => rng.number(),
        1 | 2 => gen::position(rng, &log) as u64,
        _ => gen::an_object(rng, &log) as u64,
    };
    let length = length_at(&log, position);
    let room = any_room(rng, length);
    Case::position(log, position, room)
}

fn length_at(log: &[u8], position: u64) -> usize {
    match asc::line_at(log, position as usize, &mut [0; 256]) {
        LineAt::Line { used, .. } => used,
        _ => 0,
    }
}

/// A log of a few objects, most of which have a line; often the last one is damaged.
fn can_log(rng: &mut Rng, turn: usize) -> Vec<u8> {
    let mut log = Vec::new();
    for _ in 0..rng.from_to(1, 5) {
        let kind = rng.pick(&[1, 3, 4, 1, 3, 4, 62, 86, 100, 103, 9_999]);
        let object = if KINDS.contains(&kind) {
            can_object(rng, kind)
        } else {
            gen::object(rng, kind)
        };
        log.extend(gen::padded(object));
    }
    if rng.once_in(2) {
        let mut object = can_object(rng, KINDS[turn % 3]);
        match rng.below(4) {
            0 => wrong_unit(rng, &mut object),
            1 => set_reserved(rng, &mut object),
            _ => damage(rng, &mut object, turn / 6),
        }
        log.extend(object);
    }
    log
}

/// A record: of its own object, of a damaged one, or of bytes that are none.
fn any_record(rng: &mut Rng, turn: usize) -> Case {
    let kind = KINDS[turn % 3];
    let mut object = can_object(rng, kind);
    match turn % 8 {
        0..=3 => {}
        4 => wrong_unit(rng, &mut object),
        5 => damage(rng, &mut object, turn / 8),
        6 => {
            let length = rng.below(80);
            object = rng.bytes(length);
        }
        _ => object = can_object(rng, KINDS[(turn / 8) % 3]),
    }
    let room = any_room(rng, record_length(&object, kind));
    Case::record(object, kind, room)
}

/// The length of the line of the record that these bytes are; 0 where it is refused.
fn record_length(object: &[u8], kind: u32) -> usize {
    line_of(&raw(&record_in(kind, object))).len()
}

fn head_of(unit: u32, time: u64) -> Head {
    Head {
        unit,
        time,
        ..Head::default()
    }
}

/// The same under the second header, at another original time.
fn second_of(unit: u32, time: u64) -> Head {
    Head {
        own: Own::Second {
            status: 1,
            original: !time,
        },
        ..head_of(unit, time)
    }
}

fn message_of(head: Head, channel: u16, flags: u8, dlc: u8, id: u32) -> Record<'static> {
    Record::CanMessage(CanMessage {
        head,
        front: CanFront {
            channel,
            flags,
            dlc,
            id,
        },
        data: [0x09, 0x1A, 0x2B, 0x90, 0xA1, 0xB2, 0xFF, 0x00],
    })
}

/// Records with the shortest and the longest lines, and some between.
fn swept_records(rng: &mut Rng) -> Vec<Record<'static>> {
    let (first, last) = (second_of(2, 0), head_of(1, u64::MAX));
    let overload = |head, channel| Record::CanOverload(CanOverload { head, channel });
    let longest = CanStatistic {
        head: last,
        channel: 65_535,
        bus_load: 65_535,
        standard_data: u32::MAX,
        extended_data: u32::MAX - 1,
        standard_remote: u32::MAX - 2,
        extended_remote: u32::MAX - 3,
        error: u32::MAX - 4,
        overload: u32::MAX - 5,
    };
    vec![
        overload(first, 0),
        overload(last, 65_535),
        message_of(first, 0, 0, 0, 0),
        message_of(last, 65_535, 1, 255, u32::MAX),
        message_of(second_of(2, u64::MAX), 10, 0x81, 8, 0x8000_0ABC),
        Record::CanStatistic(longest),
        record(rng, 4),
    ]
}

/// All sweeps of these questions.
pub fn sweeps(rng: &mut Rng) -> Vec<Case> {
    let mut cases = Vec::new();
    for record in swept_records(rng) {
        let object = raw(&record);
        sweep_rooms(&object, &mut cases);
        let texts = asc_texts::sweep(rng, &line_of(&object));
        cases.extend(texts.into_iter().map(Case::text));
    }
    for kind in KINDS {
        for header in Header::BOTH {
            let object = gen::object_under(rng, header, kind);
            sweep_object(rng, &object, &mut cases);
        }
    }
    cases.extend(asc_texts::edges().into_iter().map(Case::text));
    sweep_places(rng, &mut cases);
    cases
}

/// A line by each of its calls, in every room up to one byte more than enough.
fn sweep_rooms(object: &[u8], cases: &mut Vec<Case>) {
    for room in 0..line_of(object).len() + 2 {
        cases.push(Case::object(object.to_vec(), room));
        cases.push(Case::position(object.to_vec(), 0, room));
        cases.push(Case::record(object.to_vec(), u32_at(object, 12), room));
    }
}

/// A damage for each of 2 to 9.
#[rustfmt::skip]
const REFUSED: [Damage; 8] = [
    Damage::Signature, Damage::WrongSize, Damage::HeaderVersion, Damage::HeaderCut,
    Damage::TwoPadding, Damage::Unit, Damage::TwoReserved, Damage::FrameLength,
];

/// Each of 2 to 9, and each of the reserved bytes of an overload and two of them, behind other objects.
fn sweep_places(rng: &mut Rng, cases: &mut Vec<Case>) {
    for damage in REFUSED {
        let (log, start) = loop {
            let log = gen::damaged_log(rng, 2, damage);
            let start = walked(&log);
            if start > 0 && log.len() <= LIMIT {
                break (log, start);
            }
        };
        cases.push(Case::position(log, start as u64, 160));
    }
    for header in Header::BOTH {
        let body = header.length();
        for set in [
            &[body + 2][..],
            &[body + 3],
            &[body + 2, body + 3],
            &[STATUS_GAP, body + 3],
        ] {
            let mut log = gen::padded(gen::object(rng, 103));
            let start = log.len();
            log.extend(gen::object_under(rng, header, 3));
            for at in set {
                log[start + at] = rng.nonzero();
            }
            cases.push(Case::position(log, start as u64, 160));
        }
    }
}

/// An object cut off at every length, and each byte changed: by each of the calls.
fn sweep_object(rng: &mut Rng, object: &[u8], cases: &mut Vec<Case>) {
    let kind = u32_at(object, 12);
    for at in 0..object.len() {
        let mut changed = object.to_vec();
        changed[at] ^= rng.nonzero();
        for bytes in [changed, object[..at].to_vec()] {
            cases.push(Case::object(bytes.clone(), 160));
            cases.push(Case::position(bytes.clone(), 0, 160));
            cases.push(Case::record(bytes, kind, 160));
        }
    }
}
