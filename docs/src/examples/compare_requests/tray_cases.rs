//! W-207: the cases of question 7, by sweeps and at random.
use super::cases::{Case, LIMIT};
use super::tray::{field, Tray, LENGTH, MOST};
use mshelovat_reference::gen::{self, Rng};
use mshelovat_reference::header::Header;
use mshelovat_reference::layout::put;
use mshelovat_reference::records::Own;
use mshelovat_reference::tray::Common;

/// The trays that are swept have no more messages than this.
const SWEPT: usize = 5;
/// Units that are none, some with a right byte.
const WRONG_UNITS: [u32; 7] = [0, 3, 0x0100, 0x0201, 0x0100_0000, 0x0200_0002, u32::MAX];

impl Case {
    fn tray(rng: &mut Rng, tray: &Tray, room: usize) -> Case {
        Case {
            question: 7,
            number: room.min(LIMIT) as u64,
            first: first_part(rng, tray),
            second: tray.data.clone(),
        }
    }
}

/// The first part. The ids and time stamps that are not used are anything.
fn first_part(rng: &mut Rng, tray: &Tray) -> Vec<u8> {
    let common = &tray.common;
    let (header, own, original) = match common.own {
        Own::First { client_index } => (1, client_index, 0),
        Own::Second { status, original } => (2, status.into(), original),
    };
    let mut part = rng.bytes(LENGTH);
    put(&mut part, field::HEADER, &[header]);
    put(&mut part, field::FLAGS, &[common.flags]);
    put(&mut part, field::DLC, &[common.dlc]);
    put(&mut part, field::IDS_COUNT, &[tray.ids.len() as u8]);
    put(&mut part, field::UNIT, &common.unit.to_le_bytes());
    put(&mut part, field::OWN, &own.to_le_bytes());
    put(&mut part, field::VERSION, &common.version.to_le_bytes());
    put(&mut part, field::CHANNEL, &common.channel.to_le_bytes());
    put(&mut part, field::STAMPS_COUNT, &[tray.stamps.len() as u8]);
    put(&mut part, field::ZERO, &[0]);
    put(&mut part, field::ORIGINAL, &original.to_le_bytes());
    for (i, id) in tray.ids.iter().enumerate() {
        put(&mut part, field::IDS + 4 * i, &id.to_le_bytes());
    }
    for (i, stamp) in tray.stamps.iter().enumerate() {
        put(&mut part, field::STAMPS + 8 * i, &stamp.to_le_bytes());
    }
    part
}

fn stamps(rng: &mut Rng, count: usize) -> Vec<u64> {
    (0..count).map(|_| rng.number()).collect()
}

/// A tray of so many messages that is right but for the room.
fn even_tray(rng: &mut Rng, header: Header, count: usize) -> Tray {
    let own = match header {
        Header::First => Own::First {
            client_index: rng.number() as u16,
        },
        Header::Second => gen::second_own(rng),
    };
    let common = Common {
        unit: rng.pick(&[1, 2]),
        own,
        version: rng.number() as u16,
        channel: rng.number() as u16,
        flags: rng.byte(),
        dlc: rng.byte(),
    };
    Tray {
        common,
        ids: (0..count).map(|_| rng.number() as u32).collect(),
        stamps: stamps(rng, count),
        data: rng.bytes(8 * count),
    }
}

/// Any tray: with a wrong unit, with slices that mostly do not go together, with both, or right.
pub fn any_tray(rng: &mut Rng, turn: usize) -> Case {
    let (header, count) = (rng.pick(&Header::BOTH), rng.below(MOST + 1));
    let mut tray = even_tray(rng, header, count);
    if matches!(turn % 8, 0 | 1) {
        let any = rng.number() as u32;
        let wrong = rng.pick(&WRONG_UNITS);
        tray.common.unit = rng.pick(&[any, wrong, wrong]);
    }
    if matches!(turn % 8, 1..=3) {
        make_uneven(rng, &mut tray);
    }
    let room = any_room(rng, &tray);
    Case::tray(rng, &tray, room)
}

/// Other time stamps, other data, or both: mostly not as many.
fn make_uneven(rng: &mut Rng, tray: &mut Tray) {
    let turn = rng.below(3);
    if turn != 0 {
        let count = rng.below(MOST + 1);
        tray.stamps = stamps(rng, count);
    }
    if turn != 1 {
        let (any, near) = (rng.below(81), rng.pick(&lengths(tray.ids.len())));
        let length = rng.pick(&[any, near, near]);
        tray.data = rng.bytes(length);
    }
}

/// None, all that there is room for, or something between: often a message's end or next to it.
fn any_room(rng: &mut Rng, tray: &Tray) -> usize {
    let (size, needed) = (tray.size(), tray.needed());
    match rng.below(8) {
        0 => 0,
        1 | 2 => rng.below(needed + 1),
        3 | 4 => {
            let end = size * rng.below(tray.ids.len() + 1);
            (end + 1).saturating_sub(rng.below(3))
        }
        5 => needed + rng.below(200),
        _ => needed,
    }
}

/// All sweeps of this question.
pub fn sweeps(rng: &mut Rng) -> Vec<Case> {
    let mut cases = Vec::new();
    for header in Header::BOTH {
        for count in 0..=SWEPT {
            sweep_rooms(rng, header, count, &mut cases);
            sweep_units(rng, header, count, &mut cases);
            sweep_uneven(rng, header, count, &mut cases);
        }
    }
    cases
}

/// Rooms for so many messages of a size: all in which the last one, and it alone, has no room, and
/// up to one byte more than enough; before these, the first and the last in which each of the others
/// has none. All trays together meet every room.
fn rooms(size: usize, count: usize) -> Vec<usize> {
    let last = count.saturating_sub(1);
    let others = (0..last).flat_map(|n| [size * n, size * (n + 1) - 1]);
    others.chain(size * last..=size * count + 1).collect()
}

/// These rooms, with either unit in turn.
fn sweep_rooms(rng: &mut Rng, header: Header, count: usize, cases: &mut Vec<Case>) {
    let size = even_tray(rng, header, count).size();
    for room in rooms(size, count) {
        let mut tray = even_tray(rng, header, count);
        tray.common.unit = 1 + room as u32 % 2;
        cases.push(Case::tray(rng, &tray, room));
    }
}

/// Wrong units in turn, which a tray of none does not mind: with no room, too little for one
/// message, and enough for all.
fn sweep_units(rng: &mut Rng, header: Header, count: usize, cases: &mut Vec<Case>) {
    let mut tray = even_tray(rng, header, count);
    let rooms = [0, tray.size() - 1, tray.needed() + 1];
    for (turn, room) in rooms.into_iter().enumerate() {
        tray.common.unit = WRONG_UNITS[(3 * count + turn) % WRONG_UNITS.len()];
        cases.push(Case::tray(rng, &tray, room));
    }
}

/// Bytes of data for so many messages: enough, a byte or a message less or more, and none.
fn lengths(count: usize) -> Vec<usize> {
    let enough = 8 * count;
    let (byte, message) = (enough.saturating_sub(1), enough.saturating_sub(8));
    let mut lengths = vec![0, message, byte, enough, enough + 1, enough + 8];
    lengths.dedup();
    lengths
}

/// How many time stamps and bytes of data do not go together with so many ids: any time stamps with
/// enough data, and any of these lengths with as many time stamps, one less and one more.
fn uneven(count: usize) -> Vec<(usize, usize)> {
    let enough = 8 * count;
    let mut pairs: Vec<_> = (0..=MOST).map(|stamps| (stamps, enough)).collect();
    for length in lengths(count) {
        let near = [count.saturating_sub(1), count, count + 1];
        pairs.extend(near.map(|stamps| (stamps, length)));
    }
    pairs.sort_unstable();
    pairs.dedup();
    pairs.retain(|pair| *pair != (count, enough));
    pairs
}

/// Slices that do not go together: with all else right; and where the time stamps are nearly as many
/// as the ids, with a wrong unit, no room or both.
fn sweep_uneven(rng: &mut Rng, header: Header, count: usize, cases: &mut Vec<Case>) {
    for (turn, (number, length)) in uneven(count).into_iter().enumerate() {
        let mut tray = even_tray(rng, header, count);
        tray.stamps = stamps(rng, number);
        tray.data = rng.bytes(length);
        let enough = tray.needed() + 1;
        cases.push(Case::tray(rng, &tray, enough));
        if number.abs_diff(count) <= 1 {
            let (unit, room) = match turn % 3 {
                0 => (rng.pick(&WRONG_UNITS), enough),
                1 => (tray.common.unit, 0),
                _ => (rng.pick(&WRONG_UNITS), 0),
            };
            tray.common.unit = unit;
            cases.push(Case::tray(rng, &tray, room));
        }
    }
}
