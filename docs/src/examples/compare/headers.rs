//! The cases on the two headers: every type under each of them, with its pair, its size and its fields right and wrong.
use super::cases::Case;
use mshelovat_reference::gen::{self, Rng, LISTED};
use mshelovat_reference::header::{Header, STATUS_GAP};
use mshelovat_reference::layout::{kind, put, row, u32_at, FRAME_START};
use mshelovat_reference::object::has_frame;

/// Header sizes and versions: those of neither header first, then those of the two.
#[rustfmt::skip]
const PAIRS: [(u16, u16); 9] = [
    (32, 2), (40, 1), (33, 1), (40, 3), (0, 0), (40, 0x0102), (0x0128, 2), (32, 1), (40, 2),
];

/// All of them.
pub fn sweep(rng: &mut Rng) -> Vec<Case> {
    let mut cases = Vec::new();
    for header in Header::BOTH {
        for kind in LISTED {
            let object = gen::object_under(rng, header, kind);
            sweep_pairs_and_sizes(&object, &mut cases);
            sweep_reserved(&object, &mut cases);
            sweep_lengths(&object, &mut cases);
            sweep_writes(&object, &mut cases);
        }
    }
    sweep_foreign(&mut cases);
    cases
}

/// An object with other bytes at an offset.
fn with(object: &[u8], offset: usize, bytes: &[u8]) -> Vec<u8> {
    let mut object = object.to_vec();
    put(&mut object, offset, bytes);
    object
}

fn with_pair(object: &[u8], (size, version): (u16, u16)) -> Vec<u8> {
    let object = with(object, 4, &size.to_le_bytes());
    with(&object, 6, &version.to_le_bytes())
}

fn with_size(object: &[u8], size: u32) -> Vec<u8> {
    with(object, 8, &size.to_le_bytes())
}

fn front(object: &[u8], length: usize) -> Vec<u8> {
    object[..length.min(object.len())].to_vec()
}

fn read(object: Vec<u8>, cases: &mut Vec<Case>) {
    let wanted = u32_at(&object, 12);
    cases.push(Case::reads(gen::padded(object), 0, wanted));
}

/// Every pair, with its own size and with wrong ones: too small, and off by 1 and by the length that the other header
/// has more or less. The log has as many bytes as the larger of the two asks for.
fn sweep_pairs_and_sizes(object: &[u8], cases: &mut Vec<Case>) {
    let size = object.len() as u32;
    let mut longer = object.to_vec();
    longer.resize(object.len() + 8, 0);
    for pair in PAIRS {
        let object = with_pair(&longer, pair);
        for size in [size, 5, size - 8, size + 8, size + 1] {
            read(with_size(&object, size), cases);
        }
    }
    for size in [0, 7, 8, 15, 16, 32, 39, 40, u32::MAX - 7] {
        read(with_size(object, size), cases);
    }
}

/// The byte behind the status: alone, with a wrong unit, a wrong content, another reserved byte. Under the first header
/// it is a field.
fn sweep_reserved(object: &[u8], cases: &mut Vec<Case>) {
    for gap in [0, 1, 0x80] {
        let object = with(object, STATUS_GAP, &[gap]);
        read(object.clone(), cases);
        read(with(&object, 16, &[0]), cases);
        let kind = u32_at(&object, 12);
        let body = Header::of(&object).length();
        for at in row(kind).expect("a listed type").reserved.iter().take(1) {
            read(with(&object, body + at, &[1]), cases);
        }
        if has_frame(kind) {
            read(with(&object, body, &[31]), cases);
        }
        if kind == kind::FLEXRAY_RECEIVE {
            read(with(&object, body + 24, &[255, 0]), cases);
        }
    }
}

/// Cut off around the ends of the two headers; and a frame's length counted from the end of either.
fn sweep_lengths(object: &[u8], cases: &mut Vec<Case>) {
    let wanted = u32_at(object, 12);
    for length in [31, 32, 35, 36, 39, 40, 41] {
        cases.push(Case::reads(front(object, length), 0, wanted));
    }
    if has_frame(wanted) {
        let at = Header::of(object).length() + 22;
        for header in Header::BOTH {
            let length = (object.len() as u16).wrapping_sub((header.length() + FRAME_START) as u16);
            read(with(object, at, &length.to_le_bytes()), cases);
        }
    }
}

/// Written as the object that the bytes are: what a write must set right; the fields of the header all ones; every
/// pair, where a pair of neither header counts as the first's; and too few bytes. A LIN message keeps its pair, since
/// its length would else be none that a LIN message has.
fn sweep_writes(object: &[u8], cases: &mut Vec<Case>) {
    let ones = with(object, 20, &[0xFF; 12]);
    let mut objects = vec![
        with(object, STATUS_GAP, &[0xFF]),
        with_size(object, 5),
        ones,
    ];
    if u32_at(object, 12) != kind::LIN_MESSAGE {
        objects.extend(PAIRS.map(|pair| with_pair(object, pair)));
    }
    objects.extend([16, 31, 32, 36, 39].map(|length| front(object, length)));
    for object in objects {
        let room = gen::padded(object.clone()).len() + 8;
        cases.push(Case::writes(6, object, room));
    }
}

/// A foreign object has neither header, whatever its pair: its header size may be anything from 16 to its size.
fn sweep_foreign(cases: &mut Vec<Case>) {
    for size in [5, 15, 16, 31, 32, 36, 39, 40, 44] {
        for pair in PAIRS {
            let mut object = vec![0xFF; 44];
            put(&mut object, 0, b"LOBJ");
            put(&mut object, 12, &9_999u32.to_le_bytes());
            let object = with_pair(&with_size(&object, size), pair);
            let log = gen::padded(object[..(size as usize).max(16)].to_vec());
            cases.push(Case::reads(log, 0, 3));
        }
    }
}
