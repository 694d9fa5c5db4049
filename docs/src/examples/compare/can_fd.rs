//! The cases on types 86 and 100 (W-208): the sizes that they have and others, with which they passed as foreign
//! objects; the valid bytes on both sides of their rule; and old copies that are offered as foreign objects.
use super::cases::{whole, Case};
use mshelovat_reference::gen::{self, Rng};
use mshelovat_reference::header::Header;
use mshelovat_reference::layout::{kind, put, row, u32_at};
use mshelovat_reference::object::reserved_bytes;

/// The two types, each with sizes of both headers and others, 116 of python-can among them.
const SIZES: [(u32, &[usize]); 2] = [
    (86, &[44, 48, 52, 53, 55, 56, 57, 60, 63, 64, 65, 68, 72]),
    (
        100,
        &[
            104, 105, 106, 107, 112, 116, 119, 120, 121, 124, 127, 128, 129, 132, 136,
        ],
    ),
];

/// Valid bytes on both sides of their rule.
const VALID: [u8; 9] = [0, 8, 63, 64, 65, 66, 127, 128, 255];

/// All of them.
pub fn sweep(rng: &mut Rng) -> Vec<Case> {
    let mut cases = Vec::new();
    for header in Header::BOTH {
        for (kind, sizes) in SIZES {
            let object = gen::object_under(rng, header, kind);
            sweep_sizes(&object, sizes, &mut cases);
        }
        let object = gen::object_under(rng, header, kind::CAN_FD_MESSAGE);
        sweep_valid(&object, &mut cases);
        sweep_order(&object, &mut cases);
    }
    for (kind, _) in SIZES.into_iter().cycle().take(12) {
        offer(gen::old_foreign(rng, kind), &mut cases);
    }
    cases
}

/// An object with other bytes at an offset.
fn with(object: &[u8], offset: usize, bytes: &[u8]) -> Vec<u8> {
    let mut object = object.to_vec();
    put(&mut object, offset, bytes);
    object
}

fn read(object: Vec<u8>, cases: &mut Vec<Case>) {
    let wanted = u32_at(&object, 12);
    cases.push(Case::reads(gen::padded(object), 0, wanted));
}

/// Offered as a foreign object, with room enough and with none.
fn offer(object: Vec<u8>, cases: &mut Vec<Case>) {
    cases.push(Case::writes(7, object.clone(), whole(&object)));
    cases.push(Case::writes(7, object, 0));
}

/// An object of each of these sizes, with its padding: read, and offered as a foreign object. What a longer one has
/// more is zero.
fn sweep_sizes(object: &[u8], sizes: &[usize], cases: &mut Vec<Case>) {
    for size in sizes {
        let mut object = with(object, 8, &(*size as u32).to_le_bytes());
        object.resize(*size, 0);
        read(object.clone(), cases);
        offer(object, cases);
    }
}

/// Every number of valid bytes, whatever the DLC is, with data that is nowhere zero: read; and written, with room
/// enough and with none.
fn sweep_valid(object: &[u8], cases: &mut Vec<Case>) {
    let body = Header::of(object).length();
    for valid in VALID {
        for dlc in [0, 8, 255] {
            let object = with(object, body + 3, &[dlc]);
            let object = with(&object, body + 20, &[valid | 1; 64]);
            let object = with(&object, body + 14, &[valid]);
            read(object.clone(), cases);
            cases.push(Case::writes(6, object.clone(), whole(&object)));
            cases.push(Case::writes(6, object, 0));
        }
    }
}

/// Valid bytes above 64, with another fault: each reserved byte, the header's own among them, and the unit.
fn sweep_order(object: &[u8], cases: &mut Vec<Case>) {
    let header = Header::of(object);
    let broken = with(object, header.length() + 14, &[65]);
    let row = row(kind::CAN_FD_MESSAGE).expect("a listed type");
    for at in reserved_bytes(header, row) {
        read(with(&broken, at, &[1]), cases);
    }
    let unit = with(&broken, 16, &[0]);
    cases.push(Case::writes(6, unit.clone(), whole(object)));
    read(unit, cases);
}
