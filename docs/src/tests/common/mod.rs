//! What the tests share.
#![allow(dead_code)]

use mshelovat_reference::layout::{occupied, Refusal};
use mshelovat_reference::programs::{desk, lister};

/// The types whose sizes do not depend on a frame, with these sizes.
pub const SIZES: [(u32, &[u32]); 9] = [
    (1, &[48]),
    (3, &[36]),
    (4, &[60]),
    (50, &[330]),
    (57, &[164, 168, 184]),
    (62, &[52]),
    (86, &[56]),
    (100, &[120]),
    (103, &[48]),
];

/// Bytes from hex text; blanks do not count.
pub fn hex(text: &str) -> Vec<u8> {
    let digits: Vec<char> = text.chars().filter(|c| !c.is_whitespace()).collect();
    let byte = |two: &[char]| u8::from_str_radix(&two.iter().collect::<String>(), 16).unwrap();
    digits.chunks(2).map(byte).collect()
}

/// M2: an overload on channel 1 at 1,000,000 ns.
pub fn m2() -> Vec<u8> {
    hex("4C4F424A 2000 0100 24000000 03000000 02000000 0000 0000 40420F0000000000 0100 0000")
}

/// A wake-up, all fields zero.
pub fn wake_up() -> Vec<u8> {
    let mut object = m2();
    object.resize(52, 0);
    object[8] = 52;
    object[12] = 62;
    object[32] = 0;
    object
}

/// A foreign object of type 9999 with zeros behind its head, no padding.
pub fn foreign(size: u32, header_size: u16) -> Vec<u8> {
    let mut object = hex("4C4F424A 0000 0000 00000000 0F270000");
    object[4..6].copy_from_slice(&header_size.to_le_bytes());
    object[8..12].copy_from_slice(&size.to_le_bytes());
    object.resize((size as usize).clamp(16, 4_096), 0);
    object
}

/// A listed object of this type and size: header, then zeros, with padding.
pub fn bare(kind: u32, size: u32) -> Vec<u8> {
    let mut object = m2();
    object.truncate(32);
    object[8..12].copy_from_slice(&size.to_le_bytes());
    object[12..16].copy_from_slice(&kind.to_le_bytes());
    object.resize(occupied(size) as usize, 0);
    object
}

/// A type 120 object as in the paper, of this size, sound up to 1,676.
pub fn frame_object(size: u32) -> Vec<u8> {
    let mut object = bare(120, size);
    object[32] = 32;
    object[54..56].copy_from_slice(&((size - 64) as u16).to_le_bytes());
    object[64..size as usize].fill(0xAB);
    object
}

/// A FlexRay receive with these counts, padding included.
pub fn flexray(data_count: u16, byte_count: u16) -> Vec<u8> {
    let mut object = bare(50, 330);
    object[54..56].copy_from_slice(&byte_count.to_le_bytes());
    object[56..58].copy_from_slice(&data_count.to_le_bytes());
    object
}

/// The original time stamp that [`second`] puts in.
pub const ORIGINAL: u64 = 0x0807_0605_0403_0201;

/// The same object under the second header: eight bytes longer, its low byte of
/// the client index for a status.
pub fn second(object: &[u8]) -> Vec<u8> {
    let size = u32::from_le_bytes(object[8..12].try_into().unwrap()) + 8;
    let (front, body) = object.split_at(32);
    let mut second = [front, &ORIGINAL.to_le_bytes(), body].concat();
    second[4..8].copy_from_slice(&[40, 0, 2, 0]);
    second[8..12].copy_from_slice(&size.to_le_bytes());
    second[21] = 0;
    second
}

/// An object under the first header, and under the second.
pub fn both(object: Vec<u8>) -> [Vec<u8>; 2] {
    let second = second(&object);
    [object, second]
}

/// Where a byte of the first header's object stands in this one: behind the
/// second header eight bytes further on.
pub fn moved(object: &[u8], offset: usize) -> usize {
    match object[4] {
        40 if offset >= 32 => offset + 8,
        _ => offset,
    }
}

/// A refusal as a result.
pub fn refused<T>(number: u8, place: usize) -> Result<T, Refusal> {
    Err(Refusal { number, place })
}

/// A slip of the paper: desk and entries (start, size, type).
pub fn slip(desk: u8, entries: &[(u32, u32, u32)]) -> Vec<u8> {
    let mut slip = (2 + 12 * entries.len() as u32).to_be_bytes().to_vec();
    slip.extend([1, desk]);
    for (start, size, kind) in entries {
        slip.extend(start.to_be_bytes());
        slip.extend(size.to_be_bytes());
        slip.extend(kind.to_be_bytes());
    }
    slip
}

/// Slips or objects end to end.
pub fn joined(parts: &[Vec<u8>]) -> Vec<u8> {
    parts.concat()
}

/// Holds both programs to the answers of another reading of the papers; gives
/// how many there are. The first line tells how the others are made up.
pub fn shared_cases(cases: &str) -> usize {
    let cases = cases.lines().skip(1);
    let hold = |case: &str| {
        let parts: Vec<&str> = case.split(" = ").collect();
        let words: Vec<&str> = parts[0].split(' ').collect();
        let (log, bundle) = (hex(words[1]), hex(words[2]));
        let text = parts[1].replace('/', "\n") + "\n";
        assert_eq!(lister(&log), text, "{}", words[0]);
        let text = format!("{}\n", parts[2]);
        assert_eq!(desk(Some(&log), Some(&bundle)), text, "{}", words[0]);
    };
    cases.map(hold).count()
}
