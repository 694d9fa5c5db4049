//! What a refusal shows of its place (W-205), and what must be shown. All of it is told by the bytes of the log and by
//! offsets that were taken from document 01 and from W-208 once more, not by the reader's own list.
use super::cases::Case;
use mshelovat_reference::gen::LISTED;
use mshelovat_reference::header::{body, Header, SIGNATURE};
use mshelovat_reference::layout::{padding, row, u16_at, u32_at};
use mshelovat_reference::object::has_frame;

/// Refused where other objects stand before, by question: by each of 2 to 9.
const BEHIND: [&str; 5] = [
    "refused behind others, step",
    "refused behind others, walk",
    "refused behind others, check",
    "refused behind others, log written again",
    "refused behind others, read",
];
/// The first letter that differs.
const LETTER: &str = "refused for a letter of the signature";
/// By type.
const SIZE: &str = "refused for the size, by type";
const FOREIGN_SIZE: &str = "refused for the size, foreign";
/// Header, then type and size in three digits each: sizes with which types 86 and 100 passed as foreign before W-208.
const OLD_SIZE: &str = "refused for a size of types 86 and 100, by header, type and size";
/// What is wrong with the header of one of the thirteen types, by type; and with that of a foreign object: below 16 (0)
/// or above the size (1).
const PAIR: [&str; 4] = [
    "refused for the header size, by type",
    "refused for the header version, by type",
    "refused for header size and version, by type",
    "refused for one header's size with the other's version, by type",
];
const FOREIGN_PAIR: &str = "refused for the header size, foreign";
/// Where the log ends: within the 16 bytes and the header (1), the rest of the object (2), the padding (3).
const CUT: [&str; 2] = ["refused, cut off, listed", "refused, cut off, foreign"];
/// How many bytes the padding has, then which of them is the first wrong one; and the same where a later one is wrong
/// too.
const ZEROS: [&str; 2] = [
    "refused for padding, listed",
    "refused for padding, foreign",
];
const LATER_ZEROS: [&str; 2] = [
    "refused for the first of two padding bytes, listed",
    "refused for the first of two padding bytes, foreign",
];
/// Header (1 or 2), then type in three digits.
const UNIT: &str = "refused for the unit, by header and type";
/// Header, then type and byte in three digits each; and the same where a later one is wrong too.
const RESERVED: &str = "refused for a reserved byte, by header, type and byte";
const LATER_RESERVED: &str = "refused for the first of two reserved bytes, by the same";
/// Header, then type.
const STRUCTURE: &str = "refused for the structure length, by header and type";
const BOTH_LENGTHS: &str = "refused for the structure length, the frame length being wrong too";
const FRAME: &str = "refused for the frame length, by header and type";
const COUNT: [&str; 3] = [
    "refused for the data count, above 254",
    "refused for the data count, above the byte count",
    "refused for the data count, above both",
];
const RATE: &str = "refused for the exact rate";
const VALID: &str = "refused for the valid bytes";
const RESERVED_AND_VALID: &str = "refused for a reserved byte, the valid bytes being wrong too";

/// The reserved bytes of the types that have some behind the header, counted under the first.
const BYTES: [(u64, &[u64]); 8] = [
    (3, &[34, 35]),
    (50, &[39, 59, 72, 73, 74, 75]),
    (57, &[46, 47, 161, 162, 163]),
    (62, &[46, 47, 51]),
    (86, &[53, 54, 55]),
    (100, &[47, 48, 49, 50, 51, 116, 117, 118, 119]),
    (120, &[60, 61, 62, 63]),
    (121, &[60, 61, 62, 63]),
];

/// Sizes of types 86 and 100 that must be refused under each header: they are loggers' own, the other header's, or next
/// to the right ones. 116 is python-can's of type 100, and 124 would be under the second header.
const OLD_SIZES: [(u64, u64, &[u64]); 4] = [
    (1, 86, &[48, 52, 60, 64]),
    (2, 86, &[48, 52, 56, 60]),
    (1, 100, &[116, 124, 128]),
    (2, 100, &[116, 120, 124]),
];

/// A thing that must come, with its numbers.
type Must = (&'static str, Vec<u64>);

/// What must come.
pub fn musts() -> Vec<Must> {
    let types = LISTED.map(u64::from).to_vec();
    let mut musts = vec![(LETTER, (0..4).collect())];
    musts.extend(BEHIND.map(|what| (what, (2..=9).collect())));
    musts.extend([(SIZE, types.clone()), (FOREIGN_SIZE, vec![3])]);
    musts.push((OLD_SIZE, old_sizes()));
    musts.extend(PAIR.map(|what| (what, types.clone())));
    musts.push((FOREIGN_PAIR, vec![0, 1]));
    musts.extend([(CUT[0], vec![1, 2, 3]), (CUT[1], vec![2, 3])]);
    musts.extend(ZEROS.map(|what| (what, vec![10, 20, 21, 30, 31, 32])));
    musts.extend(LATER_ZEROS.map(|what| (what, vec![20, 30, 31])));
    musts.push((UNIT, under_both(&types)));
    musts.extend([(RESERVED, reserved(0)), (LATER_RESERVED, reserved(1))]);
    let frames = [STRUCTURE, BOTH_LENGTHS, FRAME];
    musts.extend(frames.map(|what| (what, under_both(&[120, 121, 122, 123]))));
    musts.extend(COUNT.map(|what| (what, under_both(&[50]))));
    musts.push((RATE, under_both(&[57])));
    musts.extend([VALID, RESERVED_AND_VALID].map(|what| (what, under_both(&[100]))));
    musts
}

fn old_sizes() -> Vec<u64> {
    let keys = |(header, kind, sizes): (u64, u64, &'static [u64])| {
        sizes.iter().map(move |size| key(header, kind, *size))
    };
    OLD_SIZES.into_iter().flat_map(keys).collect()
}

/// These types under both headers.
fn under_both(types: &[u64]) -> Vec<u64> {
    let under = |header: u64| types.iter().map(move |kind| 1_000 * header + kind);
    under(1).chain(under(2)).collect()
}

/// All reserved bytes, but so many of the last ones of each type.
fn reserved(but: usize) -> Vec<u64> {
    let mut keys = Vec::new();
    for (kind, bytes) in BYTES {
        for byte in &bytes[..bytes.len() - but] {
            keys.extend([1, 2].map(|header| key(header, kind, *byte)));
        }
    }
    // Byte 21 of the second header: of every type, or of those that have a later one.
    let with_later = |kind: &u64| BYTES.iter().any(|(of, _)| of == kind);
    let types = LISTED.map(u64::from).into_iter();
    keys.extend(
        types
            .filter(|kind| but == 0 || with_later(kind))
            .map(|kind| key(2, kind, 21)),
    );
    keys
}

fn key(header: u64, kind: u64, byte: u64) -> u64 {
    1_000_000 * header + 1_000 * kind + byte
}

/// A refused object.
struct Refused<'a> {
    object: &'a [u8],
    /// The place, counted from its start.
    at: usize,
    kind: u32,
    foreign: bool,
    header: Header,
}

/// A thing that came, with its number.
type Came = (&'static str, u64);

/// What it shows that the object at this start was refused by 2 to 9, at this place.
pub fn shown(case: &Case, number: u8, place: usize, start: usize) -> Vec<Came> {
    let mut came = Vec::new();
    if !(2..=9).contains(&number) || place < start {
        return came;
    }
    let object = &case.log[start..];
    let kind = u32_at(object, 12);
    let refused = Refused {
        object,
        at: place - start,
        kind,
        foreign: row(kind).is_none(),
        header: Header::of(object),
    };
    // The object's start is no place, but for the signature.
    let told = number == 2 || refused.at > 0;
    if told && start > 0 && case.walked() == start {
        came.push((BEHIND[usize::from(case.question) - 1], number.into()));
    }
    came.extend(match number {
        2 => refused.letter(),
        4 => refused.pair(),
        5 => refused.cut(),
        7 => (refused.at == 16).then(|| (UNIT, refused.by_header())),
        9 => refused.content(),
        _ => None,
    });
    match number {
        3 => came.extend(refused.size()),
        6 => came.extend(refused.zeros()),
        8 => came.extend(refused.reserved()),
        _ => {}
    }
    came
}

impl Refused<'_> {
    /// Header and type.
    fn by_header(&self) -> u64 {
        1_000 * (self.header as u64 + 1) + u64::from(self.kind)
    }

    fn letter(&self) -> Option<Came> {
        let differs = (0..4).find(|at| self.object[*at] != SIGNATURE[*at])?;
        (self.at == 0).then_some((LETTER, differs as u64))
    }

    fn size(&self) -> Vec<Came> {
        let size = u64::from(u32_at(self.object, 8));
        match (self.at, self.foreign, self.kind) {
            (8, true, _) => vec![(FOREIGN_SIZE, 3)],
            (8, false, 86 | 100) if size < 1_000 => {
                let old = key(self.header as u64 + 1, self.kind.into(), size);
                vec![(SIZE, self.kind.into()), (OLD_SIZE, old)]
            }
            (8, false, kind) => vec![(SIZE, kind.into())],
            _ => Vec::new(),
        }
    }

    fn pair(&self) -> Option<Came> {
        let (size, version) = (u16_at(self.object, 4), u16_at(self.object, 6));
        let what = match ([32, 40].contains(&size), [1, 2].contains(&version)) {
            (false, true) => PAIR[0],
            (true, false) => PAIR[1],
            (false, false) => PAIR[2],
            (true, true) => PAIR[3],
        };
        let came = match self.foreign {
            true => (FOREIGN_PAIR, u64::from(size >= 16)),
            false => (what, self.kind.into()),
        };
        (self.at == 4).then_some(came)
    }

    fn cut(&self) -> Option<Came> {
        let (end, size) = (self.object.len(), u32_at(self.object, 8) as usize);
        let part = match end {
            _ if end >= size => 3,
            _ if !self.foreign && end < self.header.length() => 1,
            _ => 2,
        };
        (self.at == end).then_some((CUT[usize::from(self.foreign)], part))
    }

    fn zeros(&self) -> Vec<Came> {
        let size = u32_at(self.object, 8);
        let zeros = padding(size) as usize;
        let Some(first) = self.at.checked_sub(size as usize) else {
            return Vec::new();
        };
        let (key, foreign) = ((10 * zeros + first) as u64, usize::from(self.foreign));
        let behind = self.object.get(self.at + 1..size as usize + zeros);
        let later = behind.is_some_and(|zeros| zeros.iter().any(|b| *b != 0));
        let mut came = vec![(ZEROS[foreign], key)];
        came.extend(later.then_some((LATER_ZEROS[foreign], key)));
        came
    }

    fn reserved(&self) -> Vec<Came> {
        let more = self.header.length() - 32;
        let kind = u64::from(self.kind);
        let byte = match self.at {
            21 => 21,
            at => at.saturating_sub(more),
        };
        let key = key(self.header as u64 + 1, kind, byte as u64);
        let bytes = BYTES.iter().find(|(of, _)| *of == kind);
        let mut bytes = bytes.iter().flat_map(|(_, bytes)| bytes.iter());
        let later = bytes.any(|b| *b > byte as u64 && self.object[*b as usize + more] != 0);
        let mut came = vec![(RESERVED, key)];
        came.extend(later.then_some((LATER_RESERVED, key)));
        let valid = self.kind == 100 && body(self.object)[14] > 64;
        came.extend(valid.then(|| (RESERVED_AND_VALID, self.by_header())));
        came
    }

    fn content(&self) -> Option<Came> {
        let (body, size) = (body(self.object), u32_at(self.object, 8));
        let what = match self.at.checked_sub(self.header.length())? {
            0 => {
                let end = (self.header.length() + 32) as u32;
                match u32::from(u16_at(body, 22)) == size - end {
                    true => STRUCTURE,
                    false => BOTH_LENGTHS,
                }
            }
            22 if has_frame(self.kind) => FRAME,
            24 => match (u16_at(body, 24) > 254, u16_at(body, 24) > u16_at(body, 22)) {
                (true, false) => COUNT[0],
                (false, true) => COUNT[1],
                _ => COUNT[2],
            },
            14 if self.kind == 100 && body[14] > 64 => VALID,
            136 => RATE,
            _ => return None,
        };
        Some((what, self.by_header()))
    }
}
