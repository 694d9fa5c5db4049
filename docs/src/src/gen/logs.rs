//! Objects and logs, sound and damaged.

use super::{frame, record_under, wrong_pair, Rng};
use crate::header::{body, Header, SIGNATURE, STATUS_GAP};
use crate::layout::*;
use crate::object::{has_frame, reserved_bytes, step, Answer};
use crate::records::write_any;

/// The numbers of the thirteen types.
pub const LISTED: [u32; 13] = [1, 3, 4, 50, 57, 62, 86, 100, 103, 120, 121, 122, 123];
/// Those that carry a frame.
pub const FRAMES: [u32; 4] = [120, 121, 122, 123];
/// Foreign type numbers that are neighbours of listed ones, or far off.
#[rustfmt::skip]
const FOREIGN: [u32; 20] = [
    0, 2, 5, 49, 51, 58, 61, 85, 87, 99, 101, 102, 104, 119, 124, 0x0156, 0x0164, 9_999,
    0x0100_0001, u32::MAX,
];

/// A sound object of a type, without padding, under either header. Any type not
/// listed is foreign.
pub fn object(rng: &mut Rng, kind: u32) -> Vec<u8> {
    let header = rng.pick(&Header::BOTH);
    object_under(rng, header, kind)
}

/// A sound object of a type, without padding; if it is listed, under this header.
pub fn object_under(rng: &mut Rng, header: Header, kind: u32) -> Vec<u8> {
    if row(kind).is_none() {
        return foreign_of(rng, kind);
    }
    let frame = frame(rng);
    let record = record_under(rng, header, kind, &frame);
    let mut bytes = vec![0; 2_048];
    write_any(&record, &mut bytes).expect("a valid record and room enough");
    let size = u32_at(&bytes, 8);
    bytes.truncate(size as usize);
    bytes
}

/// A sound foreign object, without padding.
pub fn foreign(rng: &mut Rng) -> Vec<u8> {
    let kind = rng.pick(&FOREIGN);
    foreign_of(rng, kind)
}

fn foreign_of(rng: &mut Rng, kind: u32) -> Vec<u8> {
    let size = match rng.below(4) {
        0 => rng.from_to(16, 20),
        1 => rng.from_to(16, 2_000),
        _ => rng.from_to(16, 100),
    };
    let header_size = match rng.below(4) {
        0 => 16,
        1 => size,
        _ => rng.from_to(16, size),
    };
    let mut bytes = rng.bytes(size);
    put(&mut bytes, 0, &SIGNATURE);
    put(&mut bytes, 4, &(header_size as u16).to_le_bytes());
    put(&mut bytes, 8, &(size as u32).to_le_bytes());
    put(&mut bytes, 12, &kind.to_le_bytes());
    bytes
}

/// A copy of an object of type 86 or 100, without padding, from when that type
/// was foreign: a sound one, one with four bytes less, as python-can writes type
/// 100, or any bytes that passed then.
pub fn old_foreign(rng: &mut Rng, kind: u32) -> Vec<u8> {
    let mut copy = object(rng, kind);
    match rng.below(3) {
        0 => foreign_of(rng, kind),
        1 => copy,
        _ => {
            let size = copy.len() - 4;
            copy.truncate(size);
            put_size(&mut copy, size as u32);
            copy
        }
    }
}

/// An object with its padding behind it.
pub fn padded(mut object: Vec<u8>) -> Vec<u8> {
    object.resize(occupied(object.len() as u32) as usize, 0);
    object
}

/// A sound object of any type, with padding; one in five is foreign.
fn piece(rng: &mut Rng) -> Vec<u8> {
    if rng.once_in(5) {
        return padded(foreign(rng));
    }
    let kind = rng.pick(&LISTED);
    padded(object(rng, kind))
}

/// A sound log of so many objects.
pub fn sound_log(rng: &mut Rng, count: usize) -> Vec<u8> {
    (0..count).flat_map(|_| piece(rng)).collect()
}

/// A sound log of at least so many bytes, for long runs. Quick to make: a few
/// hundred objects come again and again in changing order.
pub fn long_log(rng: &mut Rng, length: usize) -> Vec<u8> {
    let pieces: Vec<Vec<u8>> = (0..300).map(|_| piece(rng)).collect();
    let mut log = Vec::with_capacity(length + 2_048);
    while log.len() < length {
        log.extend_from_slice(&pieces[rng.below(pieces.len())]);
    }
    log
}

/// One way to damage a log.
#[derive(Clone, Copy, Debug, PartialEq, Eq)]
pub enum Damage {
    /// A signature byte is changed.
    Signature,
    /// Object size 0 to 15.
    SmallSize,
    /// An object size its type does not allow, often next to one it does.
    WrongSize,
    /// An object size just below 2^32.
    TopSize,
    /// A foreign object whose start and size wrap in 32 bits.
    WrapSize,
    /// A header size that is not allowed.
    HeaderSize,
    /// A header version that does not go with the header size.
    HeaderVersion,
    /// Header size and version of neither header.
    HeaderPair,
    /// Header size and version of neither header, and a wrong object size.
    PairAndSize,
    /// Header size and version of the other header, on the same bytes.
    OtherPair,
    /// The object size that the same body has under the other header.
    OtherSize,
    /// The reserved byte of the second header is set.
    HeaderReserved,
    /// The log ends within a second header, where a first one would be whole.
    HeaderCut,
    /// A padding byte is set.
    Padding,
    /// Two padding bytes are set.
    TwoPadding,
    /// The padding goes up to a multiple of four, as document 01 had it.
    OldPadding,
    /// Time unit neither 1 nor 2.
    Unit,
    /// A reserved byte of the body is set, in any of its runs.
    Reserved,
    /// Two reserved bytes are set, of header or body.
    TwoReserved,
    /// Structure length not 32.
    StructureLength,
    /// Frame length not that of the frame.
    FrameLength,
    /// The frame's length, counted from the other header's end.
    OtherLength,
    /// Structure length and frame length are both wrong.
    BothLengths,
    /// Data count above 254 or above byte count.
    DataCount,
    /// An f64 that breaks its rule.
    ExactRate,
    /// Valid bytes above 64.
    ValidBytes,
    /// Another type number on the same bytes.
    Kind,
    /// Any byte of an object or its padding is changed.
    AnyByte,
    /// The log is cut off somewhere.
    CutShort,
    /// 1 to 15 bytes stand behind the last object.
    LooseEnd,
}

/// Every way to damage a log.
#[rustfmt::skip]
pub const DAMAGES: [Damage; 30] = [
    Damage::Signature, Damage::SmallSize, Damage::WrongSize, Damage::TopSize,
    Damage::WrapSize, Damage::HeaderSize, Damage::HeaderVersion, Damage::HeaderPair,
    Damage::PairAndSize, Damage::OtherPair, Damage::OtherSize, Damage::HeaderReserved,
    Damage::HeaderCut, Damage::Padding, Damage::TwoPadding, Damage::OldPadding,
    Damage::Unit, Damage::Reserved, Damage::TwoReserved, Damage::StructureLength,
    Damage::FrameLength, Damage::OtherLength, Damage::BothLengths, Damage::DataCount,
    Damage::ExactRate, Damage::ValidBytes, Damage::Kind, Damage::AnyByte,
    Damage::CutShort, Damage::LooseEnd,
];

impl Damage {
    /// The numbers that the walk of a log with this one damage can give. Empty
    /// where the log may also stay sound.
    pub fn numbers(self) -> &'static [u8] {
        match self {
            Damage::Signature => &[2],
            Damage::SmallSize | Damage::WrongSize | Damage::OtherSize => &[3],
            Damage::TopSize => &[3, 5],
            Damage::WrapSize => &[5],
            Damage::HeaderSize | Damage::HeaderVersion => &[4],
            Damage::HeaderPair | Damage::PairAndSize => &[4],
            Damage::OtherPair => &[3, 8, 9],
            Damage::HeaderCut => &[5],
            Damage::Padding | Damage::TwoPadding => &[6],
            Damage::OldPadding => &[1, 2, 5, 6],
            Damage::Unit => &[7],
            Damage::Reserved | Damage::TwoReserved | Damage::HeaderReserved => &[8],
            Damage::StructureLength | Damage::FrameLength | Damage::OtherLength => &[9],
            Damage::BothLengths | Damage::DataCount => &[9],
            Damage::ExactRate | Damage::ValidBytes => &[9],
            Damage::LooseEnd => &[1],
            Damage::Kind | Damage::AnyByte | Damage::CutShort => &[],
        }
    }

    /// A type that this damage can befall.
    fn kind(self, rng: &mut Rng) -> u32 {
        let foreign = rng.pick(&FOREIGN);
        let listed = rng.pick(&LISTED);
        match self {
            Damage::WrapSize => foreign,
            _ if self.asks_listed() => listed,
            Damage::Reserved | Damage::TwoReserved => rng.pick(&[3, 50, 57, 62, 86, 100, 120, 121]),
            _ if self.asks_frame() => rng.pick(&FRAMES),
            Damage::DataCount => 50,
            Damage::ExactRate => 57,
            Damage::ValidBytes => 100,
            Damage::Padding | Damage::TwoPadding => rng.pick(&[50, 120, 121, 122, 123, foreign]),
            Damage::OldPadding => rng.pick(&[120, 121, 122, 123, foreign, foreign]),
            _ => rng.pick(&[listed, listed, listed, foreign]),
        }
    }

    /// Can it befall every one of the thirteen types, and no foreign one?
    fn asks_listed(self) -> bool {
        matches!(
            self,
            Damage::WrongSize
                | Damage::HeaderVersion
                | Damage::HeaderPair
                | Damage::PairAndSize
                | Damage::OtherPair
                | Damage::OtherSize
                | Damage::HeaderReserved
                | Damage::HeaderCut
                | Damage::Unit
        )
    }

    /// Can it befall types 120 to 123 alone?
    fn asks_frame(self) -> bool {
        matches!(
            self,
            Damage::StructureLength
                | Damage::FrameLength
                | Damage::OtherLength
                | Damage::BothLengths
        )
    }

    /// Can this very object be damaged so? Only some types and headers have the
    /// field, only some sizes have padding, only odd ones had another, only one
    /// LIN message has an exact rate, and most frames may have the other header's
    /// size.
    fn fits(self, object: &[u8]) -> bool {
        let was = Sound::new(object, 0);
        let row = row(was.kind);
        match self {
            Damage::Padding => padding(was.size) > 0,
            Damage::TwoPadding => padding(was.size) > 1,
            Damage::OldPadding => matches!(padding(was.size), 1 | 3),
            Damage::WrapSize => row.is_none(),
            Damage::HeaderReserved | Damage::HeaderCut => {
                row.is_some() && was.header == Header::Second
            }
            Damage::OtherSize => {
                row.is_some_and(|row| !row.bodies.allow(was.header, was.other_size()))
            }
            _ if self.asks_listed() => row.is_some(),
            Damage::Reserved | Damage::TwoReserved => {
                row.is_some_and(|row| !row.reserved.is_empty())
            }
            _ if self.asks_frame() => has_frame(was.kind),
            Damage::DataCount => was.kind == kind::FLEXRAY_RECEIVE,
            Damage::ExactRate => was.kind == kind::LIN_MESSAGE && body(object).len() == 152,
            Damage::ValidBytes => was.kind == kind::CAN_FD_MESSAGE,
            _ => true,
        }
    }

    /// Damages an object (padding included) that was this when it was sound.
    /// Gives the place of the refusal, from the object's start, where the log
    /// ends or goes on as it did.
    fn befall(self, rng: &mut Rng, piece: &mut [u8], was: &Sound) -> usize {
        match self {
            Damage::Signature => {
                piece[rng.below(4)] ^= rng.nonzero();
                0
            }
            Damage::SmallSize => put_size(piece, rng.below(16) as u32),
            Damage::WrongSize => put_size(piece, wrong_size(rng, was)),
            Damage::TopSize => put_size(piece, u32::MAX - rng.below(64) as u32),
            Damage::WrapSize => put_size(piece, wrapping_size(rng, was.start)),
            Damage::HeaderSize => set(piece, 4, &wrong_header_size(rng, was).to_le_bytes()),
            Damage::HeaderVersion => {
                let version = u16_at(&was.header.pair(), 2);
                set(piece, 6, &other(rng, version).to_le_bytes());
                4
            }
            Damage::HeaderPair => set(piece, 4, &wrong_pair(rng)),
            Damage::PairAndSize => {
                put_size(piece, wrong_size(rng, was));
                set(piece, 4, &wrong_pair(rng))
            }
            Damage::OtherPair => {
                set(piece, 4, &was.header.other().pair());
                8
            }
            Damage::OtherSize => put_size(piece, was.other_size()),
            Damage::HeaderReserved => set(piece, STATUS_GAP, &[rng.nonzero()]),
            Damage::Unit => set(piece, 16, &wrong_unit(rng).to_le_bytes()),
            Damage::Kind => set(piece, 12, &other_kind(rng, was.kind).to_le_bytes()),
            Damage::AnyByte => {
                piece[rng.below(piece.len())] ^= rng.nonzero();
                0
            }
            Damage::OldPadding | Damage::HeaderCut | Damage::CutShort | Damage::LooseEnd => 0,
            _ => self.befall_body(rng, piece, was),
        }
    }

    /// The same for damages behind the header.
    fn befall_body(self, rng: &mut Rng, piece: &mut [u8], was: &Sound) -> usize {
        let body = was.header.length();
        match self {
            Damage::Padding => {
                let at = rng.from_to(was.size as usize, piece.len() - 1);
                set(piece, at, &[rng.nonzero()])
            }
            Damage::TwoPadding => {
                let padding: Vec<usize> = (was.size as usize..piece.len()).collect();
                set_two(rng, piece, &padding)
            }
            Damage::Reserved => {
                let runs: Vec<&[usize]> = was.row().runs().collect();
                let run = rng.pick(&runs);
                let at = body + rng.pick(run);
                set(piece, at, &[rng.nonzero()])
            }
            Damage::TwoReserved => {
                let reserved: Vec<usize> = reserved_bytes(was.header, was.row()).collect();
                set_two(rng, piece, &reserved)
            }
            _ => self.befall_content(rng, piece, was),
        }
    }

    /// The same for damages of what 9 looks at.
    fn befall_content(self, rng: &mut Rng, piece: &mut [u8], was: &Sound) -> usize {
        let body = was.header.length();
        match self {
            Damage::StructureLength => set_other(rng, piece, body),
            Damage::FrameLength => set_other(rng, piece, body + 22),
            Damage::OtherLength => {
                let end = was.header.other().length() + FRAME_START;
                let length = (was.size as u16).wrapping_sub(end as u16);
                set(piece, body + 22, &length.to_le_bytes())
            }
            Damage::BothLengths => {
                set_other(rng, piece, body + 22);
                set_other(rng, piece, body)
            }
            Damage::DataCount => {
                break_counts(rng, &mut piece[body..]);
                body + 24
            }
            Damage::ExactRate => set(piece, body + 136, &wrong_rate(rng).to_le_bytes()),
            Damage::ValidBytes => set(piece, body + 14, &[too_many_valid(rng)]),
            _ => panic!("{self:?} is no damage of the content"),
        }
    }

    /// Does it alone decide by which number a walk is refused, and where?
    fn decides(self, was: &Sound) -> bool {
        match self {
            Damage::OtherPair => !was.row().bodies.allow(was.header.other(), was.size),
            Damage::Kind | Damage::AnyByte | Damage::CutShort => false,
            _ => true,
        }
    }

    /// Does the object run past the log's end?
    fn cuts(self, was: &Sound) -> bool {
        match self {
            Damage::TopSize => row(was.kind).is_none(),
            _ => matches!(self, Damage::WrapSize | Damage::HeaderCut),
        }
    }
}

/// An object as it was when it was sound, whatever its bytes say now.
struct Sound {
    /// Its first byte in the log.
    start: usize,
    /// Its header, where it is of the thirteen types.
    header: Header,
    /// Its size without the padding.
    size: u32,
    /// Its type number.
    kind: u32,
}

impl Sound {
    /// This object, to be put here in its log.
    fn new(object: &[u8], start: usize) -> Sound {
        Sound {
            start,
            header: Header::of(object),
            size: u32_at(object, 8),
            kind: u32_at(object, 12),
        }
    }

    /// The row of its type, which is one of the thirteen.
    fn row(&self) -> &'static Row {
        row(self.kind).expect("a listed type")
    }

    /// The size that it would have under the other header.
    fn other_size(&self) -> u32 {
        let (header, other) = (self.header.length(), self.header.other().length());
        self.size + other as u32 - header as u32
    }
}

/// Puts bytes at an offset; gives it back.
fn set(piece: &mut [u8], offset: usize, bytes: &[u8]) -> usize {
    put(piece, offset, bytes);
    offset
}

fn put_size(piece: &mut [u8], size: u32) -> usize {
    set(piece, 8, &size.to_le_bytes())
}

/// Gives the u16 at an offset another value.
fn set_other(rng: &mut Rng, piece: &mut [u8], offset: usize) -> usize {
    let wrong = other(rng, u16_at(piece, offset));
    set(piece, offset, &wrong.to_le_bytes())
}

/// Sets two of these bytes; gives the one that stands before the other.
fn set_two(rng: &mut Rng, piece: &mut [u8], of: &[usize]) -> usize {
    let first = rng.below(of.len() - 1);
    let second = rng.from_to(first + 1, of.len() - 1);
    let two = [of[first], of[second]];
    for at in two {
        piece[at] = rng.nonzero();
    }
    two[0].min(two[1])
}

/// A u16 unlike this one, often close to it.
fn other(rng: &mut Rng, value: u16) -> u16 {
    let wrong = match rng.below(3) {
        0 => value.wrapping_add(1),
        1 => value.wrapping_sub(1),
        _ => rng.number() as u16,
    };
    if wrong == value {
        !value
    } else {
        wrong
    }
}

/// Lengths of bodies that some types have, or nearly have; 84 is that of type 100
/// as python-can writes it.
#[rustfmt::skip]
const NEAR_LENGTHS: [usize; 16] = [
    31, 1_645, 4, 16, 20, 28, 132, 136, 152, 298, 300, 8, 12, 24, 84, 88,
];

fn wrong_size(rng: &mut Rng, was: &Sound) -> u32 {
    let bodies = was.row().bodies;
    loop {
        let wrong = match rng.below(5) {
            0 => was.size.wrapping_add(rng.from_to(1, 8) as u32),
            1 => was.size.wrapping_sub(rng.from_to(1, 8) as u32),
            2 => {
                let length = rng.pick(&NEAR_LENGTHS);
                (was.header.length() + length) as u32
            }
            3 => rng.from_to(16, 1_700) as u32,
            _ => rng.number() as u32,
        };
        if !bodies.allow(was.header, wrong) {
            return wrong;
        }
    }
}

/// A size near 2^32. Added in 32 bits to an object's start (or with its
/// padding alone) it gives a small number.
fn wrapping_size(rng: &mut Rng, start: usize) -> u32 {
    let wrapping = (rng.below(200) as u32).wrapping_sub(start as u32);
    if wrapping < 1 << 31 {
        u32::MAX - rng.below(2) as u32
    } else {
        wrapping
    }
}

fn wrong_header_size(rng: &mut Rng, was: &Sound) -> u16 {
    if row(was.kind).is_some() {
        return other(rng, was.header.length() as u16);
    }
    match rng.below(3) {
        0 => rng.below(16) as u16,
        1 => was.size as u16 + 1,
        _ => rng.from_to(was.size as usize + 1, 65_535) as u16,
    }
}

fn wrong_unit(rng: &mut Rng) -> u32 {
    match rng.below(3) {
        0 => rng.pick(&[0, 3, 4, 257, 258, 0x0100_0000, 0x0200_0000]),
        1 => (rng.byte() as u32) << 8,
        _ => rng.bits() as u32 | 4,
    }
}

fn wrong_rate(rng: &mut Rng) -> u64 {
    match rng.below(3) {
        0 => 1 << 63 | rng.bits(),
        1 => f64::INFINITY.to_bits() | rng.number(),
        _ => rng.pick(&[
            1 << 63,
            f64::INFINITY.to_bits(),
            f64::NAN.to_bits(),
            u64::MAX,
        ]),
    }
}

fn too_many_valid(rng: &mut Rng) -> u8 {
    let any = rng.from_to(CAN_FD_DATA + 1, 255) as u8;
    rng.pick(&[65, 128, 255, any])
}

fn break_counts(rng: &mut Rng, body: &mut [u8]) {
    let (byte_count, data_count) = match rng.below(3) {
        0 => (rng.number() as u16, rng.from_to(255, 260) as u16),
        1 => (65_535, rng.from_to(255, 65_535) as u16),
        _ => {
            let data_count = rng.from_to(1, 254);
            (rng.below(data_count) as u16, data_count as u16)
        }
    };
    put(body, 22, &byte_count.to_le_bytes());
    put(body, 24, &data_count.to_le_bytes());
}

fn other_kind(rng: &mut Rng, kind: u32) -> u32 {
    let (listed, foreign) = (rng.pick(&LISTED), rng.pick(&FOREIGN));
    // Types that share sizes, so that the object may pass under another name.
    let sibling = match kind {
        1 => 103,
        103 => 1,
        120..=123 => rng.from_to(120, 123) as u32,
        _ => kind ^ 1,
    };
    rng.pick(&[listed, foreign, sibling, kind | 0x0100_0000])
}

/// A sound object that this damage can befall, without padding.
fn victim(rng: &mut Rng, damage: Damage) -> Vec<u8> {
    loop {
        let kind = damage.kind(rng);
        let victim = object(rng, kind);
        if damage.fits(&victim) {
            return victim;
        }
    }
}

/// A log of so many objects and one more, then damaged in these ways; with the
/// place that a walk of it tells, where the last of these ways decides that.
fn damaged_by(
    rng: &mut Rng,
    count: usize,
    sound: Vec<u8>,
    ways: &[Damage],
) -> (Vec<u8>, Option<usize>) {
    let before = rng.below(count + 1);
    let mut log = sound_log(rng, before);
    let was = Sound::new(&sound, log.len());
    let mut piece = padded(sound);
    let mut place = was.start;
    for damage in ways {
        place = was.start + damage.befall(rng, &mut piece, &was);
    }
    if ways.contains(&Damage::OldPadding) {
        // Zeros too many are no object; behind zeros too few begins the next one, or the log ends.
        let whole = piece.len();
        piece.resize(was.size.next_multiple_of(4) as usize, 0);
        place = was.start + whole.min(piece.len());
    }
    log.extend(piece);
    log.extend(sound_log(rng, count - before));
    if ways.contains(&Damage::LooseEnd) {
        place = log.len();
        let loose = rng.from_to(1, 15);
        log.extend(&object(rng, 3)[..loose]);
    }
    if ways.contains(&Damage::HeaderCut) {
        let [first, second] = Header::BOTH.map(Header::length);
        log.truncate(was.start + rng.from_to(first, second - 1));
    }
    if ways.contains(&Damage::CutShort) {
        log.truncate(rng.below(log.len()));
    }
    if ways.iter().any(|damage| damage.cuts(&was)) {
        place = log.len();
    }
    let decided = ways.last().is_some_and(|damage| damage.decides(&was));
    (log, decided.then_some(place))
}

/// A log of so many objects and one more, damaged in this one way; with the
/// place that a walk of it tells, where the damage alone decides that.
pub fn damaged_log_at(rng: &mut Rng, count: usize, damage: Damage) -> (Vec<u8>, Option<usize>) {
    let sound = victim(rng, damage);
    damaged_by(rng, count, sound, &[damage])
}

/// A log of so many objects and one more, damaged in this one way.
pub fn damaged_log(rng: &mut Rng, count: usize, damage: Damage) -> Vec<u8> {
    damaged_log_at(rng, count, damage).0
}

/// A log of so many objects and one more, which is damaged in this way and in
/// a second one: which refusal comes first?
pub fn twice_damaged_log(rng: &mut Rng, count: usize, damage: Damage) -> Vec<u8> {
    let sound = victim(rng, damage);
    let second = loop {
        let second = rng.pick(&DAMAGES);
        if second != damage && second.fits(&sound) {
            break second;
        }
    };
    damaged_by(rng, count, sound, &[damage, second]).0
}

/// Any log of about so many objects: sound, damaged in one way or in several,
/// cut short, or no log at all.
pub fn any_log(rng: &mut Rng, count: usize) -> Vec<u8> {
    let count = rng.below(count + 1);
    match rng.below(8) {
        0 | 1 => sound_log(rng, count),
        2 => {
            let mut log = sound_log(rng, count);
            for _ in 0..rng.from_to(1, 4) {
                let damage = rng.pick(&DAMAGES);
                log.extend(damaged_log(rng, 0, damage));
            }
            log
        }
        3 => {
            let mut log = sound_log(rng, count);
            let length = rng.below(64);
            log.extend(rng.bytes(length));
            log
        }
        _ => {
            let damage = rng.pick(&DAMAGES);
            damaged_log(rng, count, damage)
        }
    }
}

/// A reading position: an object's start, next to one, at or around the end,
/// or far past it, up to the largest number.
pub fn position(rng: &mut Rng, log: &[u8]) -> usize {
    let length = log.len();
    match rng.below(10) {
        0 => length,
        1 => length.saturating_sub(rng.below(20)),
        2 => length + rng.from_to(1, 20),
        3 => usize::MAX - rng.below(20),
        4 => rng.below(length + 1),
        5 => an_object(rng, log).saturating_add(rng.below(4)),
        _ => an_object(rng, log),
    }
}

/// The start of one of the objects that a walk meets, or of its end.
pub fn an_object(rng: &mut Rng, log: &[u8]) -> usize {
    let mut starts = vec![0];
    while let Answer::Object(object) = step(log, starts[starts.len() - 1]) {
        starts.push(object.next);
    }
    rng.pick(&starts)
}
