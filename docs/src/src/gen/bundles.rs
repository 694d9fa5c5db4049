//! Bundles, honest and damaged.

use super::Rng;
use crate::header::Header;
use crate::layout::{kind, occupied, padding, SLIP_LIMIT};
use crate::object::{step, Answer};
use crate::slips::Entry;

/// A slip before it is written, so that every part of it can be wrong.
#[derive(Clone, Debug, PartialEq, Eq)]
pub struct Slip {
    /// What the length field says.
    pub length: u32,
    /// The version byte.
    pub version: u8,
    /// The desk byte.
    pub desk: u8,
    /// The entries.
    pub entries: Vec<Entry>,
}

impl Slip {
    /// Sets the length field to what the entries ask for.
    fn measure(&mut self) {
        self.length = 2 + 12 * self.entries.len() as u32;
    }

    /// Puts an entry in its place by start; one with the same start goes.
    fn list(&mut self, entry: Entry) {
        self.entries.retain(|e| e.start != entry.start);
        let at = self.entries.partition_point(|e| e.start < entry.start);
        self.entries.insert(at, entry);
        self.measure();
    }
}

/// Slips end to end, big-endian.
pub fn bundle_bytes(slips: &[Slip]) -> Vec<u8> {
    let mut bundle = Vec::new();
    for slip in slips {
        bundle.extend(slip.length.to_be_bytes());
        bundle.extend([slip.version, slip.desk]);
        for entry in &slip.entries {
            bundle.extend(entry.start.to_be_bytes());
            bundle.extend(entry.size.to_be_bytes());
            bundle.extend(entry.kind.to_be_bytes());
        }
    }
    bundle
}

/// The objects that the walk meets before its end or its refusal, as entries.
fn entries_of(log: &[u8]) -> Vec<Entry> {
    let mut entries = Vec::new();
    let mut position = 0;
    while let Answer::Object(object) = step(log, position) {
        entries.push(Entry::naming(&object));
        position = object.next;
    }
    entries
}

/// So many slips (at most eight) that name each object of the log once.
pub fn honest_slips(rng: &mut Rng, log: &[u8], count: usize) -> Vec<Slip> {
    let mut desks: Vec<u8> = Vec::new();
    while desks.len() < count {
        let desk = rng.byte();
        if !desks.contains(&desk) {
            desks.push(desk);
        }
    }
    desks.sort_unstable();
    let mut slips: Vec<Slip> = desks.iter().map(|desk| empty_slip(*desk)).collect();
    if count > 0 {
        for entry in entries_of(log) {
            slips[rng.below(count)].entries.push(entry);
        }
    }
    slips.iter_mut().for_each(Slip::measure);
    slips
}

fn empty_slip(desk: u8) -> Slip {
    Slip {
        length: 2,
        version: 1,
        desk,
        entries: Vec::new(),
    }
}

/// A bundle of one to eight slips that names each object of the log once.
pub fn honest_bundle(rng: &mut Rng, log: &[u8]) -> Vec<u8> {
    let count = rng.from_to(1, SLIP_LIMIT);
    bundle_bytes(&honest_slips(rng, log, count))
}

/// One way to damage a bundle.
#[derive(Clone, Copy, Debug, PartialEq, Eq)]
pub enum Fault {
    /// Bytes stand behind the eighth slip.
    Ninth,
    /// 1 to 3 bytes stand behind the last of seven slips or fewer.
    ShortLength,
    /// A length of 0 or 1.
    SmallLength,
    /// A length that is 2 and no multiple of 12.
    OddLength,
    /// The last slip's length takes it past the end of the bundle.
    PastEnd,
    /// A version byte that is not 1.
    Version,
    /// A desk byte not above the one before.
    Desk,
    /// Two entries of a slip have one start, or the later one a smaller start.
    Order,
    /// An entry at a start where there is no object.
    StrayStart,
    /// An entry at a start near 2^32, which wraps into view in 32 bits.
    StrayTop,
    /// An entry with an object's start and type and another size.
    StraySize,
    /// An entry whose size counts the padding in (or four bytes too many).
    PaddedSize,
    /// An entry with an object's start and size and another type.
    StrayKind,
    /// A wrong size in one slip beside the right entry in another.
    StrayBeside,
    /// Two slips name one object.
    Twice,
    /// No slip names an object.
    Unlisted,
    /// The bundle is cut off somewhere.
    CutShort,
    /// Any byte is changed.
    AnyByte,
}

/// Every way to damage a bundle.
#[rustfmt::skip]
pub const FAULTS: [Fault; 18] = [
    Fault::Ninth, Fault::ShortLength, Fault::SmallLength, Fault::OddLength,
    Fault::PastEnd, Fault::Version, Fault::Desk, Fault::Order,
    Fault::StrayStart, Fault::StrayTop, Fault::StraySize, Fault::PaddedSize,
    Fault::StrayKind, Fault::StrayBeside, Fault::Twice, Fault::Unlisted,
    Fault::CutShort, Fault::AnyByte,
];

impl Fault {
    /// The numbers that the check of an else honest bundle with this one fault
    /// can give on a sound log with objects. Empty where it may pass.
    pub fn numbers(self) -> &'static [u8] {
        match self {
            Fault::Ninth => &[24],
            Fault::ShortLength | Fault::SmallLength | Fault::OddLength | Fault::PastEnd => &[20],
            Fault::Version => &[21],
            Fault::Desk => &[22],
            Fault::Order => &[23],
            Fault::StrayStart | Fault::StrayTop | Fault::StrayBeside => &[25],
            Fault::StraySize | Fault::PaddedSize | Fault::StrayKind => &[25],
            Fault::Twice => &[26],
            Fault::Unlisted => &[27],
            Fault::CutShort | Fault::AnyByte => &[],
        }
    }

    /// Damages slips (two or more) before they are written.
    fn befall(self, rng: &mut Rng, slips: &mut [Slip], objects: &[Entry]) {
        let at = rng.below(slips.len());
        let last = slips.len() - 1;
        match self {
            Fault::SmallLength => slips[at].length = rng.below(2) as u32,
            Fault::OddLength => {
                let more = rng.from_to(1, 11) as u32;
                slips[at].length = slips[at].length.wrapping_add(more);
            }
            Fault::PastEnd => slips[last].length = too_far(rng, slips[last].length),
            Fault::Version => slips[at].version = rng.pick(&[0, 2, 3, 255]),
            Fault::Desk => {
                let at = at.max(1);
                slips[at].desk = rng.below(usize::from(slips[at - 1].desk) + 1) as u8;
            }
            Fault::Order => break_order(rng, &mut slips[at]),
            Fault::StrayStart => slips[at].list(stray_start(rng, objects)),
            Fault::StrayTop => slips[at].list(stray_top(rng, objects)),
            Fault::StraySize | Fault::PaddedSize | Fault::StrayKind => {
                spoil_entry(self, rng, slips);
            }
            Fault::StrayBeside | Fault::Twice => name_again(self, rng, slips, objects),
            Fault::Unlisted => unlist(rng, slips),
            Fault::Ninth | Fault::ShortLength | Fault::CutShort | Fault::AnyByte => {}
        }
    }

    /// Damages the bytes of a written bundle.
    fn befall_bytes(self, rng: &mut Rng, bundle: &mut Vec<u8>) {
        let length = bundle.len();
        match self {
            Fault::Ninth => {
                let extra = rng.from_to(1, 24);
                let sound = bundle_bytes(&[empty_slip(255), empty_slip(255)]);
                bundle.extend(sound.iter().cycle().take(extra));
            }
            Fault::ShortLength => bundle.extend([0, 0, 0].iter().take(rng.from_to(1, 3))),
            Fault::CutShort => bundle.truncate(rng.below(length)),
            Fault::AnyByte => bundle[rng.below(length)] ^= rng.nonzero(),
            _ => {}
        }
    }
}

/// A length above the right one that has the right remainder, or any top one.
fn too_far(rng: &mut Rng, length: u32) -> u32 {
    match rng.below(3) {
        0 => length.wrapping_add(12),
        1 => 2 + 12 * (357_913_940 - rng.below(3) as u32),
        _ => u32::MAX - rng.below(30) as u32,
    }
}

fn break_order(rng: &mut Rng, slip: &mut Slip) {
    let entries = &mut slip.entries;
    if entries.len() >= 2 && rng.once_in(2) {
        let at = rng.below(entries.len() - 1);
        entries.swap(at, at + 1);
    } else {
        let last = entries.last().copied();
        let entry = last.unwrap_or(Entry {
            start: 0,
            size: 16,
            kind: 9_999,
        });
        if last.is_none() {
            entries.push(entry);
        }
        let size = entry.size ^ rng.below(2) as u32;
        entries.push(Entry { size, ..entry });
    }
    slip.measure();
}

/// An entry inside, between or behind the objects; never at an object's start.
fn stray_start(rng: &mut Rng, objects: &[Entry]) -> Entry {
    let like = an_entry(rng, objects);
    loop {
        let start = match rng.below(3) {
            0 => like.start.wrapping_add(rng.from_to(1, 16) as u32),
            1 => like.start.wrapping_sub(rng.from_to(1, 16) as u32),
            _ => rng.number() as u32,
        };
        if objects.iter().all(|object| object.start != start) {
            return Entry { start, ..like };
        }
    }
}

/// Start and size add up, in 32 bits, to the end of an object.
fn stray_top(rng: &mut Rng, objects: &[Entry]) -> Entry {
    let like = an_entry(rng, objects);
    let start = u32::MAX - rng.below(64) as u32;
    let end = like.start.wrapping_add(like.size);
    Entry {
        start,
        size: end.wrapping_sub(start),
        kind: like.kind,
    }
}

/// One that names an object; where there is none, an overload at 0.
fn an_entry(rng: &mut Rng, objects: &[Entry]) -> Entry {
    let none = Entry {
        start: 0,
        size: Header::First.length() as u32 + 4,
        kind: kind::CAN_OVERLOAD,
    };
    if objects.is_empty() {
        none
    } else {
        rng.pick(objects)
    }
}

/// The slip and place of one entry of the bundle, if there is any.
fn a_listed_entry(rng: &mut Rng, slips: &[Slip]) -> Option<(usize, usize)> {
    let all = |(slip, s): (usize, &Slip)| (0..s.entries.len()).map(move |entry| (slip, entry));
    let places: Vec<(usize, usize)> = slips.iter().enumerate().flat_map(all).collect();
    (!places.is_empty()).then(|| rng.pick(&places))
}

fn wrong_size(rng: &mut Rng, size: u32) -> u32 {
    match rng.below(3) {
        0 => size.wrapping_add(rng.pick(&[1, 2, 3, 4, 8])),
        1 => size.wrapping_sub(rng.pick(&[1, 2, 3, 4, 8])),
        _ => size ^ 1 << rng.below(32),
    }
}

fn spoil_entry(fault: Fault, rng: &mut Rng, slips: &mut [Slip]) {
    let Some((slip, at)) = a_listed_entry(rng, slips) else {
        return;
    };
    let entry = &mut slips[slip].entries[at];
    match fault {
        Fault::StraySize => entry.size = wrong_size(rng, entry.size),
        Fault::PaddedSize if padding(entry.size) == 0 => entry.size = entry.size.wrapping_add(4),
        Fault::PaddedSize => entry.size = occupied(entry.size) as u32,
        _ => entry.kind ^= 1 << rng.below(32),
    }
}

/// Names an object once more in a slip that does not name it: rightly, or
/// with a wrong size.
fn name_again(fault: Fault, rng: &mut Rng, slips: &mut [Slip], objects: &[Entry]) {
    if objects.is_empty() {
        return;
    }
    let mut entry = rng.pick(objects);
    let without = |slip: &&mut Slip| slip.entries.iter().all(|e| e.start != entry.start);
    let mut free: Vec<&mut Slip> = slips.iter_mut().filter(without).collect();
    if free.is_empty() {
        return;
    }
    if fault == Fault::StrayBeside {
        entry.size = wrong_size(rng, entry.size);
    }
    let at = rng.below(free.len());
    free[at].list(entry);
}

fn unlist(rng: &mut Rng, slips: &mut [Slip]) {
    if let Some((slip, at)) = a_listed_entry(rng, slips) {
        slips[slip].entries.remove(at);
        slips[slip].measure();
    }
}

fn with_faults(rng: &mut Rng, log: &[u8], faults: &[Fault]) -> Vec<u8> {
    let count = if faults.contains(&Fault::Ninth) {
        SLIP_LIMIT
    } else {
        rng.from_to(2, SLIP_LIMIT - 1)
    };
    let objects = entries_of(log);
    let mut slips = honest_slips(rng, log, count);
    for fault in faults {
        fault.befall(rng, &mut slips, &objects);
    }
    let mut bundle = bundle_bytes(&slips);
    for fault in faults {
        if !bundle.is_empty() {
            fault.befall_bytes(rng, &mut bundle);
        }
    }
    bundle
}

/// A bundle of two slips or more that is honest but for this one fault. Where
/// the log has no objects, faults that need one leave it honest.
pub fn damaged_bundle(rng: &mut Rng, log: &[u8], fault: Fault) -> Vec<u8> {
    with_faults(rng, log, &[fault])
}

/// Any bundle: honest, with one fault or several, empty, or no bundle at all.
pub fn any_bundle(rng: &mut Rng, log: &[u8]) -> Vec<u8> {
    match rng.below(12) {
        0 => Vec::new(),
        1 => {
            let length = rng.below(64);
            rng.bytes(length)
        }
        2 | 3 => honest_bundle(rng, log),
        4 | 5 => {
            let faults = [rng.pick(&FAULTS), rng.pick(&FAULTS)];
            with_faults(rng, log, &faults)
        }
        6 => {
            let faults = [(); 3].map(|_| rng.pick(&FAULTS[8..16]));
            with_faults(rng, log, &faults)
        }
        _ => {
            let fault = rng.pick(&FAULTS);
            damaged_bundle(rng, log, fault)
        }
    }
}
