//! Slips: the check of a bundle against a log, twice. [`check_plain`] reads
//! like the paper; [`check`] merges in one pass with eight reading places.

use crate::layout::*;
use crate::object::{step, walk, Answer, Object};

/// An entry of a slip: it names an object by start, size and type.
#[derive(Clone, Copy, Debug, PartialEq, Eq)]
pub struct Entry {
    /// The object's start in the log.
    pub start: u32,
    /// Its size without padding.
    pub size: u32,
    /// Its type.
    pub kind: u32,
}

/// Bytes of one entry.
pub const ENTRY_LENGTH: usize = 12;
/// Bytes of a slip before its first entry: length, version, desk.
pub const SLIP_HEAD: usize = 6;

impl Entry {
    /// The entry that names this object of a log within the limit of 28.
    pub fn naming(object: &Object) -> Entry {
        Entry {
            start: object.start as u32,
            size: object.size,
            kind: object.kind,
        }
    }

    /// The entry at a place of the bundle.
    fn read(bundle: &[u8], place: usize) -> Entry {
        Entry {
            start: big_endian(bundle, place),
            size: big_endian(bundle, place + 4),
            kind: big_endian(bundle, place + 8),
        }
    }
}

fn big_endian(bundle: &[u8], place: usize) -> u32 {
    u32::from_be_bytes(bytes_at(bundle, place))
}

/// 28 looks at the length alone.
pub fn is_long(log_length: u64) -> bool {
    log_length > LOG_LIMIT
}

// ---------------------------------------------------------------- plain

/// A slip taken apart, for the plain check.
#[derive(Clone, Debug, PartialEq, Eq)]
pub struct PlainSlip {
    /// Where it starts in the bundle.
    pub start: usize,
    /// Its desk byte.
    pub desk: u8,
    /// Its entries.
    pub entries: Vec<Entry>,
}

/// The check as the paper tells it, without care for time. Returns the number
/// of objects.
pub fn check_plain(log: &[u8], bundle: &[u8]) -> Result<usize, Refusal> {
    if is_long(log.len() as u64) {
        return Err(Refusal::new(number::LONG, 0));
    }
    let slips = plain_slips(bundle)?;
    walk(log)?;
    let objects = plain_objects(log);
    let entries: Vec<Entry> = slips.into_iter().flat_map(|slip| slip.entries).collect();
    let mut starts: Vec<u32> = entries.iter().chain(&objects).map(|e| e.start).collect();
    starts.sort_unstable();
    for start in starts {
        if let Some(number) = plain_trouble(start, &entries, &objects) {
            return Err(Refusal::new(number, start as usize));
        }
    }
    Ok(objects.len())
}

/// Takes a bundle apart, slip by slip: 24, 20, 21, 22, 23.
pub fn plain_slips(bundle: &[u8]) -> Result<Vec<PlainSlip>, Refusal> {
    let mut slips: Vec<PlainSlip> = Vec::new();
    let mut start = 0;
    while start < bundle.len() {
        let refused = |number| Refusal::new(number, start);
        if slips.len() == SLIP_LIMIT {
            return Err(refused(number::NINTH));
        }
        let bytes = plain_shape(&bundle[start..]).ok_or(refused(number::SHAPE))?;
        if bytes[4] != 1 {
            return Err(refused(number::VERSION));
        }
        let desk = bytes[5];
        if slips.last().is_some_and(|before| desk <= before.desk) {
            return Err(refused(number::DESK));
        }
        let entries: Vec<Entry> = bytes[SLIP_HEAD..]
            .chunks(ENTRY_LENGTH)
            .map(|entry| Entry::read(entry, 0))
            .collect();
        if entries.windows(2).any(|two| two[0].start >= two[1].start) {
            return Err(refused(number::ORDER));
        }
        slips.push(PlainSlip {
            start,
            desk,
            entries,
        });
        start += bytes.len();
    }
    Ok(slips)
}

/// 20: the slip's bytes at the front of what is left, if it has a shape.
fn plain_shape(left: &[u8]) -> Option<&[u8]> {
    if left.len() < 4 {
        return None;
    }
    let length = u64::from(big_endian(left, 0));
    if length < 2 || !(length - 2).is_multiple_of(12) || 4 + length > left.len() as u64 {
        return None;
    }
    Some(&left[..4 + length as usize])
}

/// All objects of a log that the walk let through.
fn plain_objects(log: &[u8]) -> Vec<Entry> {
    let mut objects = Vec::new();
    let mut position = 0;
    while let Answer::Object(object) = step(log, position) {
        objects.push(Entry::naming(&object));
        position = object.next;
    }
    objects
}

/// The trouble at one start: 25 before 26 before 27.
fn plain_trouble(start: u32, entries: &[Entry], objects: &[Entry]) -> Option<u8> {
    let mut entries_here = entries.iter().filter(|entry| entry.start == start);
    if entries_here.any(|entry| !objects.contains(entry)) {
        return Some(number::STRAY);
    }
    let object = objects.iter().find(|object| object.start == start)?;
    match entries.iter().filter(|entry| *entry == object).count() {
        0 => Some(number::UNLISTED),
        1 => None,
        _ => Some(number::TWICE),
    }
}

// ----------------------------------------------------------------- fast

/// Where the reading of one slip stands: its next entry, which is read once,
/// where the one behind it starts, and where the slip ends.
#[derive(Clone, Copy)]
struct Place {
    start: u64,
    size: u32,
    kind: u32,
    behind: usize,
    end: usize,
}

/// One reading place for each of the eight slips.
type Places = [Place; SLIP_LIMIT];

impl Place {
    /// The start where no entry is left: above every start.
    const NONE: u64 = u64::MAX;

    /// Entries from a place of the bundle up to an end.
    fn new(bundle: &[u8], place: usize, end: usize) -> Place {
        let (start, size, kind) = if place < end {
            let entry = Entry::read(bundle, place);
            (entry.start.into(), entry.size, entry.kind)
        } else {
            (Place::NONE, 0, 0)
        };
        let behind = place + ENTRY_LENGTH;
        Place {
            start,
            size,
            kind,
            behind,
            end,
        }
    }
}

/// The check in one pass over bundle and log. Returns the number of objects.
pub fn check(log: &[u8], bundle: &[u8]) -> Result<usize, Refusal> {
    if is_long(log.len() as u64) {
        return Err(Refusal::new(number::LONG, 0));
    }
    let mut places = reading_places(bundle)?;
    let mut trouble = None;
    let (mut count, mut position) = (0, 0);
    loop {
        let object = match step(log, position) {
            Answer::Done => break,
            Answer::Refused(refusal) => return Err(refusal),
            Answer::Object(object) => object,
        };
        // A refusal of the walk further on goes before any trouble.
        if trouble.is_none() {
            trouble = meet(bundle, &mut places, Entry::naming(&object));
        }
        count += 1;
        position = object.next;
    }
    match trouble.or_else(|| left_over(&places)) {
        Some(refusal) => Err(refusal),
        None => Ok(count),
    }
}

/// Judges the bundle slip by slip: 24, 20, 21, 22, 23. Slips that are not
/// there get an empty reading place.
fn reading_places(bundle: &[u8]) -> Result<Places, Refusal> {
    let mut places = [Place::new(bundle, 0, 0); SLIP_LIMIT];
    let mut desk_before = None;
    let (mut slip, mut start) = (0, 0);
    while start < bundle.len() {
        if slip == SLIP_LIMIT {
            return Err(Refusal::new(number::NINTH, start));
        }
        let end = judge_slip(bundle, start, desk_before).map_err(|n| Refusal::new(n, start))?;
        desk_before = Some(bundle[start + 5]);
        places[slip] = Place::new(bundle, start + SLIP_HEAD, end);
        slip += 1;
        start = end;
    }
    Ok(places)
}

/// Tries 20 to 23 on the slip at a start; hands back its end.
fn judge_slip(bundle: &[u8], start: usize, desk_before: Option<u8>) -> Result<usize, u8> {
    let left = bundle.len() - start;
    if left < 4 {
        return Err(number::SHAPE);
    }
    let length = big_endian(bundle, start);
    let whole = u64::from(length) + 4;
    if length < 2 || length % 12 != 2 || whole > left as u64 {
        return Err(number::SHAPE);
    }
    if bundle[start + 4] != 1 {
        return Err(number::VERSION);
    }
    if desk_before.is_some_and(|before| bundle[start + 5] <= before) {
        return Err(number::DESK);
    }
    let end = start + whole as usize;
    let mut start_before = None;
    for entry in (start + SLIP_HEAD..end).step_by(ENTRY_LENGTH) {
        let entry_start = big_endian(bundle, entry);
        if start_before.is_some_and(|before| entry_start <= before) {
            return Err(number::ORDER);
        }
        start_before = Some(entry_start);
    }
    Ok(end)
}

/// Lets the slips meet the next object. The entries up to the object before
/// have been read, so an entry that starts before this object is stray.
fn meet(bundle: &[u8], places: &mut Places, object: Entry) -> Option<Refusal> {
    let start = u64::from(object.start);
    if smallest_start(places) < start {
        return left_over(places);
    }
    let (mut naming, mut stray) = (0, false);
    for place in places {
        if place.start != start {
            continue;
        }
        if (place.size, place.kind) == (object.size, object.kind) {
            naming += 1;
        } else {
            stray = true;
        }
        *place = Place::new(bundle, place.behind, place.end);
    }
    let number = match (stray, naming) {
        (true, _) => number::STRAY,
        (false, 0) => number::UNLISTED,
        (false, 1) => return None,
        (false, _) => number::TWICE,
    };
    Some(Refusal::new(number, object.start as usize))
}

/// The smallest start among the entries at the reading places.
fn smallest_start(places: &Places) -> u64 {
    let starts = places.iter().map(|place| place.start);
    starts.min().unwrap_or(Place::NONE)
}

/// After the last object every entry left is stray.
fn left_over(places: &Places) -> Option<Refusal> {
    let start = smallest_start(places);
    (start != Place::NONE).then(|| Refusal::new(number::STRAY, start as usize))
}
