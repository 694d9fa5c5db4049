//! W-206: the cases of questions 5 and 6, by sweeps and at random.
use super::asc::walked;
use super::cases::{Case, LIMIT};
use mshelovat_reference::gen::{self, padded, Rng, DAMAGES, FRAMES, LISTED};
use mshelovat_reference::header::{header_length, Header, SHORT_HEADER, SIGNATURE};
use mshelovat_reference::layout::{put, u32_at, FRAME_LIMIT};
use mshelovat_reference::object::{step, Answer};
use mshelovat_reference::records::raw;

/// The most bytes of the second segment: the length of the scratch stands before it.
const SECOND_LIMIT: usize = LIMIT - 4;

impl Case {
    /// A step at a position of a log that is cut in two.
    fn ring(log: &[u8], cut: usize, position: usize, scratch: usize) -> Case {
        let (first, second) = log.split_at(cut);
        let scratch = scratch.min(LIMIT) as u32;
        Case {
            question: 5,
            number: position as u64,
            first: first.to_vec(),
            second: [&scratch.to_le_bytes(), second].concat(),
        }
    }

    /// The view there.
    fn ring_view(log: &[u8], cut: usize, position: usize) -> Case {
        Case {
            question: 6,
            ..Case::ring(log, cut, position, 0)
        }
    }
}

/// The size that the object at a position tells, within bounds; 0 where none stands there.
fn told_size(log: &[u8], position: usize) -> usize {
    match log.get(position..) {
        Some(tail) if tail.len() >= SHORT_HEADER => (u32_at(tail, 8) as usize).min(2 * LIMIT),
        _ => 0,
    }
}

/// Any step.
pub fn any_step(rng: &mut Rng, turn: usize) -> Case {
    let (log, cut, position) = any_ring(rng, turn);
    let size = told_size(&log, position);
    let (less, more) = (rng.below(size + 1), size + rng.below(100));
    let scratches = [0, size.saturating_sub(1), size, size + 1, size, less, more];
    Case::ring(&log, cut, position, rng.pick(&scratches))
}

/// Any view.
pub fn any_view(rng: &mut Rng, turn: usize) -> Case {
    let (log, cut, position) = any_ring(rng, turn);
    Case::ring_view(&log, cut, position)
}

/// A log, sound or damaged, where it is cut in two, and a position, which is mostly an object's.
fn any_ring(rng: &mut Rng, turn: usize) -> (Vec<u8>, usize, usize) {
    let few = rng.below(5);
    let damage = DAMAGES[(turn / 4) % DAMAGES.len()];
    let mut log = match turn % 4 {
        0 => gen::any_log(rng, few),
        1 => gen::damaged_log(rng, few, damage),
        2 => gen::twice_damaged_log(rng, few, damage),
        _ => gen::sound_log(rng, few + 1),
    };
    log.truncate(LIMIT + SECOND_LIMIT);
    let position = match rng.below(8) {
        0 => rng.number() as usize,
        1 => gen::position(rng, &log),
        _ => gen::an_object(rng, &log),
    };
    let cut = any_cut(rng, &log, position);
    (log, cut, position)
}

/// Where a log is cut in two: mostly within the object at a position or next to it.
fn any_cut(rng: &mut Rng, log: &[u8], position: usize) -> usize {
    let size = told_size(log, position);
    let cut = match rng.below(8) {
        0 => 0,
        1 => log.len(),
        2 => gen::an_object(rng, log),
        3 => rng.below(log.len() + 1),
        4 => position.saturating_add(rng.below(48)),
        5 => position.saturating_add(size + rng.below(4)),
        _ => position.saturating_add(rng.below(size + 1)),
    };
    let most = log.len().min(LIMIT);
    cut.clamp(log.len().saturating_sub(SECOND_LIMIT), most)
}

/// All sweeps of these questions.
pub fn sweeps(rng: &mut Rng) -> Vec<Case> {
    let mut cases = Vec::new();
    for log in small_logs(rng) {
        sweep_cuts(&log, &mut cases);
    }
    sweep_loose_ends(rng, &mut cases);
    sweep_damages(rng, &mut cases);
    sweep_types(rng, &mut cases);
    sweep_longest(rng, &mut cases);
    sweep_foreign(rng, &mut cases);
    cases
}

/// A sound foreign object of a size, without padding.
fn foreign(rng: &mut Rng, size: usize) -> Vec<u8> {
    let mut object = rng.bytes(size);
    let header_size = rng.from_to(SHORT_HEADER, size) as u16;
    let kind = rng.pick(&[0u32, 2, 49, 58, 85, 101, 124, 9_999, 0x0100_0003, u32::MAX]);
    put(&mut object, 0, &SIGNATURE);
    put(&mut object, 4, &header_size.to_le_bytes());
    put(&mut object, 8, &(size as u32).to_le_bytes());
    put(&mut object, 12, &kind.to_le_bytes());
    object
}

/// Nothing, and two logs: foreign objects with 0 to 3 bytes of padding, and between them an
/// overload under either header.
fn small_logs(rng: &mut Rng) -> [Vec<u8>; 3] {
    let mut log = |before, header, behind| {
        let three = [
            foreign(rng, before),
            gen::object_under(rng, header, 3),
            foreign(rng, behind),
        ];
        three.map(padded).concat()
    };
    let first = log(16, Header::First, 17);
    [Vec::new(), first, log(18, Header::Second, 19)]
}

/// Every cut of a log: at each object's start, at the end and past it.
fn sweep_cuts(log: &[u8], cases: &mut Vec<Case>) {
    let mut positions = vec![0];
    while let Answer::Object(object) = step(log, positions[positions.len() - 1]) {
        positions.push(object.next);
    }
    positions.push(log.len() + 1);
    for cut in 0..=log.len() {
        for position in &positions {
            sweep_scratches(log, cut, *position, cases);
            cases.push(Case::ring_view(log, cut, *position));
        }
    }
}

/// Every scratch up to one byte more than enough where the object lies in both segments; else
/// none, and one that it would fit.
fn sweep_scratches(log: &[u8], cut: usize, position: usize, cases: &mut Vec<Case>) {
    let size = told_size(log, position);
    if position < cut && cut < position + size {
        for scratch in 0..=size + 1 {
            cases.push(Case::ring(log, cut, position, scratch));
        }
    } else {
        cases.push(Case::ring(log, cut, position, 0));
        cases.push(Case::ring(log, cut, position, size + 4));
    }
}

/// 1: 1 to 15 bytes of an object behind a small one, cut anywhere.
fn sweep_loose_ends(rng: &mut Rng, cases: &mut Vec<Case>) {
    let front = padded(foreign(rng, 17));
    for loose in 1..SHORT_HEADER {
        let log = [&front[..], &gen::object(rng, 3)[..loose]].concat();
        for cut in front.len()..=log.len() {
            cases.push(Case::ring(&log, cut, front.len(), 40));
        }
    }
}

/// Cuts of an object with its padding, from its start: in the head, in the header, in the body, at
/// its end and in the padding; and before and behind the first byte of what is refused.
fn cuts(rng: &mut Rng, object: &[u8], place: Option<usize>) -> Vec<usize> {
    let end = (u32_at(object, 8) as usize).min(object.len());
    let header = header_length(object);
    let mut cuts = vec![rng.from_to(1, 7), rng.from_to(8, 15), 16, header];
    cuts.push(rng.from_to(17, header - 1));
    cuts.push(rng.from_to(header, end.max(header)));
    cuts.extend([end.saturating_sub(1), end, end + 1, end + 2]);
    cuts.extend(place.into_iter().flat_map(|place| [place, place + 1]));
    cuts.sort_unstable();
    cuts.dedup();
    cuts
}

/// An object of a log that starts here: cut in these ways, with a scratch that it just fits and
/// with one that is too short by a byte.
fn sweep_object(log: &[u8], start: usize, cuts: &[usize], cases: &mut Vec<Case>) {
    let size = told_size(log, start);
    for cut in cuts.iter().map(|cut| start + cut) {
        let long = cut > LIMIT || log.len() > cut + SECOND_LIMIT;
        if cut <= log.len() && !long {
            cases.push(Case::ring(log, cut, start, size.saturating_sub(1)));
            cases.push(Case::ring(log, cut, start, size));
        }
    }
}

/// Each damage twice, which is each refusal, cut in many ways.
fn sweep_damages(rng: &mut Rng, cases: &mut Vec<Case>) {
    for damage in DAMAGES.into_iter().chain(DAMAGES) {
        let (log, start, place) = loop {
            let log = gen::damaged_log(rng, 1, damage);
            let start = walked(&log);
            if let Answer::Refused(refusal) = step(&log, start) {
                if log.len() <= LIMIT {
                    break (log, start, refusal.place - start);
                }
            }
        };
        let cuts = match log.len() - start {
            0..SHORT_HEADER => vec![0, 1, log.len() - start],
            _ => cuts(rng, &log[start..], Some(place)),
        };
        sweep_object(&log, start, &cuts, cases);
    }
}

/// An object between others, or alone: the log, and where it starts.
fn between(rng: &mut Rng, object: Vec<u8>) -> (Vec<u8>, usize) {
    let mut log = Vec::new();
    if rng.once_in(2) {
        let size = rng.from_to(16, 40);
        log.extend(padded(foreign(rng, size)));
    }
    let start = log.len();
    log.extend(padded(object));
    if rng.once_in(2) {
        log.extend(gen::object(rng, 3));
    }
    (log, start)
}

/// Each of the thirteen types under both headers.
fn sweep_types(rng: &mut Rng, cases: &mut Vec<Case>) {
    for kind in LISTED {
        for header in Header::BOTH {
            let object = gen::object_under(rng, header, kind);
            let cuts = cuts(rng, &object, None);
            let (log, start) = between(rng, object);
            sweep_object(&log, start, &cuts, cases);
        }
    }
}

/// The longest objects of the thirteen types.
fn sweep_longest(rng: &mut Rng, cases: &mut Vec<Case>) {
    let frame = rng.bytes(FRAME_LIMIT);
    for kind in FRAMES {
        for header in Header::BOTH {
            let object = raw(&gen::record_under(rng, header, kind, &frame));
            let mut cuts = cuts(rng, &object, None);
            cuts.extend([64, 72, object.len() / 2]);
            let (log, start) = between(rng, object);
            sweep_object(&log, start, &cuts, cases);
        }
    }
}

/// Foreign objects longer than all others, with every padding: right, wrong in one byte, cut off.
fn sweep_foreign(rng: &mut Rng, cases: &mut Vec<Case>) {
    for least in [1_688, 3_492] {
        for size in least..least + 4 {
            let object = foreign(rng, size);
            let middle = rng.from_to(17, size - 1);
            let cuts = [rng.from_to(1, 15), 16, middle, size - 1, size, size + 1];
            for log in foreign_logs(rng, &object) {
                sweep_object(&log, 0, &cuts, cases);
            }
        }
    }
}

/// A foreign object with its padding, alone and with more behind it; the same with each byte of
/// the padding wrong; and cut off somewhere, by one byte, and before each byte of the padding.
fn foreign_logs(rng: &mut Rng, object: &[u8]) -> Vec<Vec<u8>> {
    let (size, whole) = (object.len(), padded(object.to_vec()));
    let more = gen::object(rng, 3);
    let mut logs = vec![whole.clone(), [&whole[..], &more].concat()];
    for at in size..whole.len() {
        let mut wrong = whole.clone();
        wrong[at] = rng.nonzero();
        logs.push([&wrong[..], &more].concat());
        logs.push(wrong);
    }
    let mut ends = vec![rng.from_to(17, size - 1), size - 1];
    ends.extend(size..whole.len());
    logs.extend(ends.into_iter().map(|end| whole[..end].to_vec()));
    logs
}
