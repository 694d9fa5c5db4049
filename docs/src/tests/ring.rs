//! W-206: a log in two segments. For every cut the answers are those of the
//! joined log, but for 12 and 28; what lies in one segment is a part of it; what
//! lies in both is copied, and nothing else is written.

mod common;
use common::*;
use mshelovat_reference::gen::{self, Rng, DAMAGES};
use mshelovat_reference::header::Header;
use mshelovat_reference::layout::{Refusal, LONGEST_OBJECT, TYPE_LIST};
use mshelovat_reference::object::{self, Object};
use mshelovat_reference::ring::{step, view, Answer};

/// What a scratch holds before a call: bytes unlike their neighbours.
fn pattern(room: usize) -> Vec<u8> {
    (0..room).map(|at| (at % 251) as u8 ^ 0xA5).collect()
}

/// The segments of a log, in memory of their own.
fn cut_in_two(log: &[u8], cut: usize) -> (Vec<u8>, Vec<u8>) {
    (log[..cut].to_vec(), log[cut..].to_vec())
}

/// A step over a log that is cut here, and the scratch afterwards.
fn stepped(log: &[u8], cut: usize, at: usize, room: usize) -> (Answer, Vec<u8>) {
    let (first, second) = cut_in_two(log, cut);
    let mut scratch = pattern(room);
    let answer = step(&first, &second, at, &mut scratch);
    (answer, scratch)
}

/// A step that leaves the scratch as it was.
fn kept(log: &[u8], cut: usize, at: usize, room: usize) -> Answer {
    let (answer, scratch) = stepped(log, cut, at, room);
    assert_eq!(scratch, pattern(room), "cut {cut}, at {at}");
    answer
}

fn refusal(number: u8, place: usize) -> Answer {
    Answer::Refused(Refusal { number, place })
}

fn size_at(log: &[u8], at: usize) -> usize {
    u32::from_le_bytes(log[at + 8..at + 12].try_into().unwrap()) as usize
}

/// The answer of the joined log, and 12 where it is due.
fn expected(log: &[u8], cut: usize, at: usize, room: usize) -> Answer {
    let short = |size| at < cut && cut < at + size && size > room;
    match object::step(log, at) {
        object::Answer::Done => Answer::Done,
        object::Answer::Refused(r) if r.number >= 7 && short(size_at(log, at)) => refusal(12, at),
        object::Answer::Refused(r) => Answer::Refused(r),
        object::Answer::Object(o) if short(o.size as usize) => refusal(12, at),
        object::Answer::Object(o) if o.start + o.size as usize <= cut => Answer::First(o),
        object::Answer::Object(o) if o.start >= cut => Answer::Second(o),
        object::Answer::Object(o) => Answer::Copied(o),
    }
}

/// Step and view are as the joined log says, and so is every byte of the
/// scratch.
fn holds(log: &[u8], cut: usize, at: usize, room: usize) {
    let answer = expected(log, cut, at, room);
    let mut scratch = pattern(room);
    if let Answer::Copied(object) = answer {
        scratch[..object.size as usize].copy_from_slice(object.bytes(log));
    }
    let ours = stepped(log, cut, at, room);
    assert_eq!(ours, (answer, scratch), "cut {cut}, at {at}, room {room}");
    let next = match answer {
        Answer::First(o) | Answer::Second(o) | Answer::Copied(o) => o.next,
        _ => at,
    };
    assert_eq!(answer.position_after(at), next);
    let (first, second) = cut_in_two(log, cut);
    let part: &[u8] = match answer {
        Answer::First(o) => o.bytes(&first),
        Answer::Second(o) => &second[o.start - cut..][..o.size as usize],
        _ => &[],
    };
    let view = view(&first, &second, at);
    // The very bytes of the segment, not only the same.
    assert!(std::ptr::eq(view, part) || view.is_empty() && part.is_empty());
}

/// The same for scratches of every length that can matter.
fn holds_in_all(log: &[u8], cut: usize, at: usize) {
    let size = match log.get(at..) {
        Some(tail) if tail.len() >= 16 => size_at(log, at).min(log.len()),
        _ => 0,
    };
    for room in [0, size.saturating_sub(1), size, size + 1, size + 9] {
        holds(log, cut, at, room);
    }
}

/// A foreign object of this size with its padding.
fn foreign_piece(size: u32) -> Vec<u8> {
    gen::padded(foreign(size, 16))
}

/// The log M2 M2.
fn two() -> Vec<u8> {
    joined(&[m2(), m2()])
}

/// The object that stands at the second place of it.
const SECOND: Object = Object {
    start: 36,
    size: 36,
    kind: 3,
    next: 72,
};

#[test]
fn two_overloads() {
    let copied = [m2(), pattern(40)[36..].to_vec()].concat();
    assert_eq!(
        stepped(&two(), 37, 36, 40),
        (Answer::Copied(SECOND), copied)
    );
    assert_eq!(stepped(&two(), 37, 36, 36), (Answer::Copied(SECOND), m2()));
    assert_eq!(kept(&two(), 37, 36, 35), refusal(12, 36));
    assert_eq!(kept(&two(), 36, 36, 36), Answer::Second(SECOND));
    assert_eq!(kept(&two(), 0, 36, 36), Answer::Second(SECOND));
    assert_eq!(kept(&two(), 72, 36, 36), Answer::First(SECOND));
    for cut in [0, 1, 36, 37, 71, 72] {
        assert_eq!(kept(&two(), cut, 72, 36), Answer::Done);
        assert_eq!(kept(&two(), cut, 73, 36), refusal(1, 73));
        assert_eq!(kept(&two(), cut, 57, 36), refusal(1, 57));
        assert_eq!(kept(&two(), cut, usize::MAX, 36), refusal(1, usize::MAX));
    }
}

#[test]
fn no_bytes_at_all() {
    assert_eq!(kept(&[], 0, 0, 4), Answer::Done);
    assert_eq!(kept(&[], 0, 1, 4), refusal(1, 1));
    assert!(view(&[], &[], 0).is_empty() && view(&[], &[], 1).is_empty());
}

/// An object that ends at the seam is the first's, one that starts there the
/// second's, and neither asks for a scratch.
#[test]
fn the_seam_between_objects() {
    let one = |start| Object { start, ..SECOND };
    let first = Object { next: 36, ..one(0) };
    assert_eq!(kept(&two(), 36, 0, 0), Answer::First(first));
    assert_eq!(kept(&two(), 36, 36, 0), Answer::Second(one(36)));
    assert_eq!(kept(&two(), 35, 0, 35), refusal(12, 0));
    assert_eq!(kept(&two(), 37, 0, 0), Answer::First(first));
    assert_eq!(kept(&two(), 1, 0, 35), refusal(12, 0));
}

/// The padding alone may lie in the second segment, or in both.
#[test]
fn padding_crosses_without_a_copy() {
    let log = frame_object(127);
    assert_eq!(log.len(), 130);
    let object = Object {
        start: 0,
        size: 127,
        kind: 120,
        next: 130,
    };
    for cut in 127..=130 {
        assert_eq!(kept(&log, cut, 0, 0), Answer::First(object));
        assert_eq!(kept(&log[..129], cut.min(129), 0, 0), refusal(5, 129));
        for wrong in 127..130 {
            let mut log = log.clone();
            log[wrong] = 1;
            assert_eq!(kept(&log, cut, 0, 200), refusal(6, wrong));
        }
    }
    assert_eq!(kept(&log, 126, 0, 126), refusal(12, 0));
    // No room for the padding is asked.
    let (answer, scratch) = stepped(&log, 126, 0, 127);
    assert_eq!(
        (answer, &scratch[..]),
        (Answer::Copied(object), &log[..127])
    );
}

/// Every cut and every position of small logs.
#[test]
fn every_cut_of_small_logs() {
    let foreigners: Vec<Vec<u8>> = (16..20).map(foreign_piece).collect();
    let mixed = [
        foreign_piece(19),
        m2(),
        foreign_piece(17),
        second(&m2()),
        foreign_piece(18),
    ];
    for log in [joined(&foreigners), joined(&mixed), two(), m2()] {
        for cut in 0..=log.len() {
            for at in 0..log.len() + 20 {
                holds_in_all(&log, cut, at);
            }
            holds_in_all(&log, cut, usize::MAX);
        }
    }
}

/// Every cut of logs that are cut off, and of objects with any one byte changed.
#[test]
fn every_cut_of_damaged_objects() {
    let mut rng = Rng(6);
    let flexray = flexray(9, 10);
    for object in [
        m2(),
        second(&m2()),
        foreign_piece(19),
        frame_object(67),
        flexray,
    ] {
        let log = joined(&[foreign_piece(17), object, m2()]);
        for damaged in 18..log.len() - 36 {
            let mut changed = log.clone();
            changed[damaged] ^= rng.nonzero();
            for cut in 18..log.len() - 35 {
                holds_in_all(&changed, cut, 18);
            }
        }
        for end in 18..log.len() - 36 {
            for cut in 18..=end {
                holds_in_all(&log[..end], cut, 18);
            }
        }
    }
}

/// A sound object of each type and length under both headers, with its padding.
fn listed() -> Vec<Vec<u8>> {
    let fixed = SIZES
        .iter()
        .flat_map(|(kind, sizes)| sizes.iter().map(|size| bare(*kind, *size)));
    let frames = (120..=123u8).map(|kind| {
        let mut object = frame_object(u32::from(kind) - 55);
        object[12] = kind;
        object
    });
    fixed.chain(frames).flat_map(both).collect()
}

#[test]
fn every_type_under_both_headers() {
    for object in listed() {
        let log = joined(&[m2(), object.clone(), m2()]);
        let end = 36 + size_at(&object, 0);
        for cut in 0..=log.len() {
            holds_in_all(&log, cut, 36);
            let size = end - 36;
            let (answer, scratch) = stepped(&log, cut, 36, size);
            let copied = matches!(answer, Answer::Copied(_));
            assert_eq!(copied, 36 < cut && cut < end);
            assert_eq!(copied, scratch == object[..size]);
            assert_eq!(copied, kept(&log, cut, 36, size - 1) == refusal(12, 36));
        }
    }
}

#[test]
fn the_longest_objects() {
    let longest = frame_object(1_676);
    assert_eq!(second(&longest).len(), LONGEST_OBJECT);
    for object in both(longest) {
        for cut in (0..object.len()).step_by(97).chain([16, 40, 64, 72, 1_675]) {
            holds_in_all(&object, cut, 0);
        }
    }
    for header in Header::BOTH {
        let allowed = |size: u32| TYPE_LIST.iter().any(|row| row.bodies.allow(header, size));
        assert_eq!(allowed(1_684), header == Header::Second);
        assert!(!(1_685..70_000).any(allowed));
    }
}

/// Foreign objects may be longer than what is put together to be judged.
#[test]
fn long_foreign_objects() {
    for size in 1_680..1_700 {
        let whole = foreign_piece(size);
        let size = size as usize;
        let cuts = [1, 15, 16, 17, 1_000, 1_679, size - 1, size, size + 1];
        let more = joined(&[whole.clone(), m2()]);
        for cut in cuts {
            for end in [1_679, size - 1, size, size + 1, whole.len(), more.len()] {
                let log = &more[..end];
                holds_in_all(log, cut.min(end), 0);
            }
            for wrong in size..whole.len() {
                let mut log = more.clone();
                log[wrong] = 0x80;
                assert_eq!(kept(&log, cut, 0, 9), refusal(6, wrong));
            }
        }
    }
    let log = foreign_piece(3_499);
    assert_eq!(kept(&log, 2_000, 0, 3_498), refusal(12, 0));
    let (answer, scratch) = stepped(&log, 2_000, 0, 4_000);
    assert!(matches!(answer, Answer::Copied(o) if (o.size, o.next) == (3_499, 3_502)));
    assert_eq!(scratch, [&log[..3_499], &pattern(4_000)[3_499..]].concat());
}

/// 12 comes after 6 and before 7, wherever the object is cut.
#[test]
fn scratch_comes_between_6_and_7() {
    let with = |object: &[u8], at: usize, byte| {
        let mut object = object.to_vec();
        object[at] = byte;
        object
    };
    let frame = frame_object(67);
    let late = [
        (with(&m2(), 16, 0), 7, 16),
        (with(&m2(), 35, 9), 8, 35),
        (with(&second(&m2()), 21, 9), 8, 21),
        (with(&frame, 32, 33), 9, 32),
    ];
    for (object, number, place) in late {
        let size = size_at(&object, 0);
        for cut in 1..size {
            assert_eq!(kept(&object, cut, 0, 0), refusal(12, 0));
            assert_eq!(kept(&object, cut, 0, size - 1), refusal(12, 0));
            assert_eq!(kept(&object, cut, 0, size), refusal(number, place));
        }
        assert_eq!(kept(&object, size, 0, 0), refusal(number, place));
        assert_eq!(kept(&object, 0, 0, 0), refusal(number, place));
    }
    let early = [
        (m2()[..15].to_vec(), 1, 0),
        (with(&m2(), 3, 0), 2, 0),
        (with(&m2(), 8, 37), 3, 8),
        (with(&m2(), 6, 2), 4, 4),
        (frame[..69].to_vec(), 5, 69),
        (with(&frame, 69, 1), 6, 69),
    ];
    for (object, number, place) in early {
        for cut in 0..=object.len() {
            assert_eq!(kept(&object, cut, 0, 0), refusal(number, place));
        }
    }
}

/// Any logs of the generator, cut anywhere.
#[test]
fn any_logs() {
    let mut rng = Rng(206);
    for turn in 0..3_000 {
        let damage = DAMAGES[turn % DAMAGES.len()];
        let log = match turn % 3 {
            0 => gen::any_log(&mut rng, 4),
            1 => gen::damaged_log(&mut rng, 2, damage),
            _ => gen::twice_damaged_log(&mut rng, 2, damage),
        };
        for _ in 0..8 {
            let at = gen::position(&mut rng, &log);
            let near = at.saturating_add(rng.below(60)).min(log.len());
            let far = rng.below(log.len() + 1);
            let cut = rng.pick(&[near, near, far]);
            holds_in_all(&log, cut, at);
        }
    }
}

/// A walk over a ring meets the joined log's objects, and one of them at most is
/// copied.
#[test]
fn a_whole_ring() {
    let mut rng = Rng(9);
    for _ in 0..300 {
        let log = gen::sound_log(&mut rng, 6);
        let cut = rng.below(log.len() + 1);
        let (first, second) = log.split_at(cut);
        let (mut at, mut objects, mut copied) = (0, 0, 0);
        let mut scratch = [0; 2_048];
        loop {
            let answer = step(first, second, at, &mut scratch);
            match answer {
                Answer::Done => break,
                Answer::Refused(r) => panic!("{r:?} in a sound log"),
                Answer::Copied(_) => copied += 1,
                _ => {}
            }
            (at, objects) = (answer.position_after(at), objects + 1);
        }
        assert_eq!(object::walk(&log), Ok(objects));
        assert!(at == log.len() && copied <= 1);
    }
}

/// A ring of zeros, all in the first segment, all in the second, or in both.
fn segments(log: &[u8]) -> impl Iterator<Item = (&[u8], &[u8])> {
    let cuts = [0, 1, 15, 16, 1 << 31, log.len() - 1, log.len()];
    cuts.into_iter().map(|cut| log.split_at(cut))
}

/// 4 GiB of zeros, of which a step reads none or a few pages. Run with --ignored.
#[test]
#[ignore = "asks for 4 GiB of address space"]
fn long_rings_in_full() {
    const LONG: usize = 4_294_967_296;
    let mut log = vec![0; LONG];
    for (first, second) in segments(&log) {
        for at in [0, 1, LONG - 1, LONG, LONG + 1, usize::MAX] {
            assert_eq!(step(first, second, at, &mut [7; 9]), refusal(28, 0));
            assert!(view(first, second, at).is_empty());
        }
    }
    for (first, second) in segments(&log[1..]) {
        assert_eq!(step(first, second, 0, &mut []), refusal(2, 0));
        assert_eq!(step(first, second, LONG - 1, &mut []), Answer::Done);
        assert_eq!(step(first, second, LONG, &mut []), refusal(1, LONG));
    }
    // A foreign object as long as can be: its end is added up in more than 32 bits.
    let most = (LONG - 4) as u32;
    log[1..17].copy_from_slice(&foreign(most, 16)[..16]);
    for (first, second) in segments(&log[1..]) {
        let object = Object {
            start: 0,
            size: most,
            kind: 9_999,
            next: most as usize,
        };
        let answer = match first.len() {
            0 => Answer::Second(object),
            n if n < most as usize => refusal(12, 0),
            _ => Answer::First(object),
        };
        assert_eq!(step(first, second, 0, &mut [7; 9]), answer);
    }
    log[9..13].copy_from_slice(&u32::MAX.to_le_bytes());
    for (first, second) in segments(&log[1..]) {
        assert_eq!(step(first, second, 0, &mut []), refusal(5, LONG - 1));
    }
}

/// An answer in the words of the shared cases.
fn in_words(answer: Answer) -> String {
    let (word, o) = match answer {
        Answer::First(object) => ("first", object),
        Answer::Second(object) => ("second", object),
        Answer::Copied(object) => ("copied", object),
        Answer::Done => return "done".to_string(),
        Answer::Refused(r) => return format!("refused {} at {}", r.number, r.place),
    };
    format!("{word} {} {} {} {}", o.start, o.size, o.kind, o.next)
}

/// The answers of another reading of the papers.
#[test]
fn shared_cases() {
    let mut held = 0;
    let bytes = |text: &str| hex(text.trim_start_matches('-'));
    for case in include_str!("cases/W-206.txt").lines() {
        println!("{case}");
        let words: Vec<&str> = case.split_whitespace().collect();
        let ["ring", first, second, room, at, "=", ref answer @ .., after] = words[..] else {
            assert!(case.starts_with('#'));
            continue;
        };
        let mut scratch = vec![0xEE; room.parse().unwrap()];
        let ours = step(
            &bytes(first),
            &bytes(second),
            at.parse().unwrap(),
            &mut scratch,
        );
        assert_eq!((in_words(ours), scratch), (answer.join(" "), bytes(after)));
        held += 1;
    }
    assert_eq!(held, 160);
}
