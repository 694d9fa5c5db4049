//! The generator keeps what it promises.

mod common;
use common::refused;
use mshelovat_reference::gen::{self, Rng};
use mshelovat_reference::header::Header;
use mshelovat_reference::layout::u32_at;
use mshelovat_reference::object::{step, walk, Answer, Object};
use mshelovat_reference::records::write_foreign;
use mshelovat_reference::slips::check;
use std::collections::BTreeSet;

#[test]
fn one_seed_gives_one_outcome() {
    for seed in [0, 1, u64::MAX] {
        let log = gen::any_log(&mut Rng(seed), 20);
        assert_eq!(log, gen::any_log(&mut Rng(seed), 20));
    }
    assert_ne!(
        gen::sound_log(&mut Rng(0), 3),
        gen::sound_log(&mut Rng(1), 3)
    );
}

#[test]
fn sound_logs_are_sound() {
    let mut rng = Rng(41);
    for count in 0..60 {
        assert_eq!(walk(&gen::sound_log(&mut rng, count)), Ok(count));
    }
    let log = gen::long_log(&mut rng, 100_000);
    assert!(walk(&log).is_ok() && log.len() >= 100_000);
}

/// The objects that a walk lets through.
fn objects(log: &[u8]) -> Vec<Object> {
    let mut objects: Vec<Object> = Vec::new();
    while let Answer::Object(object) = step(log, objects.last().map_or(0, |o| o.next)) {
        objects.push(object);
    }
    objects
}

/// Foreign objects too, and each type under each header about as often.
#[test]
fn sound_logs_hold_every_type() {
    let log = gen::sound_log(&mut Rng(42), 3_000);
    let header = |object: &Object| Header::of(object.bytes(&log));
    let objects = objects(&log);
    let objects: Vec<_> = objects.iter().map(|o| (o.kind, header(o))).collect();
    for kind in gen::LISTED {
        let [first, second] = Header::BOTH.map(|header| {
            let same = objects.iter().filter(|object| **object == (kind, header));
            same.count()
        });
        assert!(first > 60 && second > 60, "{kind}: {first} {second}");
    }
    assert!(objects.iter().any(|(kind, _)| !gen::LISTED.contains(kind)));
}

/// Sizes that leave 0, 1, 2 and 3 over, and with them starts that leave 2 over.
#[test]
fn sound_logs_hold_every_padding() {
    let log = gen::sound_log(&mut Rng(50), 3_000);
    let (mut sizes, mut starts) = ([[0; 4]; 2], [0; 4]);
    for object in objects(&log) {
        sizes[usize::from(object.is_foreign())][object.size as usize % 4] += 1;
        starts[object.start % 4] += 1;
    }
    assert!(sizes.iter().flatten().all(|times| *times > 80), "{sizes:?}");
    assert!(starts[0] > 500 && starts[2] > 500, "{starts:?}");
    assert_eq!((starts[1], starts[3]), (0, 0));
}

#[test]
fn objects_under_a_header() {
    let mut rng = Rng(49);
    for turn in 0..520 {
        let (kind, header) = (gen::LISTED[turn % 13], Header::BOTH[turn / 13 % 2]);
        let object = gen::object_under(&mut rng, header, kind);
        assert_eq!(Header::named(&object), Some(header));
        assert_eq!(walk(&gen::padded(object)), Ok(1));
        let pair = gen::wrong_pair(&mut rng);
        assert_eq!(Header::named(&[&[0; 4], &pair[..]].concat()), None);
    }
}

#[test]
fn damages_give_their_numbers_at_their_place() {
    let mut rng = Rng(43);
    for damage in gen::DAMAGES {
        let (mut met, mut decided) = ([0; 10], 0);
        for _ in 0..500 {
            let count = rng.below(5);
            let (log, place) = gen::damaged_log_at(&mut rng, count, damage);
            decided += usize::from(place.is_some());
            match walk(&log) {
                Ok(_) => met[0] += 1,
                Err(refusal) => {
                    met[refusal.number as usize] += 1;
                    let told = place.unwrap_or(refusal.place);
                    assert_eq!(refusal.place, told, "{damage:?} {}", refusal.number);
                }
            }
        }
        let promised = damage.numbers();
        match damage {
            gen::Damage::OtherPair => assert!(decided > 100),
            _ => assert_eq!(decided, if promised.is_empty() { 0 } else { 500 }),
        }
        for (number, times) in met.iter().enumerate() {
            let may = promised.is_empty() || promised.contains(&(number as u8));
            assert!(may || *times == 0, "{damage:?}: {met:?}");
            let must = promised.contains(&(number as u8));
            assert!(!must || *times > 0, "{damage:?}: {met:?}");
        }
    }
}

/// The places that a damage of one object tells: type, is it the second header, and the byte,
/// counted under the first.
fn places(seed: u64, damage: gen::Damage) -> BTreeSet<(u32, bool, usize)> {
    let mut rng = Rng(seed);
    let told = |_| {
        let (log, place) = gen::damaged_log_at(&mut rng, 0, damage);
        let (kind, second) = (u32_at(&log, 12), Header::of(&log) == Header::Second);
        let place = place.expect("a damage that decides");
        let moved = second && place >= 40;
        (kind, second, if moved { place - 8 } else { place })
    };
    (0..6_000).map(told).collect()
}

/// Every reserved byte alone, and every one that has a later one together with a later one.
#[test]
fn damages_reach_every_reserved_byte() {
    let (mut alone, mut first) = (BTreeSet::new(), BTreeSet::new());
    for second in [false, true] {
        for (kind, bytes) in [
            (3, &[34, 35][..]),
            (50, &[39, 59, 72, 73, 74, 75]),
            (57, &[46, 47, 161, 162, 163]),
            (62, &[46, 47, 51]),
            (86, &[53, 54, 55]),
            (100, &[47, 48, 49, 50, 51, 116, 117, 118, 119]),
            (120, &[60, 61, 62, 63]),
            (121, &[60, 61, 62, 63]),
        ] {
            alone.extend(bytes.iter().map(|at| (kind, second, *at)));
            let with_later = &bytes[..bytes.len() - 1];
            first.extend(with_later.iter().map(|at| (kind, second, *at)));
            first.extend(second.then_some((kind, true, 21)));
        }
    }
    assert_eq!(places(53, gen::Damage::Reserved), alone);
    assert_eq!(places(54, gen::Damage::TwoReserved), first);
    let gaps = gen::LISTED.map(|kind| (kind, true, 21));
    assert_eq!(places(55, gen::Damage::HeaderReserved), gaps.into());
}

/// The sizes with which types 86 and 100 passed as foreign objects: type, is it the second header,
/// and the size. 116 is python-can's.
#[test]
fn damages_reach_sizes_that_were_foreign() {
    let mut rng = Rng(57);
    let mut sizes = BTreeSet::new();
    for _ in 0..20_000 {
        let log = gen::damaged_log(&mut rng, 0, gen::Damage::WrongSize);
        let second = Header::of(&log) == Header::Second;
        sizes.insert((u32_at(&log, 12), second, u32_at(&log, 8)));
    }
    for second in [false, true] {
        for size in [48, 52, 60] {
            assert!(sizes.contains(&(86, second, size)), "{second} {size}");
        }
        let size = if second { 124 } else { 116 };
        assert!(sizes.contains(&(100, second, size)), "{second} {size}");
    }
}

/// Valid bytes on both sides of their rule, under both headers: 0 and 64 are sound, with data behind
/// the valid bytes too; 65, 128 and 255 are not.
#[test]
fn valid_bytes_on_both_sides() {
    let mut rng = Rng(58);
    for header in Header::BOTH {
        let valid = header.length() + 14;
        let (mut sound, mut behind) = (BTreeSet::new(), 0);
        for _ in 0..500 {
            let object = gen::object_under(&mut rng, header, 100);
            let data = &object[valid + 6..valid + 70];
            sound.insert(object[valid]);
            let past = &data[usize::from(object[valid])..];
            behind += usize::from(past.iter().any(|b| *b != 0));
        }
        assert!([0, 64].iter().all(|valid| sound.contains(valid)));
        assert!(sound.len() > 40 && sound.iter().all(|valid| *valid <= 64));
        assert!(behind > 200);
    }
    let mut wrong = BTreeSet::new();
    for _ in 0..500 {
        let log = gen::damaged_log(&mut rng, 0, gen::Damage::ValidBytes);
        let header = Header::of(&log).length();
        wrong.insert((header, log[header + 14]));
    }
    assert!(wrong.iter().all(|(_, valid)| *valid > 64));
    for header in Header::BOTH {
        let met = |valid| wrong.contains(&(header.length(), valid));
        assert!([65, 128, 255].into_iter().all(met));
    }
}

/// Old copies of types 86 and 100 would be foreign objects if these types were; some are sound
/// objects of them, and some are as long as python-can's.
#[test]
fn old_copies_would_be_foreign() {
    let mut rng = Rng(59);
    for kind in [86, 100] {
        let (mut sound, mut lengths) = (0, BTreeSet::new());
        for _ in 0..300 {
            let mut copy = gen::old_foreign(&mut rng, kind);
            assert_eq!(u32_at(&copy, 12), kind);
            assert_eq!(write_foreign(&copy, &mut [0; 2_100]), refused(11, 0));
            sound += usize::from(walk(&gen::padded(copy.clone())) == Ok(1));
            lengths.insert(copy.len());
            copy[12] = 96;
            assert!(write_foreign(&copy, &mut [0; 2_100]).is_ok());
        }
        assert!(sound > 30 && lengths.len() > 30);
        let short = if kind == 86 { [52, 60] } else { [116, 124] };
        assert!(short.iter().all(|length| lengths.contains(length)));
    }
}

/// Every byte of one, two and three bytes of padding, and every one before another.
#[test]
fn damages_reach_every_padding_byte() {
    let mut rng = Rng(56);
    let mut reached = |damage| -> BTreeSet<(usize, usize)> {
        let told = |_| {
            let (log, place) = gen::damaged_log_at(&mut rng, 0, damage);
            let size = u32_at(&log, 8) as usize;
            (size % 4, place.expect("a damage that decides") - size)
        };
        (0..1_000).map(told).collect()
    };
    let alone = [(1, 0), (2, 0), (2, 1), (3, 0), (3, 1), (3, 2)];
    assert_eq!(reached(gen::Damage::Padding), alone.into());
    let first = [(2, 0), (3, 0), (3, 1)];
    assert_eq!(reached(gen::Damage::TwoPadding), first.into());
}

/// Document 01's padding, behind listed objects and behind foreign ones.
#[test]
fn old_padding_gives_four_numbers() {
    let mut rng = Rng(51);
    let mut met = [[0; 10]; 2];
    for _ in 0..1_000 {
        let log = gen::damaged_log(&mut rng, 1, gen::Damage::OldPadding);
        let number = walk(&log).expect_err("a damaged log").number;
        let last = objects(&log).last().copied();
        let start = match number {
            1 | 2 => last.expect("the damaged one").start,
            _ => last.map_or(0, |object| object.next),
        };
        let kind = u32_at(&log, start + 12);
        let size = u32_at(&log, start + 8) as usize;
        let zeros = if size % 4 == 1 { 3 } else { 1 };
        assert!(log[start + size..][..zeros].iter().all(|b| *b == 0));
        let behind = &log[start + size + zeros..];
        assert_eq!(behind.is_empty(), matches!(number, 1 | 5));
        assert!(behind.is_empty() || behind.starts_with(b"LOBJ"));
        met[usize::from(gen::LISTED.contains(&kind))][usize::from(number)] += 1;
    }
    for times in met {
        assert!([1, 2, 5, 6].iter().all(|n| times[*n] > 50), "{met:?}");
    }
}

#[test]
fn faults_give_their_numbers() {
    let mut rng = Rng(44);
    for fault in gen::FAULTS {
        for _ in 0..500 {
            let count = rng.from_to(1, 12);
            let log = gen::sound_log(&mut rng, count);
            let bundle = gen::damaged_bundle(&mut rng, &log, fault);
            let answer = check(&log, &bundle);
            if !fault.numbers().is_empty() {
                let number = answer.err().map(|refusal| refusal.number);
                let promised = number.is_some_and(|n| fault.numbers().contains(&n));
                assert!(promised, "{fault:?} gave {answer:?}");
            }
        }
    }
}

#[test]
fn positions_reach_everywhere() {
    let mut rng = Rng(45);
    let (mut objects, mut done, mut past) = (0, 0, 0);
    for _ in 0..2_000 {
        let log = gen::sound_log(&mut rng, 5);
        let position = gen::position(&mut rng, &log);
        match step(&log, position) {
            Answer::Object(_) => objects += 1,
            Answer::Done => done += 1,
            Answer::Refused(refusal) => {
                assert_eq!(refusal.place, position);
                past += usize::from(position > log.len());
            }
        }
    }
    assert!(objects > 100 && done > 100 && past > 100);
}

/// A FlexRay object has every field that 2 to 9 look at, and padding.
#[test]
fn two_damages_give_every_number() {
    let mut rng = Rng(46);
    let mut met = [0; 10];
    for _ in 0..2_000 {
        let log = gen::twice_damaged_log(&mut rng, 0, gen::Damage::DataCount);
        if let Err(refusal) = walk(&log) {
            met[refusal.number as usize] += 1;
        }
    }
    assert!(met[2..].iter().all(|times| *times > 0), "{met:?}");
}
