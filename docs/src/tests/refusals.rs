//! Every refusal number of the reader and the writer under both headers, the
//! order in which they are tried, positions and views. What W-202 alone asks is
//! in headers.rs; more on the places is in places.rs.

mod common;
use common::*;
use mshelovat_reference::layout::{row, TYPE_LIST};
use mshelovat_reference::object::{foreign_view, frame_view, rest, step, walk, Answer};
use mshelovat_reference::records::*;
use mshelovat_reference::slips::{check, check_plain, is_long};

#[test]
fn head_at_any_position() {
    let log = m2();
    for position in [21, 35, 37, 1_000, usize::MAX - 1, usize::MAX] {
        let Answer::Refused(refusal) = step(&log, position) else {
            panic!("position {position}");
        };
        assert_eq!((refusal.number, refusal.place), (1, position));
    }
    assert_eq!(step(&log, 36), Answer::Done);
    let Answer::Refused(refusal) = step(&log, 20) else {
        panic!("16 bytes remain");
    };
    assert_eq!((refusal.number, refusal.place), (2, 20));
    assert_eq!(walk(&log[..15]), refused(1, 0));
    assert_eq!(walk(&log[..16]), refused(5, 16));
}

#[test]
fn signature_every_byte() {
    for at in 0..4 {
        let mut log = m2();
        log[at] ^= 0x20;
        assert_eq!(walk(&log), refused(2, 0));
    }
}

#[test]
fn every_type_finds_its_row() {
    for listed in &TYPE_LIST {
        assert_eq!(row(listed.kind).map(|found| found.kind), Some(listed.kind));
    }
    for foreign in [0, 2, 5, 85, 87, 99, 101, 119, 124, 9_999, u32::MAX] {
        assert!(row(foreign).is_none(), "{foreign}");
    }
}

#[test]
fn size_of_every_type() {
    for (kind, sizes) in SIZES {
        for size in 0..400 {
            let expected = if sizes.contains(&size) {
                Ok(1)
            } else {
                refused(3, 8)
            };
            for log in both(long_enough(kind, size)) {
                assert_eq!(walk(&log), expected, "{kind} {size}");
            }
        }
    }
    for kind in 120..=123 {
        for size in (0..64).chain(1_677..1_700) {
            for log in both(long_enough(kind, size)) {
                assert_eq!(walk(&log), refused(3, 8), "{kind} {size}");
            }
        }
    }
    for size in 0..16 {
        assert_eq!(walk(&foreign(size, 16)), refused(3, 8));
    }
}

/// A bare object with at least 32 bytes, whatever its size says.
fn long_enough(kind: u32, size: u32) -> Vec<u8> {
    let mut object = bare(kind, size);
    if size < 32 {
        object = bare(kind, 32);
        object[8..12].copy_from_slice(&size.to_le_bytes());
    }
    object
}

/// M2 with this header size and version.
fn with_pair(object: &[u8], size: u16, version: u16) -> Vec<u8> {
    let mut object = object.to_vec();
    object[4..6].copy_from_slice(&size.to_le_bytes());
    object[6..8].copy_from_slice(&version.to_le_bytes());
    object
}

#[test]
fn header_of_listed_and_foreign() {
    for size in 0..=50 {
        for version in [0, 1, 2, 3, 0x0100, 0x0101, 0x0102, u16::MAX] {
            // Either pair, but for the other one's size.
            let expected = |own, other| match (size, version) {
                pair if pair == own => Ok(1),
                pair if pair == other => refused(3, 8),
                _ => refused(4, 4),
            };
            let [first, second] = both(m2());
            let answer = walk(&with_pair(&first, size, version));
            assert_eq!(answer, expected((32, 1), (40, 2)), "{size} {version}");
            let answer = walk(&with_pair(&second, size, version));
            assert_eq!(answer, expected((40, 2), (32, 1)), "{size} {version}");
            let expected = if (16..=44).contains(&size) {
                Ok(1)
            } else {
                refused(4, 4)
            };
            assert_eq!(walk(&with_pair(&foreign(44, 0), size, version)), expected);
        }
    }
}

#[test]
fn unit_and_kept_header_fields() {
    for mut log in both(m2()) {
        for unit in [0u32, 3, 256, 257, 0x0100_0000, u32::MAX] {
            log[16..20].copy_from_slice(&unit.to_le_bytes());
            assert_eq!(walk(&log), refused(7, 16));
        }
    }
    let [mut first, mut second] = both(m2());
    first[20..32].fill(0xFF);
    assert_eq!(walk(&first), Ok(1));
    second[20..40].fill(0xFF);
    assert_eq!(walk(&second), refused(8, 21));
    second[21] = 0;
    assert_eq!(walk(&second), Ok(1));
}

#[test]
fn reserved_bytes_and_no_others() {
    let reserved: [(u32, u32, &[usize]); 11] = [
        (1, 48, &[]),
        (3, 36, &[34, 35]),
        (4, 60, &[]),
        (50, 330, &[39, 59, 72, 73, 74, 75]),
        (57, 164, &[46, 47, 161, 162, 163]),
        (57, 168, &[46, 47, 161, 162, 163]),
        (57, 184, &[46, 47, 161, 162, 163]),
        (62, 52, &[46, 47, 51]),
        (86, 56, &[53, 54, 55]),
        (100, 120, &[47, 48, 49, 50, 51, 116, 117, 118, 119]),
        (103, 48, &[]),
    ];
    for (kind, size, reserved) in reserved {
        for at in 32..size as usize {
            // Data count above byte count: content, not reserved.
            let content = kind == 50 && (at == 56 || at == 57);
            for mut log in both(bare(kind, size)) {
                let place = moved(&log, at);
                let expected = match (reserved.contains(&at), content) {
                    (true, _) => refused(8, place),
                    (false, true) => refused(9, moved(&log, 56)),
                    (false, false) => Ok(1),
                };
                log[place] = 1;
                assert_eq!(walk(&log), expected, "{kind} {size} {at}");
            }
        }
    }
}

#[test]
fn reserved_of_frames() {
    for kind in 120..=123 {
        for at in 32..80 {
            for mut log in both(frame_object(80)) {
                let place = moved(&log, at);
                let expected = match at {
                    32 | 33 => refused(9, moved(&log, 32)),
                    54 | 55 => refused(9, moved(&log, 54)),
                    60..=63 if kind < 122 => refused(8, place),
                    _ => Ok(1),
                };
                log[12] = kind;
                log[place] ^= 1;
                assert_eq!(walk(&log), expected, "{kind} {at}");
            }
        }
    }
}

#[test]
fn exact_rate() {
    let sound = [0, 1, 0x000F_FFFF_FFFF_FFFF, f64::MAX.to_bits()];
    let broken = [
        1 << 63,
        f64::INFINITY.to_bits(),
        f64::NAN.to_bits(),
        (-1f64).to_bits(),
        u64::MAX,
    ];
    let rates = sound.map(|rate| (rate, true)).into_iter();
    for (rate, holds) in rates.chain(broken.map(|rate| (rate, false))) {
        for mut log in both(bare(57, 184)) {
            let at = moved(&log, 168);
            log[at..at + 8].copy_from_slice(&rate.to_le_bytes());
            let expected = if holds { Ok(1) } else { refused(9, at) };
            assert_eq!(walk(&log), expected, "{rate:016x}");
        }
        let value = f64::from_bits(rate);
        assert_eq!(holds, value.is_finite() && value.is_sign_positive());
    }
}

/// Damages a FlexRay receive so that this number would be given.
fn harm(log: &mut Vec<u8>, number: u8) {
    let end = moved(log, 330);
    match number {
        2 => log[3] = 0,
        3 => log[8] += 1,
        4 => log[7] = 1,
        5 => log.truncate(end + 1),
        6 => log[end] = 1,
        7 => log[16] = 0,
        8 if log[4] == 40 => log[21] = 1,
        8 => log[39] = 1,
        _ => {
            let data_count = moved(log, 56);
            log[data_count] = 1;
        }
    }
}

/// Where [`harm`] is told, behind 36 bytes.
fn harmed(log: &[u8], number: u8) -> usize {
    let object = &log[36..];
    36 + match number {
        2 => 0,
        3 => 8,
        4 => 4,
        5 => object.len(),
        6 => moved(object, 330),
        7 => 16,
        8 if object[4] == 40 => 21,
        8 => 39,
        _ => moved(object, 56),
    }
}

/// The order of the tests, for the thirteen types.
const ORDER: [u8; 8] = [2, 4, 3, 5, 6, 7, 8, 9];

#[test]
fn the_first_that_is_tried_wins() {
    for set in 0u32..256 {
        let numbers = ORDER.iter().enumerate();
        let numbers: Vec<u8> = numbers
            .filter(|(at, _)| set >> at & 1 == 1)
            .map(|(_, number)| *number)
            .collect();
        for mut object in both(flexray(0, 0)) {
            numbers.iter().rev().for_each(|n| harm(&mut object, *n));
            let log = joined(&[m2(), object]);
            let expected = match numbers.first() {
                Some(number) => refused(*number, harmed(&log, *number)),
                None => Ok(2),
            };
            assert_eq!(walk(&log), expected, "{numbers:?}");
        }
    }
}

#[test]
fn padding_goes_by_size_not_by_position() {
    let mut log = vec![9];
    log.extend(frame_object(125));
    let Answer::Object(object) = step(&log, 1) else {
        panic!("an object");
    };
    assert_eq!((object.start, object.size, object.next), (1, 125, 127));
    assert_eq!(step(&log, 127), Answer::Done);
}

#[test]
fn views() {
    let log = joined(&[frame_object(125), foreign(20, 16), m2(), vec![1, 2]]);
    assert_eq!(frame_view(&log, 0), [0xAB; 61]);
    assert_eq!(rest(&log, 0), &log[126..]);
    assert_eq!(foreign_view(&log, 0), []);
    assert_eq!(foreign_view(&log, 126), &log[126..146]);
    assert_eq!(frame_view(&log, 126), []);
    assert_eq!(rest(&log, 126), &log[146..]);
    assert_eq!(
        (foreign_view(&log, 146), frame_view(&log, 146)),
        (&[][..], &[][..])
    );
    assert_eq!(rest(&log, 146), [1, 2]);
    assert_eq!(rest(&log, 182), [1, 2]);
    assert_eq!(rest(&log, 184), []);
    for past in [185, usize::MAX] {
        assert_eq!(rest(&log, past), []);
        assert_eq!(
            (foreign_view(&log, past), frame_view(&log, past)),
            (&[][..], &[][..])
        );
    }
}

#[test]
fn other_done_and_position_after() {
    let log = joined(&[m2(), foreign(16, 16), bare(62, 52), vec![0]]);
    assert_eq!(read_lin_wake_up(&log, 0), Read::Other { next: 36 });
    assert_eq!(read_can_overload(&log, 36), Read::Other { next: 52 });
    let answer = read_lin_wake_up(&log, 52);
    assert_eq!(answer.position_after(52), 104);
    let answer = read_lin_wake_up(&log, 104);
    assert!(matches!(answer, Read::Refused(r) if r.number == 1 && r.place == 104));
    assert_eq!(answer.position_after(104), 104);
    assert_eq!(read_lin_wake_up(&log[..104], 104), Read::Done);
    // A forwarded frame is another type than a frame.
    let mut log = frame_object(80);
    assert!(matches!(
        read_ethernet_frame(&log, 0),
        Read::Record { next: 80, .. }
    ));
    log[12] = 121;
    assert_eq!(read_ethernet_frame(&log, 0), Read::Other { next: 80 });
    assert!(matches!(
        read_forwarded_frame(&log, 0),
        Read::Record { next: 80, .. }
    ));
    // An object of another type is judged all the same.
    log[60] = 1;
    assert!(
        matches!(read_can_message(&log, 0), Read::Refused(r) if r.number == 8 && r.place == 60)
    );
}

#[test]
fn writer_tries_7_then_9_then_10() {
    let mut record = FlexRayReceive {
        data_count: 1,
        ..FlexRayReceive::default()
    };
    let mut short = [5; 331];
    assert_eq!(write_flexray_receive(&record, &mut short), refused(7, 0));
    record.head.unit = 1;
    assert_eq!(write_flexray_receive(&record, &mut short), refused(9, 0));
    record.data_count = 0;
    assert_eq!(write_flexray_receive(&record, &mut short), refused(10, 0));
    assert_eq!(short, [5; 331]);
    let mut enough = [5; 333];
    assert_eq!(write_flexray_receive(&record, &mut enough), Ok(332));
    assert_eq!(enough[330..], [0, 0, 5]);
}

#[test]
fn write_foreign_tries_11_then_10() {
    let sound = foreign(18, 17);
    let mut out = [9; 24];
    assert_eq!(write_foreign(&sound, &mut out), Ok(20));
    assert_eq!(out[..18], sound[..]);
    assert_eq!(out[18..], [0, 0, 9, 9, 9, 9]);
    assert_eq!(write_foreign(&sound, &mut out[..19]), refused(10, 0));
    assert_eq!(write_foreign(&sound[..17], &mut []), refused(11, 0));
    let with_padding = joined(&[sound.clone(), vec![0, 0]]);
    for wrong in [
        vec![],
        sound[..15].to_vec(),
        with_padding,
        m2(),
        foreign(18, 15),
        foreign(18, 19),
        foreign(15, 16),
        joined(&[foreign(16, 16), foreign(16, 16)]),
    ] {
        assert_eq!(write_foreign(&wrong, &mut []), refused(11, 0));
        assert_eq!(write_foreign(&wrong, &mut [0; 64]), refused(11, 0));
    }
    let mut unsigned = foreign(16, 16);
    unsigned[0] = 0;
    assert_eq!(write_foreign(&unsigned, &mut [0; 64]), refused(11, 0));
    // A foreign object needs no sound listed type: the type alone decides.
    let mut listed = foreign(16, 16);
    listed[12..16].copy_from_slice(&3u32.to_le_bytes());
    assert_eq!(write_foreign(&listed, &mut [0; 64]), refused(11, 0));
}

#[test]
fn long_logs() {
    assert!(!is_long(4_294_967_295));
    assert!(is_long(4_294_967_296));
    assert!(is_long(u64::MAX));
}

/// 4 GiB of zeros, of which the check reads none or a page. Run with --ignored.
#[test]
#[ignore = "asks for 4 GiB of address space"]
fn long_logs_in_full() {
    let log = vec![0; 4_294_967_296];
    for check in [check, check_plain] {
        assert_eq!(check(&log, &[1]), refused(28, 0));
        assert_eq!(check(&log[1..], &[1]), refused(20, 0));
        assert_eq!(check(&log[1..], &[]), refused(2, 0));
    }
}
