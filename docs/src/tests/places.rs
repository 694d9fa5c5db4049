//! W-205: the place of a refusal is the first byte of the field at fault, or the
//! first wrong byte of what is reserved and of the padding; for 5 the log's
//! length. The offsets here were taken from the papers by hand, not from the
//! type list: they count from the object's start under the first header, and
//! `moved` knows the second.

mod common;
use common::*;
use mshelovat_reference::asc::{self, LineAt};
use mshelovat_reference::gen::{self, Rng};
use mshelovat_reference::layout::{Refusal, TYPE_LIST};
use mshelovat_reference::object::{foreign_view, frame_view, rest, step, walk, Answer};
use mshelovat_reference::programs::{desk, lister};
use mshelovat_reference::records::*;
use mshelovat_reference::slips::{check, check_plain};

/// The refusal that a read gives, and where its caller goes on.
fn refusal_of<R>(read: Read<R>, position: usize) -> (Option<Refusal>, usize) {
    let next = read.position_after(position);
    match read {
        Read::Refused(refusal) => (Some(refusal), next),
        _ => (None, next),
    }
}

/// The same of each call that reads a record.
fn all_reads(log: &[u8], at: usize) -> [(Option<Refusal>, usize); 14] {
    [
        refusal_of(read_can_message(log, at), at),
        refusal_of(read_can_overload(log, at), at),
        refusal_of(read_can_statistic(log, at), at),
        refusal_of(read_flexray_receive(log, at), at),
        refusal_of(read_lin_message(log, at), at),
        refusal_of(read_lin_wake_up(log, at), at),
        refusal_of(read_can_message_2(log, at), at),
        refusal_of(read_can_fd_message(log, at), at),
        refusal_of(read_ethernet_status(log, at), at),
        refusal_of(read_ethernet_frame(log, at), at),
        refusal_of(read_forwarded_frame(log, at), at),
        refusal_of(read_ethernet_error(log, at), at),
        refusal_of(read_forwarded_error(log, at), at),
        refusal_of(read_any(log, at), at),
    ]
}

/// Every call at a position tells this refusal of what stands there, and its
/// caller goes on from there.
fn told_at(log: &[u8], at: usize, refusal: Refusal) {
    assert_eq!(step(log, at), Answer::Refused(refusal), "at {at}");
    assert_eq!(all_reads(log, at), [(Some(refusal), at); 14]);
    let mut out = [7; 200];
    let line = asc::line_at(log, at, &mut out);
    assert_eq!(line, LineAt::Refused(refusal));
    assert_eq!((line.position_after(at), out), (at, [7; 200]));
    assert_eq!(rest(log, at), &log[at..]);
    assert!(foreign_view(log, at).is_empty() && frame_view(log, at).is_empty());
}

/// Every call on a whole log tells this refusal.
fn told_of(log: &[u8], refusal: Refusal) {
    assert_eq!(walk(log), Err(refusal));
    let mut out = vec![7; log.len()];
    assert_eq!(rewrite(log, &mut out), Err(refusal));
    assert_eq!(rewrite(log, &mut []), Err(refusal));
    assert!(out.iter().all(|b| *b == 7));
    let line = format!("refused {} at {}\n", refusal.number, refusal.place);
    let text = lister(log);
    assert_eq!(text.split_inclusive('\n').next_back(), Some(&line[..]));
    for bundle in [vec![], slip(1, &[(1, 2, 3)])] {
        for check in [check, check_plain] {
            assert_eq!(check(log, &bundle), Err(refusal));
        }
        assert_eq!(desk(Some(log), Some(&bundle)), line);
    }
}

/// What may stand before an object: nothing, and objects behind which a start
/// leaves 0 and 2 over when divided by four.
fn fronts() -> Vec<Vec<u8>> {
    let odd = joined(&[foreign(19, 16), vec![0; 3]]);
    let frames = joined(&[m2(), odd.clone(), second(&frame_object(125))]);
    vec![vec![], m2(), odd, frames]
}

/// This object is refused by this number at these bytes of it, wherever it
/// stands and whatever follows.
fn told(object: &[u8], number: u8, offset: usize) {
    for front in fronts() {
        let start = front.len();
        let refusal = Refusal::new(number, start + offset);
        for behind in [vec![], m2()] {
            let log = [&front[..], object, &behind].concat();
            told_at(&log, start, refusal);
            told_of(&log, refusal);
        }
    }
    // At any position, behind bytes that are no object.
    for start in 1..4 {
        let log = [&[0xFF; 3][..start], object].concat();
        told_at(&log, start, Refusal::new(number, start + offset));
    }
}

/// The last object of a log: refused by 5, at the log's length.
fn told_cut(object: &[u8]) {
    for front in fronts() {
        let log = [&front[..], object].concat();
        let refusal = Refusal::new(5, log.len());
        told_at(&log, front.len(), refusal);
        told_of(&log, refusal);
    }
}

/// A sound object of each type and length under both headers, with its padding.
fn listed() -> Vec<Vec<u8>> {
    let fixed = SIZES
        .iter()
        .flat_map(|(kind, sizes)| sizes.iter().map(|size| bare(*kind, *size)));
    fixed.chain((120..=123).map(frame)).flat_map(both).collect()
}

/// A sound object of types 120 to 123, with 1, 2, 3 or 0 bytes of padding.
fn frame(kind: u8) -> Vec<u8> {
    let mut object = frame_object(u32::from(kind) - 55);
    object[12] = kind;
    object
}

/// Sound foreign objects with 0 to 3 bytes of padding.
fn foreigners() -> impl Iterator<Item = Vec<u8>> {
    (20..24).map(|size| joined(&[foreign(size, 16), vec![0; size as usize - 20]]))
}

/// An object with other bytes at an offset.
fn with(object: &[u8], offset: usize, bytes: &[u8]) -> Vec<u8> {
    let mut object = object.to_vec();
    object[offset..offset + bytes.len()].copy_from_slice(bytes);
    object
}

/// An object with these bytes set.
fn with_set(object: &[u8], offsets: &[usize]) -> Vec<u8> {
    let mut object = object.to_vec();
    offsets.iter().for_each(|at| object[*at] = 0x80);
    object
}

fn size_of(object: &[u8]) -> usize {
    u32::from_le_bytes(object[8..12].try_into().unwrap()) as usize
}

#[test]
fn what_these_tests_damage_is_sound() {
    assert_eq!(listed().len(), 30);
    for object in listed().into_iter().chain(foreigners()) {
        assert_eq!(walk(&object), Ok(1));
        assert_eq!(object.len(), size_of(&object) + size_of(&object) % 4);
    }
    let ends: Vec<usize> = fronts().iter().map(Vec::len).collect();
    assert_eq!(ends, [0, 36, 22, 192]);
}

/// M4 to M8 and M10.
#[test]
fn the_marked_examples() {
    let m3 = frame_object(125);
    assert_eq!(walk(&m3[..125]), refused(5, 125));
    assert_eq!(walk(&with(&m3, 125, &[1])), refused(6, 125));
    let m7 = with(&m2(), 34, &[1]);
    assert_eq!(walk(&with(&m7, 16, &[0])), refused(7, 16));
    assert_eq!(walk(&m7), refused(8, 34));
    assert_eq!(walk(&with(&m2(), 8, &[40])), refused(3, 8));
    assert_eq!(walk(&foreign(16, 17)), refused(4, 4));
}

/// 1: the position, as before.
#[test]
fn head_is_told_at_the_position() {
    for front in fronts() {
        for more in 1..16 {
            let log = [&front[..], &m2()[..more]].concat();
            let refusal = Refusal::new(1, front.len());
            told_at(&log, front.len(), refusal);
            told_of(&log, refusal);
            assert_eq!(step(&log, log.len()), Answer::Done);
        }
    }
    for position in [37, 1_000, usize::MAX] {
        let answer = step(&m2(), position);
        assert_eq!(answer, Answer::Refused(Refusal::new(1, position)));
    }
}

/// 2: the field's first byte, whichever letters differ.
#[test]
fn signature_is_told_at_its_first_letter() {
    for object in [m2(), second(&m2()), foreign(20, 16)] {
        for letters in 1..16 {
            let differs: Vec<usize> = (0..4).filter(|at| letters >> at & 1 == 1).collect();
            told(&with_set(&object, &differs), 2, 0);
        }
    }
}

/// 3: the size field, whatever is wrong with it.
#[test]
fn size_is_told_at_its_field() {
    for object in listed() {
        let size = size_of(&object) as u32;
        for wrong in [0, 15, 16, size + 2_000, 0x0100_0000 | size, u32::MAX] {
            told(&with(&object, 8, &wrong.to_le_bytes()), 3, 8);
        }
    }
    for size in 0..16 {
        told(&foreign(size, 16), 3, 8);
        // 3 comes before 4 here.
        told(&foreign(size, 15), 3, 8);
    }
}

/// 4: the header size, also where only the version is wrong.
#[test]
fn header_is_told_at_its_size() {
    for object in listed() {
        let (size, version) = (object[4], object[6]);
        for pair in [
            [size + 1, 0, version, 0],
            [size, 1, version, 0],
            [size, 0, version + 2, 0],
            [size, 0, version, 1],
            [size, 0, 0, 0],
            [72 - size, 0, version, 0],
            [size, 0, 3 - version, 0],
            [0, 0, 0, 0],
            [255, 255, 255, 255],
        ] {
            let wrong = with(&object, 4, &pair);
            told(&wrong, 4, 4);
            // 4 comes before 3 here.
            told(&with(&wrong, 8, &[5, 0, 0, 0]), 4, 4);
        }
    }
    for wrong in [0, 15, 21, 0x0114, u16::MAX] {
        told(&foreign(20, wrong), 4, 4);
    }
}

/// 5: the log's length at every cut of an object and of its padding.
#[test]
fn a_cut_is_told_at_the_end_of_the_log() {
    for object in listed().into_iter().chain(foreigners()) {
        for length in 16..object.len() {
            told_cut(&object[..length]);
        }
    }
    for size in [21, 1_000, 0x8000_0000, u32::MAX - 22, u32::MAX] {
        told_cut(&with(&foreign(20, 16), 8, &size.to_le_bytes()));
    }
}

/// 6: each padding byte alone, two of them, and all.
#[test]
fn padding_is_told_at_its_first_wrong_byte() {
    let mut padded = 0;
    for object in listed().into_iter().chain(foreigners()) {
        let zeros = size_of(&object)..object.len();
        for first in zeros.clone() {
            padded += 1;
            told(&with_set(&object, &[first]), 6, first);
            for later in first + 1..zeros.end {
                told(&with_set(&object, &[first, later]), 6, first);
            }
            let all: Vec<usize> = (first..zeros.end).collect();
            told(&with_set(&object, &all), 6, first);
            // The object's last byte does not count.
            let last = with_set(&object, &[zeros.start - 1, first]);
            told(&last, 6, first);
        }
    }
    // Frames of both headers, FlexRay of both, foreign ones.
    assert_eq!(padded, 2 * 6 + 2 * 2 + 6);
}

/// 7: the unit field, whichever of its bytes is wrong.
#[test]
fn unit_is_told_at_its_field() {
    for object in listed() {
        for unit in [0u32, 3, 0x0101, 0x0002_0002, 0x0100_0001, u32::MAX] {
            let wrong = with(&object, 16, &unit.to_le_bytes());
            told(&wrong, 7, 16);
            // 7 comes before 8.
            if object[4] == 40 {
                told(&with(&wrong, 21, &[1]), 7, 16);
            }
        }
    }
}

/// The reserved bytes of the body, by the papers.
fn reserved_of(kind: u8) -> &'static [usize] {
    match kind {
        3 => &[34, 35],
        50 => &[39, 59, 72, 73, 74, 75],
        57 => &[46, 47, 161, 162, 163],
        62 => &[46, 47, 51],
        86 => &[53, 54, 55],
        100 => &[47, 48, 49, 50, 51, 116, 117, 118, 119],
        120 | 121 => &[60, 61, 62, 63],
        _ => &[],
    }
}

/// The reserved bytes of an object, where they stand in it.
fn reserved_in(object: &[u8]) -> Vec<usize> {
    let gap = (object[4] == 40).then_some(21);
    let body = reserved_of(object[12]).iter().map(|at| moved(object, *at));
    gap.into_iter().chain(body).collect()
}

/// 8: each reserved byte alone, every two, and all from one on. The header's
/// own comes before those of the body.
#[test]
fn reserved_is_told_at_its_first_wrong_byte() {
    let (mut alone, mut pairs) = (0, 0);
    for object in listed() {
        let reserved = reserved_in(&object);
        for (at, first) in reserved.iter().enumerate() {
            alone += 1;
            told(&with_set(&object, &[*first]), 8, *first);
            for later in &reserved[at + 1..] {
                pairs += 1;
                told(&with_set(&object, &[*first, *later]), 8, *first);
            }
            told(&with_set(&object, &reserved[at..]), 8, *first);
        }
    }
    // Types 3, 50, 57 (three times), 62, 86, 100, 120, 121, and thirteen gaps
    // (and two).
    let body = 2 + 6 + 3 * 5 + 3 + 3 + 9 + 4 + 4;
    assert_eq!(alone, 2 * body + 15);
    let of_body = 1 + 15 + 3 * 10 + 3 + 3 + 36 + 6 + 6;
    assert_eq!(pairs, 2 * of_body + body);
}

/// 9, types 120 to 123: structure length before frame length.
#[test]
fn lengths_are_told_at_their_fields() {
    for object in (120..=123).map(frame).flat_map(both) {
        let (structure, length) = (moved(&object, 32), moved(&object, 54));
        let right = object[length];
        for wrong in [[31, 0], [33, 0], [0, 0], [32, 1], [0, 32]] {
            let broken = with(&object, structure, &wrong);
            told(&broken, 9, structure);
            told(&with(&broken, length, &[right + 1]), 9, structure);
            told(&with(&broken, length + 1, &[1]), 9, structure);
        }
        for wrong in [[right + 1, 0], [right - 1, 0], [right + 8, 0], [right, 1]] {
            told(&with(&object, length, &wrong), 9, length);
        }
        // The size is told for neither: a frame of another length.
        let size = size_of(&object) as u32 + 4;
        let longer = joined(&[with(&object, 8, &size.to_le_bytes()), vec![0; 4]]);
        told(&longer, 9, length);
    }
}

/// 9, FlexRay: the data count by both of its rules, never the byte count.
#[test]
fn counts_are_told_at_the_data_count() {
    for (data_count, byte_count) in [
        (255, 255),
        (255, u16::MAX),
        (256, 256),
        (u16::MAX, u16::MAX),
        (1, 0),
        (254, 253),
        (10, 9),
        (254, 0),
        (255, 254),
        (255, 0),
        (0x0100, 0x00FF),
        (u16::MAX, 0),
    ] {
        for object in both(flexray(data_count, byte_count)) {
            told(&object, 9, moved(&object, 56));
        }
    }
}

/// 9, LIN: the exact rate, whichever of its bytes break the rule.
#[test]
fn rates_are_told_at_the_exact_rate() {
    for rate in [
        f64::NAN,
        -f64::NAN,
        f64::INFINITY,
        f64::NEG_INFINITY,
        -1.0,
        -0.0,
        -f64::MIN_POSITIVE,
    ] {
        for object in both(bare(57, 184)) {
            let at = moved(&object, 168);
            told(&with(&object, at, &rate.to_le_bytes()), 9, at);
        }
        // The shorter ones have none: these are other fields.
        for object in both(bare(57, 168)) {
            let at = moved(&object, 164);
            let response = with(&object, at, &rate.to_le_bytes()[4..]);
            assert_eq!(walk(&response), Ok(1));
        }
    }
}

/// 9, CAN FD: the valid bytes, whatever the DLC is.
#[test]
fn valid_bytes_are_told_at_their_field() {
    for object in both(bare(100, 120)) {
        let (dlc, valid) = (moved(&object, 35), moved(&object, 46));
        for wrong in [65, 66, 127, 128, 255] {
            let broken = with(&object, valid, &[wrong]);
            told(&broken, 9, valid);
            told(&with(&broken, dlc, &[8]), 9, valid);
        }
    }
}

/// 8 comes before 9, whatever stands first.
#[test]
fn reserved_is_told_before_content() {
    for object in both(flexray(1, 0)) {
        for at in reserved_in(&object) {
            told(&with_set(&object, &[at]), 8, at);
        }
    }
    for object in [120, 121].map(frame).into_iter().flat_map(both) {
        let broken = with(&object, moved(&object, 32), &[0]);
        for at in reserved_in(&object) {
            told(&with_set(&broken, &[at]), 8, at);
        }
    }
    for object in both(bare(57, 184)) {
        let broken = with(&object, moved(&object, 168), &[0xFF; 8]);
        for at in reserved_in(&object) {
            told(&with_set(&broken, &[at]), 8, at);
        }
    }
    for object in both(bare(100, 120)) {
        let broken = with(&object, moved(&object, 46), &[65]);
        for at in reserved_in(&object) {
            told(&with_set(&broken, &[at]), 8, at);
        }
    }
}

/// Of several refused objects the first is told, and each where it stands.
#[test]
fn every_object_is_told_by_itself() {
    let unit = with(&m2(), 16, &[0]);
    let gap = with(&second(&m2()), 21, &[1]);
    let padding = with(&frame_object(127), 128, &[1]);
    let log = joined(&[m2(), unit, gap, padding, m2()[..20].to_vec()]);
    told_of(&log, Refusal::new(7, 52));
    told_at(&log, 36, Refusal::new(7, 52));
    told_at(&log, 72, Refusal::new(8, 93));
    told_at(&log, 116, Refusal::new(6, 244));
    told_at(&log, 246, Refusal::new(5, 266));
    assert_eq!(lister(&log), "0 36 3\nrefused 7 at 52\n");
}

/// On writing the place stays 0, in a log too.
#[test]
fn writing_tells_place_0() {
    let mut rng = Rng(52);
    let mut met = [0; 12];
    for turn in 0..5_200 {
        let kind = gen::LISTED[turn % 13];
        let object = gen::raw_object(&mut rng, kind);
        let mut out = vec![7; rng.below(600)];
        let written = write_any(&record_in(kind, &object), &mut out);
        let room = rng.below(40).min(out.len());
        let line = asc::object_line(&object, &mut out[..room]);
        let foreign = write_foreign(&object, &mut out);
        for refusal in [written, line, foreign].into_iter().filter_map(Result::err) {
            assert_eq!(refusal.place, 0);
            met[usize::from(refusal.number)] += 1;
        }
    }
    assert!([7, 9, 10, 11].iter().all(|n| met[*n] > 100), "{met:?}");
    let log = joined(&[frame_object(125), m2()]);
    assert_eq!(rewrite(&log, &mut [0; 161]), refused(10, 0));
    let line = asc::line_at(&log, 126, &mut [0; 28]);
    assert_eq!(line, LineAt::Refused(Refusal::new(10, 0)));
    assert_eq!(line.position_after(126), 126);
    // The unit of an object without a log.
    let unit = with(&m2(), 16, &[0]);
    assert_eq!(asc::object_line(&unit, &mut [0; 64]), refused(7, 0));
}

/// 20 to 28 are told as before, and before or after what the walk tells.
#[test]
fn slips_are_told_as_before() {
    let log = joined(&[m2(), with(&m2(), 35, &[1])]);
    let first = slip(1, &[(0, 36, 3)]);
    for check in [check, check_plain] {
        assert_eq!(
            check(&log, &joined(&[first.clone(), vec![0]])),
            refused(20, 18)
        );
        let desk = joined(&[first.clone(), first.clone()]);
        assert_eq!(check(&log, &desk), refused(22, 18));
        assert_eq!(check(&log, &first), refused(8, 71));
        let stray = slip(1, &[(0, 35, 3)]);
        assert_eq!(check(&log, &stray), refused(8, 71));
        assert_eq!(check(&m2(), &stray), refused(25, 0));
        let two = joined(&[m2(), m2()]);
        assert_eq!(check(&two, &first), refused(27, 36));
    }
}

/// The lists that tests and places come from are in the order of the bytes, and
/// the types rise.
#[test]
fn the_type_list_is_in_order() {
    let types = [1, 3, 4, 50, 57, 62, 86, 100, 103, 120, 121, 122, 123];
    assert_eq!(TYPE_LIST.map(|row| row.kind), types);
    assert_eq!(gen::LISTED, types);
    for row in &TYPE_LIST {
        assert!(row.reserved.is_sorted(), "{}", row.event);
        let runs: Vec<&[usize]> = row.runs().collect();
        assert_eq!(runs.concat(), row.reserved);
        let count = match row.kind {
            50 => 3,
            57 | 62 | 100 => 2,
            3 | 86 | 120 | 121 => 1,
            _ => 0,
        };
        assert_eq!(runs.len(), count, "{}", row.event);
    }
}

/// The answers of another reading of the papers.
#[test]
fn shared_cases() {
    assert_eq!(common::shared_cases(include_str!("cases/W-205.txt")), 60);
}
