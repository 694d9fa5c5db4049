//! The examples of document 01: marked ones, run ones, slips of the pen. M3, M4
//! and M5 are as W-204 has them, and places are W-205's.

mod common;
use common::*;
use mshelovat_reference::layout::Refusal;
use mshelovat_reference::object::*;
use mshelovat_reference::programs;
use mshelovat_reference::records::*;
use mshelovat_reference::slips::{check, check_plain};

/// Both checks must agree on what they answer.
fn both(log: &[u8], bundle: &[u8]) -> Result<usize, Refusal> {
    let answer = check(log, bundle);
    assert_eq!(answer, check_plain(log, bundle));
    answer
}

#[test]
fn m1_empty_log() {
    assert_eq!(walk(&[]), Ok(0));
    assert_eq!(step(&[], 0), Answer::Done);
}

#[test]
fn m2_overload() {
    let log = m2();
    assert_eq!(log.len(), 36);
    let expected = CanOverload {
        head: Head {
            unit: 2,
            own: Own::First { client_index: 0 },
            version: 0,
            time: 1_000_000,
        },
        channel: 1,
    };
    let answer = read_can_overload(&log, 0);
    assert_eq!(
        answer,
        Read::Record {
            record: expected,
            next: 36
        }
    );
    let mut out = [7; 40];
    assert_eq!(write_can_overload(&expected, &mut out), Ok(36));
    assert_eq!(out[..36], log[..]);
    assert_eq!(out[36..], [7; 4]);
}

#[test]
fn m3_to_m5_frame_of_61() {
    let log = frame_object(125);
    assert_eq!(log.len(), 126);
    let object = Object {
        start: 0,
        size: 125,
        kind: 120,
        next: 126,
    };
    assert_eq!(step(&log, 0), Answer::Object(object));
    assert_eq!(frame_view(&log, 0), [0xAB; 61]);
    assert_eq!(walk(&log[..125]), refused(5, 125));
    let mut spoilt = log.clone();
    spoilt[125] = 1;
    assert_eq!(walk(&spoilt), refused(6, 125));
}

#[test]
fn m6_to_m8_damaged_overload() {
    let mut m7 = m2();
    m7[34] = 1;
    assert_eq!(walk(&m7), refused(8, 34));
    let mut m6 = m7;
    m6[16] = 0;
    assert_eq!(walk(&m6), refused(7, 16));
    let mut m8 = m2();
    m8[8] = 40;
    assert_eq!(walk(&m8), refused(3, 8));
}

#[test]
fn m9_and_m10_foreign() {
    let m9 = foreign(16, 16);
    assert_eq!(walk(&m9), Ok(1));
    assert_eq!(foreign_view(&m9, 0), m9);
    assert_eq!(walk(&foreign(16, 17)), refused(4, 4));
}

fn m11() -> Vec<u8> {
    hex("0000001A 01 01 00000000 00000024 00000003 00000024 00000024 00000003")
}

#[test]
fn m11_to_m14_slips() {
    let log = joined(&[m2(), m2()]);
    assert_eq!(log.len(), 72);
    assert_eq!(both(&log, &m11()), Ok(2));
    let m12 = joined(&[m11(), slip(2, &[(36, 36, 3)])]);
    assert_eq!(both(&log, &m12), refused(26, 36));
    assert_eq!(both(&log, &[]), refused(27, 0));
    assert_eq!(both(&[], &hex("00000002 01 05")), Ok(0));
}

#[test]
fn run_frame_sizes() {
    let long = [0xCD; 1_613];
    let mut record = EthernetFrame {
        frame: &long[..1_612],
        ..EthernetFrame::default()
    };
    record.head.unit = 1;
    let mut out = vec![0; 2_000];
    assert_eq!(write_ethernet_frame(&record, &mut out), Ok(1_676));
    assert_eq!(out[8..12], 1_676u32.to_le_bytes());
    assert_eq!(walk(&out[..1_676]), Ok(1));
    record.frame = &long;
    assert_eq!(write_ethernet_frame(&record, &mut out), refused(9, 0));
    assert_eq!(walk(&frame_object(1_676)), Ok(1));
    assert_eq!(walk(&frame_object(1_677)), refused(3, 8));
    assert_eq!(walk(&frame_object(64)), Ok(1));
    assert_eq!(walk(&bare(120, 63)), refused(3, 8));
}

#[test]
fn run_flexray_counts() {
    assert_eq!(walk(&flexray(254, 254)), Ok(1));
    assert_eq!(walk(&flexray(255, 255)), refused(9, 56));
    assert_eq!(walk(&flexray(10, 9)), refused(9, 56));
}

#[test]
fn run_entry_of_size_40() {
    let log = joined(&[m2(), m2()]);
    let bundle = slip(1, &[(0, 36, 3), (36, 40, 3)]);
    assert_eq!(both(&log, &bundle), refused(25, 36));
}

#[test]
fn run_lister() {
    let log = joined(&[m2(), wake_up()]);
    let text = "0 36 3\n36 52 62\nend 88 objects 2\n";
    assert_eq!(programs::lister(&log), text);
    assert_eq!(programs::lister(&[]), "end 0 objects 0\n");
    assert_eq!(programs::lister(&log[..87]), "0 36 3\nrefused 5 at 87\n");
    assert_eq!(programs::lister(&[0; 65_536]), "refused 2 at 0\n");
    assert_eq!(programs::lister(&[0; 65_537]), "too long\n");
}

#[test]
fn run_desk() {
    let log = joined(&[m2(), m2()]);
    let long = vec![0; 65_537];
    assert_eq!(programs::desk(Some(&log), Some(&m11())), "accepted 2\n");
    assert_eq!(programs::desk(Some(&log), Some(&[])), "refused 27 at 0\n");
    assert_eq!(programs::desk(Some(&long), None), "no file\n");
    assert_eq!(programs::desk(None, Some(&[])), "no file\n");
    assert_eq!(programs::desk(Some(&log), Some(&long)), "too long\n");
    assert_eq!(programs::desk(Some(&long), Some(&[])), "too long\n");
}

#[test]
fn pen_size_does_not_count_the_padding() {
    let log = joined(&[frame_object(125), m2()]);
    assert_eq!(walk(&log), Ok(2));
    assert_eq!(rest(&log, 0), m2());
    let right = slip(1, &[(0, 125, 120), (126, 36, 3)]);
    assert_eq!(both(&log, &right), Ok(2));
    for size in [124, 126, 127, 128] {
        let padded = slip(1, &[(0, size, 120), (126, 36, 3)]);
        assert_eq!(both(&log, &padded), refused(25, 0));
    }
    // The start that the second would have by document 01.
    let old = slip(1, &[(0, 125, 120), (128, 36, 3)]);
    assert_eq!(both(&log, &old), refused(27, 126));
}

#[test]
fn pen_foreign_padding_is_tested() {
    let mut log = foreign(17, 16);
    log.extend([1]);
    log.extend(m2());
    assert_eq!(walk(&log), refused(6, 17));
    log[17] = 0;
    assert_eq!(walk(&log), Ok(2));
    assert_eq!(foreign_view(&log, 0), foreign(17, 16));
}

#[test]
fn pen_entries_are_compared_whole() {
    let log = m2();
    assert_eq!(both(&log, &slip(1, &[(0, 35, 3)])), refused(25, 0));
    assert_eq!(both(&log, &slip(1, &[(0, 36, 4)])), refused(25, 0));
    assert_eq!(both(&log, &slip(1, &[(0, 36, 3)])), Ok(1));
}

#[test]
fn pen_nothing_wraps_in_32_bits() {
    for size in (u32::MAX - 40)..=u32::MAX {
        let log = joined(&[m2(), foreign(size, 16)]);
        assert_eq!(walk(&log), refused(5, log.len()), "size {size}");
    }
    let log = joined(&[m2(), m2()]);
    let wrapping = (u32::MAX - 3, 76, 3);
    let bundle = slip(1, &[(0, 36, 3), (36, 36, 3), wrapping]);
    assert_eq!(both(&log, &bundle), refused(25, 4_294_967_292));
}

#[test]
fn pen_no_exact_rate_at_168() {
    let mut short = bare(57, 168);
    short[164..168].copy_from_slice(&19_200u32.to_le_bytes());
    let log = joined(&[short, bare(57, 164), m2()]);
    let Read::Record { record, next } = read_lin_message(&log, 0) else {
        panic!("a LIN message");
    };
    let tail = LinTail::Response {
        response_rate: 19_200,
    };
    assert_eq!((record.tail, next), (tail, 168));
    let Read::Record { record, next } = read_lin_message(&log, 168) else {
        panic!("a LIN message");
    };
    assert_eq!((record.tail, next), (LinTail::Nothing, 332));
}
