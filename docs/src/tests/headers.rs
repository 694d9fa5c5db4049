//! W-202: the two headers. What each of the thirteen types gives under both is in
//! records.rs and refusals.rs; here is what came with the second one.

mod common;
use common::*;
use mshelovat_reference::asc;
use mshelovat_reference::gen::{self, Rng};
use mshelovat_reference::header::{body, header_length, Header};
use mshelovat_reference::layout::{occupied, row, u32_at, Refusal};
use mshelovat_reference::object::{frame_view, rest, step, walk, Answer};
use mshelovat_reference::programs::{desk, lister};
use mshelovat_reference::records::*;
use mshelovat_reference::slips::{check, check_plain};

/// The request's example: an overload under the second header.
fn example() -> Vec<u8> {
    hex(
        "4C4F424A 2800 0200 2C000000 03000000 02000000 01 00 0000 40420F0000000000 \
         0500000000000000 0100 0000",
    )
}

/// Its record.
fn example_record() -> CanOverload {
    CanOverload {
        head: Head {
            unit: 2,
            own: Own::Second {
                status: 1,
                original: 5,
            },
            version: 0,
            time: 1_000_000,
        },
        channel: 1,
    }
}

/// These bytes with others at an offset.
fn with(object: &[u8], offset: usize, bytes: &[u8]) -> Vec<u8> {
    let mut object = object.to_vec();
    object[offset..offset + bytes.len()].copy_from_slice(bytes);
    object
}

/// These bytes with this header size, version and object size.
fn named(object: &[u8], header: u8, version: u8, size: u32) -> Vec<u8> {
    let object = with(object, 4, &[header, 0, version, 0]);
    with(&object, 8, &size.to_le_bytes())
}

#[test]
fn the_example() {
    let log = example();
    assert_eq!(lister(&log), "0 44 3\nend 44 objects 1\n");
    let record = example_record();
    let next = 44;
    assert_eq!(read_can_overload(&log, 0), Read::Record { record, next });
    let mut out = [7; 48];
    assert_eq!(write_can_overload(&record, &mut out), Ok(44));
    assert_eq!(out[..44], log);
    assert_eq!(out[44..], [7; 4]);
    assert_eq!(write_can_overload(&record, &mut [7; 43]), refused(10, 0));
}

#[test]
fn any_bytes_have_a_header() {
    for bytes in [vec![], vec![0xFF; 7], foreign(16, 16), m2()] {
        assert_eq!(header_length(&bytes), 32);
    }
    for length in 0..44 {
        let expected = if length < 8 { 32 } else { 40 };
        assert_eq!(header_length(&example()[..length]), expected);
    }
    assert_eq!(Head::default().header(), Header::First);
    assert_eq!(body(&m2()), [1, 0, 0, 0]);
    assert_eq!(body(&example()), [1, 0, 0, 0]);
}

/// The pair alone decides 4, whatever the size; then the pair says the sizes.
#[test]
fn the_pair_comes_before_the_size() {
    for mut object in both(m2()) {
        object.resize(80, 0);
        for size in [0, 5, 15, 16, 31, 35, 36, 37, 39, 40, 43, 44, 45, u32::MAX] {
            for (header, version) in [(32, 2), (40, 1), (33, 1), (40, 3), (0, 0), (16, 1)] {
                let log = named(&object, header, version, size);
                assert_eq!(walk(&log), refused(4, 4), "{header} {version} {size}");
            }
            if size != 36 {
                assert_eq!(walk(&named(&object, 32, 1, size)), refused(3, 8), "{size}");
            }
            if size != 44 {
                assert_eq!(walk(&named(&object, 40, 2, size)), refused(3, 8), "{size}");
            }
        }
    }
}

/// Every size that a type has under one header, it does not have under the
/// other; of frames that holds only at both ends.
#[test]
fn sizes_of_the_other_header() {
    let frames = (120..=123).map(|kind| (kind, &[64, 71, 1_669, 1_676][..]));
    for (kind, sizes) in SIZES.into_iter().chain(frames) {
        for size in sizes {
            let [first, second] = both(bare(kind, *size));
            if kind < 120 || *size > 1_668 {
                assert_eq!(walk(&named(&first, 32, 1, size + 8)), refused(3, 8));
                assert_eq!(walk(&named(&second, 32, 1, size + 8)), refused(3, 8));
            }
            if kind < 120 || *size < 72 {
                assert_eq!(walk(&named(&first, 40, 2, *size)), refused(3, 8));
                assert_eq!(walk(&named(&second, 40, 2, *size)), refused(3, 8));
            }
        }
    }
}

/// 3 before 4, and any version: a foreign object has neither header.
#[test]
fn foreign_objects_keep_their_order() {
    for version in [0, 1, 2, 3] {
        for (header, size, expected) in [
            (0, 15, refused(3, 8)),
            (40, 15, refused(3, 8)),
            (15, 16, refused(4, 4)),
            (40, 39, refused(4, 4)),
            (40, 40, Ok(1)),
            (32, 32, Ok(1)),
            (33, 44, Ok(1)),
        ] {
            let mut log = named(&foreign(size, 16), header, version, size);
            log.resize(occupied(log.len() as u32) as usize, 0);
            assert_eq!(walk(&log), expected, "{header} {version} {size}");
        }
    }
    // Byte 21 is its own.
    let log = with(&named(&foreign(44, 16), 40, 2, 44), 21, &[9]);
    assert_eq!(walk(&log), Ok(1));
    let mut out = [0; 44];
    assert_eq!(write_foreign(&log, &mut out), Ok(44));
    assert_eq!(out[..], log);
    assert_eq!(write_foreign(&example(), &mut out), refused(11, 0));
}

#[test]
fn the_reserved_byte_of_the_header() {
    for value in [1, 0x80, 0xFF] {
        let log = with(&example(), 21, &[value]);
        assert_eq!(walk(&log), refused(8, 21));
        assert_eq!(walk(&with(&log, 16, &[3])), refused(7, 16));
        assert_eq!(walk(&with(&log, 42, &[1])), refused(8, 21));
        assert_eq!(walk(&log[..43]), refused(5, 43));
        let structure = with(&second(&frame_object(80)), 40, &[31]);
        for (content, field) in [(second(&flexray(1, 0)), 64), (structure, 40)] {
            assert_eq!(walk(&content), refused(9, field));
            assert_eq!(walk(&with(&content, 21, &[value])), refused(8, 21));
        }
        // Under the first header it is a part of the client index.
        assert_eq!(walk(&with(&m2(), 21, &[value])), Ok(1));
    }
}

#[test]
fn a_cut_header() {
    let log = example();
    for length in 16..44 {
        assert_eq!(walk(&log[..length]), refused(5, length), "{length}");
        let sized = named(&log[..length], 40, 2, length as u32);
        assert_eq!(walk(&sized), refused(3, 8), "{length}");
    }
    assert_eq!(walk(&log[..15]), refused(1, 0));
}

#[test]
fn the_length_of_a_frame() {
    for size in [72, 73, 133, 1_684] {
        let log = second(&frame_object(size - 8));
        let n = (size - 72) as usize;
        assert_eq!(walk(&log), Ok(1));
        assert_eq!(frame_view(&log, 0), vec![0xAB; n]);
        assert_eq!(log[40..42], [32, 0]);
        let long = ((size - 64) as u16).to_le_bytes();
        assert_eq!(walk(&with(&log, 62, &long)), refused(9, 62));
    }
    let log = joined(&[second(&frame_object(125)), m2()]);
    assert_eq!(rest(&log, 0), m2());
    let Answer::Object(object) = step(&log, 0) else {
        panic!("a frame");
    };
    assert_eq!((object.size, object.next), (133, 134));
    assert_eq!(walk(&second(&frame_object(1_677))), refused(3, 8));
}

#[test]
fn frames_written_under_the_second_header() {
    let long = [0xCD; 1_613];
    let mut record = EthernetFrame {
        frame: &long[..1_612],
        ..EthernetFrame::default()
    };
    record.head = example_record().head;
    let mut out = vec![0; 2_000];
    assert_eq!(write_ethernet_frame(&record, &mut out), Ok(1_684));
    assert_eq!((u32_at(&out, 8), walk(&out[..1_684])), (1_684, Ok(1)));
    assert_eq!(out[40..42], [32, 0]);
    assert_eq!(out[62..64], 1_612u16.to_le_bytes());
    record.frame = &long;
    assert_eq!(write_ethernet_frame(&record, &mut out), refused(9, 0));
    record.head.unit = 0;
    assert_eq!(write_ethernet_frame(&record, &mut out), refused(7, 0));
}

/// Status, object version, original and own time stamp: any value comes back.
#[test]
fn the_fields_of_the_second_header() {
    let mut out = [0; 44];
    for (status, version, time, original) in [
        (0, 0, 0, 0),
        (0xFF, u16::MAX, u64::MAX, u64::MAX),
        (1, 2, 3, 4),
        (0x80, 0x8000, 1 << 63, 1 << 40),
    ] {
        let own = Own::Second { status, original };
        let mut record = example_record();
        (record.head.own, record.head.version, record.head.time) = (own, version, time);
        assert_eq!(write_can_overload(&record, &mut out), Ok(44));
        assert_eq!((out[20], out[21]), (status, 0));
        assert_eq!(out[22..24], version.to_le_bytes());
        assert_eq!(out[24..32], time.to_le_bytes());
        assert_eq!(out[32..40], original.to_le_bytes());
        let next = 44;
        assert_eq!(read_can_overload(&out, 0), Read::Record { record, next });
    }
}

/// A pair of neither header counts as the first, of any bytes.
#[test]
fn records_of_any_bytes() {
    let Record::CanOverload(r) = record_in(3, &with(&example(), 4, &[40, 0, 3, 0])) else {
        panic!("an overload");
    };
    assert_eq!(r.head.own, Own::First { client_index: 1 });
    assert_eq!((r.head.time, r.channel), (1_000_000, 5));
    let Record::CanOverload(r) = record_in(3, &example()) else {
        panic!("an overload");
    };
    assert_eq!(r, example_record());
}

/// Too few bytes: a first header of zeros and a body of zeros, so 7.
#[test]
fn records_of_too_few_bytes() {
    for kind in gen::LISTED {
        let least = row(kind).unwrap().bodies.least();
        let zeros = vec![0; 32 + least];
        for header in Header::BOTH {
            let mut object = vec![0xFF; header.length() + least];
            object[4..8].copy_from_slice(&header.pair());
            assert_ne!(record_in(kind, &object), record_in(kind, &zeros), "{kind}");
            while object.pop().is_some() {
                let record = record_in(kind, &object);
                assert_eq!(record, record_in(kind, &zeros), "{kind} {}", object.len());
                assert_eq!(write_any(&record, &mut [0; 400]), refused(7, 0));
            }
        }
    }
}

#[test]
fn lines_of_the_second_header() {
    let text = b"0.001000000 1 OverloadFrame\r\n";
    let mut out = [0; 29];
    assert_eq!(asc::object_line(&example(), &mut out), Ok(29));
    assert_eq!(&out, text);
    let at = asc::line_at(&example(), 0, &mut out);
    assert_eq!(at, asc::LineAt::Line { used: 29, next: 44 });
    assert_eq!(asc::overload_line(&example_record(), &mut out), Ok(29));
    assert_eq!(&out, text);
    // Byte 21 is an 8: no line, whatever the unit; at a position 7 or 8.
    let log = with(&example(), 21, &[1]);
    let no = |number, place| asc::LineAt::Refused(Refusal::new(number, place));
    assert_eq!(asc::object_line(&log, &mut out), Ok(0));
    assert_eq!(asc::line_at(&log, 0, &mut out), no(8, 21));
    let log = with(&log, 16, &[9]);
    assert_eq!(asc::object_line(&log, &mut out), Ok(0));
    assert_eq!(asc::line_at(&log, 0, &mut out), no(7, 16));
    assert_eq!(
        asc::object_line(&with(&example(), 16, &[9]), &mut out),
        refused(7, 0)
    );
    // Pairs of neither header, and each header's size under the other's pair.
    for wrong in [
        named(&example(), 40, 1, 44),
        named(&example(), 32, 1, 44),
        named(&m2(), 40, 2, 36),
        named(&m2(), 32, 2, 36),
    ] {
        assert_eq!(asc::object_line(&wrong, &mut out), Ok(0));
    }
}

/// The time stamp alone makes the line: objects under both headers have one.
#[test]
fn lines_do_not_tell_the_header() {
    let mut rng = Rng(203);
    for turn in 0..3_000 {
        let object = gen::object_under(&mut rng, Header::First, [1, 3, 4][turn % 3]);
        let [mut first, mut other] = [[0; 200]; 2];
        let used = asc::object_line(&object, &mut first);
        assert_eq!(asc::object_line(&second(&object), &mut other), used);
        assert_eq!(first, other);
    }
}

#[test]
fn slips_over_both_headers() {
    let log = joined(&[m2(), example(), second(&frame_object(125)), foreign(16, 16)]);
    let entries = [(0, 36, 3), (36, 44, 3), (80, 133, 120), (214, 16, 9_999)];
    let answer = |bundle: &[u8]| {
        let answer = check(&log, bundle);
        assert_eq!(answer, check_plain(&log, bundle));
        answer
    };
    assert_eq!(answer(&slip(1, &entries)), Ok(4));
    let apart = joined(&[slip(1, &entries[1..3]), slip(2, &[entries[0], entries[3]])]);
    assert_eq!(answer(&apart), Ok(4));
    assert_eq!(desk(Some(&log), Some(&apart)), "accepted 4\n");
    // The sizes that the two would have under the other header.
    for (at, size, place) in [(0, 44, 0), (1, 36, 36), (2, 125, 80)] {
        let mut entries = entries;
        entries[at].1 = size;
        assert_eq!(answer(&slip(1, &entries)), refused(25, place));
    }
    assert_eq!(answer(&slip(1, &entries[..3])), refused(27, 214));
    let text = "0 36 3\n36 44 3\n80 133 120\n214 16 9999\nend 230 objects 4\n";
    assert_eq!(lister(&log), text);
}

/// The answers of another reading of the papers.
#[test]
fn shared_cases() {
    assert_eq!(common::shared_cases(include_str!("cases/W-202.txt")), 27);
}
