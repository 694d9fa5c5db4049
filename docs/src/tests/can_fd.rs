//! W-208: CAN message 2 (type 86) and CAN FD (type 100), which were foreign
//! before. The objects and offsets here were taken from the request by hand: they
//! count from the object's start under the first header, and `moved` knows the
//! second.

mod common;
use common::*;
use mshelovat_reference::asc::{self, LineAt};
use mshelovat_reference::gen;
use mshelovat_reference::layout::{Refusal, LONGEST_OBJECT};
use mshelovat_reference::object::{foreign_view, frame_view, step, walk, Answer, Object};
use mshelovat_reference::programs::{desk, lister};
use mshelovat_reference::records::*;
use mshelovat_reference::ring;
use mshelovat_reference::slips::{check, check_plain};

/// A CAN message 2 without a zero in its fields.
fn message_2() -> Vec<u8> {
    hex(
        "4C4F424A 2000 0100 38000000 56000000 02000000 0700 0900 40420F0000000000 \
         0201 81 08 44030281 1112131415161718 24232221 6D 000000",
    )
}

/// A CAN FD message with so many valid bytes, and no zero in its data.
fn can_fd(valid: u8) -> Vec<u8> {
    let front = hex(
        "4C4F424A 2000 0100 78000000 64000000 02000000 0700 0900 40420F0000000000 \
         0201 81 0F 44030281 24232221 6D 35 00 0000000000",
    );
    let data: Vec<u8> = (1..=64).collect();
    let mut object = [&front[..], &data, &[0; 4]].concat();
    object[46] = valid;
    object
}

/// What a header of these objects tells.
fn head(own: Own) -> Head {
    Head {
        unit: 2,
        own,
        version: 9,
        time: 1_000_000,
    }
}

/// Under each header, in the order of `both`.
const OWN: [Own; 2] = [
    Own::First { client_index: 7 },
    Own::Second {
        status: 7,
        original: ORIGINAL,
    },
];

const FRONT: CanFront = CanFront {
    channel: 0x0102,
    flags: 0x81,
    dlc: 8,
    id: 0x8102_0344,
};

fn message_2_record(own: Own) -> CanMessage2 {
    CanMessage2 {
        message: CanMessage {
            head: head(own),
            front: FRONT,
            data: [0x11, 0x12, 0x13, 0x14, 0x15, 0x16, 0x17, 0x18],
        },
        frame_length: 0x2122_2324,
        bit_count: 0x6D,
    }
}

fn can_fd_record(own: Own, valid_bytes: u8) -> CanFdMessage {
    CanFdMessage {
        head: head(own),
        front: CanFront { dlc: 15, ..FRONT },
        frame_length: 0x2122_2324,
        arbitration_bit_count: 0x6D,
        fd_flags: 0x35,
        valid_bytes,
        data: std::array::from_fn(|at| at as u8 + 1),
    }
}

/// These bytes with others at an offset.
fn with(object: &[u8], offset: usize, bytes: &[u8]) -> Vec<u8> {
    let mut object = object.to_vec();
    object[offset..offset + bytes.len()].copy_from_slice(bytes);
    object
}

/// The record at the front of these bytes, which are all of it.
fn record_of<R>(read: Read<R>, object: &[u8]) -> R {
    match read {
        Read::Record { record, next } if next == object.len() => record,
        _ => panic!("no record"),
    }
}

#[test]
fn message_2_by_hand() {
    for (object, own) in both(message_2()).into_iter().zip(OWN) {
        let record = message_2_record(own);
        assert_eq!(record_of(read_can_message_2(&object, 0), &object), record);
        let mut out = [7; 70];
        let size = object.len();
        assert_eq!(write_can_message_2(&record, &mut out), Ok(size));
        assert_eq!(out[..size], object);
        assert!(out[size..].iter().all(|b| *b == 7));
        let short = write_can_message_2(&record, &mut out[..size - 1]);
        assert_eq!(short, refused(10, 0));
    }
    let text = "0 56 86\nend 56 objects 1\n";
    assert_eq!(lister(&message_2()), text);
    let text = "0 64 86\nend 64 objects 1\n";
    assert_eq!(lister(&second(&message_2())), text);
}

#[test]
fn can_fd_by_hand() {
    for (object, own) in both(can_fd(33)).into_iter().zip(OWN) {
        let record = can_fd_record(own, 33);
        assert_eq!(record_of(read_can_fd_message(&object, 0), &object), record);
        let mut out = [7; 130];
        let size = object.len();
        assert_eq!(write_can_fd_message(&record, &mut out), Ok(size));
        assert_eq!(out[..size], object);
        assert!(out[size..].iter().all(|b| *b == 7));
        let short = write_can_fd_message(&record, &mut out[..size - 1]);
        assert_eq!(short, refused(10, 0));
    }
    let text = "0 120 100\nend 120 objects 1\n";
    assert_eq!(lister(&can_fd(33)), text);
    let text = "0 128 100\nend 128 objects 1\n";
    assert_eq!(lister(&second(&can_fd(33))), text);
}

/// 9 for valid bytes above 64: at byte 46, or 54 under the second header; on
/// writing at place 0, and nothing is written.
#[test]
fn valid_bytes_up_to_64() {
    for valid in 0..=255 {
        let holds = valid <= 64;
        let [first, second] = both(can_fd(valid));
        for (object, own, place) in [(first, OWN[0], 46), (second, OWN[1], 54)] {
            let expected = if holds { Ok(1) } else { refused(9, place) };
            assert_eq!(walk(&object), expected, "{valid}");
            let mut out = [7; 128];
            let used = write_can_fd_message(&can_fd_record(own, valid), &mut out);
            let size = object.len();
            if holds {
                assert_eq!((used, &out[..size]), (Ok(size), &object[..]));
            } else {
                assert_eq!((used, out), (refused(9, 0), [7; 128]));
            }
        }
    }
}

/// All 64 data bytes are kept, whatever the valid bytes say.
#[test]
fn data_behind_the_valid_bytes() {
    for valid in 0..=64 {
        for object in both(can_fd(valid)) {
            let record = record_of(read_can_fd_message(&object, 0), &object);
            assert_eq!(record.valid_bytes, valid);
            assert!((1..=64).eq(record.data));
            let mut out = vec![7; object.len()];
            assert_eq!(rewrite(&object, &mut out), Ok(object.len()));
            assert_eq!(out, object);
        }
    }
}

/// Nothing ties DLC, flags and id to the valid bytes.
#[test]
fn any_front_with_any_valid_bytes() {
    for valid in [0, 1, 8, 64] {
        for object in both(can_fd(valid)) {
            let front = moved(&object, 32);
            for dlc in 0..=255 {
                let log = with(&object, front + 3, &[dlc]);
                let record = record_of(read_can_fd_message(&log, 0), &log);
                assert_eq!((record.front.dlc, record.valid_bytes), (dlc, valid));
            }
            for bytes in [[0; 8], [0xFF; 8]] {
                assert_eq!(walk(&with(&object, front, &bytes)), Ok(1));
            }
        }
    }
    let mut record = can_fd_record(OWN[0], 0);
    record.front.dlc = 255;
    assert_eq!(write_can_fd_message(&record, &mut [0; 120]), Ok(120));
}

/// The bytes of the body that must be zero, by the request.
fn reserved_of(object: &[u8]) -> Vec<usize> {
    let reserved = match object[12] {
        86 => vec![53, 54, 55],
        _ => vec![47, 48, 49, 50, 51, 116, 117, 118, 119],
    };
    reserved.iter().map(|at| moved(object, *at)).collect()
}

/// 8 for every reserved byte, at that byte; all others may be anything, but for
/// the valid bytes.
#[test]
fn every_byte_of_the_body() {
    for object in [message_2(), can_fd(64)].into_iter().flat_map(both) {
        let (reserved, valid) = (reserved_of(&object), moved(&object, 46));
        for at in moved(&object, 32)..object.len() {
            for value in [0, 1, 0x40, 0x80, 0xFF] {
                let expected = match value {
                    1.. if reserved.contains(&at) => refused(8, at),
                    65.. if (object[12], at) == (100, valid) => refused(9, at),
                    _ => Ok(1),
                };
                assert_eq!(walk(&with(&object, at, &[value])), expected, "{at}");
            }
        }
    }
}

/// 7, then 8 by both runs of reserved bytes, then 9.
#[test]
fn the_order_of_reading() {
    for object in both(can_fd(65)) {
        let valid = moved(&object, 46);
        assert_eq!(walk(&object), refused(9, valid));
        for at in reserved_of(&object) {
            let log = with(&object, at, &[1]);
            assert_eq!(walk(&log), refused(8, at));
            assert_eq!(walk(&with(&log, 16, &[3])), refused(7, 16));
        }
        assert_eq!(walk(&with(&object, 16, &[3])), refused(7, 16));
    }
    let gap = with(&second(&can_fd(65)), 21, &[1]);
    assert_eq!(walk(&gap), refused(8, 21));
    assert_eq!(walk(&with(&gap, 124, &[1])), refused(8, 21));
}

#[test]
fn the_order_of_writing() {
    for own in OWN {
        let mut record = can_fd_record(own, 65);
        record.head.unit = 0;
        let mut short = [7; 119];
        assert_eq!(write_can_fd_message(&record, &mut short), refused(7, 0));
        record.head.unit = 1;
        assert_eq!(write_can_fd_message(&record, &mut short), refused(9, 0));
        record.valid_bytes = 64;
        assert_eq!(write_can_fd_message(&record, &mut short), refused(10, 0));
        let mut record = message_2_record(own);
        record.message.head.unit = 3;
        assert_eq!(write_can_message_2(&record, &mut short), refused(7, 0));
        assert_eq!(short, [7; 119]);
    }
}

/// An object cut or filled up to a size, and saying so.
fn sized(object: &[u8], size: usize) -> Vec<u8> {
    let mut object = with(object, 8, &(size as u32).to_le_bytes());
    object.resize(size, 0);
    object
}

/// 3, at the size, for every other size: 116 of type 100, as python-can writes
/// it, the other header's, and a size that document 02 knows of another type.
#[test]
fn no_other_size() {
    let sizes = [(message_2(), [56, 64]), (can_fd(8), [120, 128])];
    for (object, own_sizes) in sizes {
        for (object, own_size) in both(object).iter().zip(own_sizes) {
            for size in 40..200 {
                let expected = match size == own_size {
                    true => Ok(1),
                    false => refused(3, 8),
                };
                let log = gen::padded(sized(object, size));
                assert_eq!(walk(&log), expected, "{} {size}", object[12]);
            }
        }
    }
    let text = "0 56 86\nrefused 3 at 64\n";
    let log = joined(&[message_2(), sized(&can_fd(8), 116)]);
    assert_eq!(lister(&log), text);
    // A wrong pair comes before the size.
    for header in [16, 31, 33, 40] {
        let log = with(&sized(&can_fd(8), 116), 4, &[header]);
        assert_eq!(walk(&log), refused(4, 4));
    }
}

/// What passed as a foreign object is no longer taken back as one, sound or not;
/// the same bytes are, of a type that is foreign.
#[test]
fn an_old_foreign_copy() {
    let copies = [
        message_2(),
        can_fd(64),
        sized(&can_fd(64), 116),
        sized(&message_2(), 48),
        with(&foreign(16, 16), 12, &[86, 0]),
        with(&foreign(104, 32), 12, &[100, 0]),
    ];
    let seconds = [message_2(), can_fd(64), sized(&can_fd(64), 116)].map(|o| second(&o));
    for copy in copies.into_iter().chain(seconds) {
        let mut out = [7; 130];
        assert_eq!(write_foreign(&copy, &mut out), refused(11, 0));
        assert_eq!(write_foreign(&copy, &mut []), refused(11, 0));
        assert_eq!(out, [7; 130]);
        for kind in [85, 87, 99, 101] {
            let foreign = with(&copy, 12, &[kind]);
            let mut out = vec![7; copy.len()];
            assert_eq!(write_foreign(&foreign, &mut out), Ok(copy.len()));
            assert_eq!((walk(&out), out), (Ok(1), foreign));
        }
        // Only these two numbers, and not their low byte.
        let far = with(&copy, 13, &[1]);
        assert_eq!(write_foreign(&far, &mut out), Ok(copy.len()));
    }
}

/// Neither is "foreign" nor has a frame, and a read of another type says so.
#[test]
fn views_and_other_types() {
    let log = joined(&[message_2(), second(&can_fd(0)), m2()]);
    for at in [0, 56] {
        assert!(foreign_view(&log, at).is_empty() && frame_view(&log, at).is_empty());
    }
    let object = Object {
        start: 56,
        size: 128,
        kind: 100,
        next: 184,
    };
    assert_eq!(step(&log, 56), Answer::Object(object));
    assert!(!object.is_foreign());
    assert_eq!(read_can_message(&log, 0), Read::Other { next: 56 });
    assert_eq!(read_can_fd_message(&log, 0), Read::Other { next: 56 });
    assert_eq!(read_can_message_2(&log, 56), Read::Other { next: 184 });
    assert_eq!(read_can_fd_message(&log, 184), Read::Other { next: 220 });
    assert_eq!(read_can_fd_message(&log, 220), Read::Done);
    let record = Record::CanFdMessage(can_fd_record(OWN[1], 0));
    let next = 184;
    assert_eq!(read_any(&log, 56), Read::Record { record, next });
}

/// 0 bytes, also with a wrong unit; in a log the refusals come first.
#[test]
fn no_lines() {
    for object in [message_2(), can_fd(64)].into_iter().flat_map(both) {
        let mut out = [7; 200];
        let wrong = with(&object, 16, &[0]);
        for object in [&object, &wrong] {
            assert_eq!(asc::object_line(object, &mut out), Ok(0));
            assert_eq!(asc::object_line(object, &mut []), Ok(0));
        }
        let next = object.len();
        let none = LineAt::Line { used: 0, next };
        assert_eq!(asc::line_at(&object, 0, &mut out), none);
        assert_eq!(asc::line_at(&object, 0, &mut []), none);
        let refusal = LineAt::Refused(Refusal::new(7, 16));
        assert_eq!(asc::line_at(&wrong, 0, &mut out), refusal);
        assert_eq!(out, [7; 200]);
    }
    let refusal = LineAt::Refused(Refusal::new(9, 46));
    assert_eq!(asc::line_at(&can_fd(65), 0, &mut []), refusal);
}

#[test]
fn slips_name_them() {
    let log = joined(&[
        message_2(),
        can_fd(64),
        second(&message_2()),
        m2(),
        second(&can_fd(0)),
    ]);
    let entries = [
        (0, 56, 86),
        (56, 120, 100),
        (176, 64, 86),
        (240, 36, 3),
        (276, 128, 100),
    ];
    let answer = |bundle: &[u8]| {
        let answer = check(&log, bundle);
        assert_eq!(answer, check_plain(&log, bundle));
        answer
    };
    let apart = joined(&[slip(1, &entries[2..]), slip(9, &entries[..2])]);
    assert_eq!(answer(&apart), Ok(5));
    assert_eq!(desk(Some(&log), Some(&apart)), "accepted 5\n");
    for (at, wrong) in [
        (0, (0, 56, 1)),
        (0, (0, 64, 86)),
        (1, (56, 116, 100)),
        (1, (56, 120, 86)),
        (4, (276, 120, 100)),
    ] {
        let mut entries = entries;
        entries[at] = wrong;
        assert_eq!(answer(&slip(1, &entries)), refused(25, wrong.0 as usize));
    }
    assert_eq!(answer(&slip(1, &entries[..4])), refused(27, 276));
    let text = "0 56 86\n56 120 100\n176 64 86\n240 36 3\n276 128 100\nend 404 objects 5\n";
    assert_eq!(lister(&log), text);
}

/// In a ring they are tested whole, wherever they are cut; the longest object
/// that is put together is still an Ethernet frame.
#[test]
fn in_a_ring() {
    for object in both(can_fd(65)) {
        let (size, valid) = (object.len(), moved(&object, 46));
        let late = with(&object, valid, &[64]);
        let late = with(&late, size - 1, &[1]);
        let refused = |number, place| ring::Answer::Refused(Refusal::new(number, place));
        for cut in 1..size {
            let step = |object: &[u8], room: usize| {
                let (first, second) = object.split_at(cut);
                ring::step(first, second, 0, &mut vec![7; room])
            };
            assert_eq!(step(&object, size), refused(9, valid));
            assert_eq!(step(&late, size), refused(8, size - 1));
            assert_eq!(step(&object, size - 1), refused(12, 0));
        }
    }
    assert_eq!(LONGEST_OBJECT, 1_684);
}

/// The answers of another reading of the papers.
#[test]
fn shared_cases() {
    assert_eq!(common::shared_cases(include_str!("cases/W-208.txt")), 50);
}
