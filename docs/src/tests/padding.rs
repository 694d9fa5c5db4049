//! W-204: behind an object stand as many zero bytes as its size leaves over when
//! divided by four. The numbers here were counted by hand; what `common` puts
//! behind an object is cut off first.

mod common;
use common::*;
use mshelovat_reference::layout::{occupied, padding, Refusal};
use mshelovat_reference::object::{foreign_view, frame_view, rest, step, walk, Answer, Object};
use mshelovat_reference::programs::{desk, lister};
use mshelovat_reference::records::*;
use mshelovat_reference::slips::{check, check_plain};

#[test]
fn sizes_and_what_they_occupy() {
    for (size, zeros, whole) in [
        (16, 0, 16),
        (17, 1, 18),
        (18, 2, 20),
        (19, 3, 22),
        (20, 0, 20),
        (36, 0, 36),
        (124, 0, 124),
        (125, 1, 126),
        (126, 2, 128),
        (127, 3, 130),
        (128, 0, 128),
        (330, 2, 332),
        (338, 2, 340),
        (1_675, 3, 1_678),
        (1_676, 0, 1_676),
    ] {
        assert_eq!((padding(size), occupied(size)), (zeros, whole), "{size}");
    }
}

#[test]
fn the_top_does_not_wrap() {
    for (size, whole) in [
        (4_294_967_292, 4_294_967_292),
        (4_294_967_293, 4_294_967_294),
        (4_294_967_294, 4_294_967_296),
        (4_294_967_295, 4_294_967_298),
    ] {
        assert_eq!(occupied(size), whole);
        let log = joined(&[m2(), foreign(size, 16), m2()]);
        assert_eq!(walk(&log), refused(5, log.len()), "{size}");
    }
}

/// An object cut to its size, with these bytes behind it.
fn followed(mut object: Vec<u8>, size: usize, behind: &[u8]) -> Vec<u8> {
    object.truncate(size);
    object.extend(behind);
    object
}

#[test]
fn behind_a_frame_of_61() {
    let log = joined(&[followed(frame_object(125), 125, &[0]), m2()]);
    assert_eq!(log.len(), 162);
    let object = Object {
        start: 126,
        size: 36,
        kind: 3,
        next: 162,
    };
    assert_eq!(step(&log, 126), Answer::Object(object));
    assert_eq!(step(&log, 162), Answer::Done);
    let Read::Record { record, next } = read_can_overload(&log, 126) else {
        panic!("an overload");
    };
    let (time, channel) = (record.head.time, record.channel);
    assert_eq!((time, channel, next), (1_000_000, 1, 162));
    assert_eq!(rest(&log, 0), m2());
    // Where it began by document 01, and a byte before and behind.
    for position in [124, 125, 127, 128] {
        assert_eq!(
            step(&log, position),
            Answer::Refused(Refusal::new(2, position))
        );
    }
    let text = "0 125 120\n126 36 3\nend 162 objects 2\n";
    assert_eq!(lister(&log), text);
}

/// Objects of every remainder, each behind the one before.
#[test]
fn starts_along_a_log() {
    let objects = [
        followed(frame_object(125), 125, &[0]),
        followed(foreign(19, 16), 19, &[0, 0, 0]),
        m2(),
        followed(second(&frame_object(127)), 135, &[0, 0, 0]),
        followed(flexray(0, 0), 330, &[0, 0]),
        followed(foreign(17, 16), 17, &[0]),
    ];
    let log = joined(&objects);
    let text = "0 125 120\n126 19 9999\n148 36 3\n184 135 120\n322 330 50\n654 17 9999\n\
                end 672 objects 6\n";
    assert_eq!(lister(&log), text);
    let mut out = vec![7; 673];
    assert_eq!(rewrite(&log, &mut out[..671]), refused(10, 0));
    assert_eq!(rewrite(&log, &mut out), Ok(672));
    assert_eq!((&out[..672], out[672]), (&log[..], 7));
    let entries = [
        (0, 125, 120),
        (126, 19, 9_999),
        (148, 36, 3),
        (184, 135, 120),
        (322, 330, 50),
        (654, 17, 9_999),
    ];
    let bundle = slip(1, &entries);
    assert_eq!(check(&log, &bundle), Ok(6));
    assert_eq!(check_plain(&log, &bundle), Ok(6));
}

/// Frames of these sizes, the same under the second header, and foreign objects
/// of these sizes, without padding.
fn of_sizes(sizes: [u32; 2]) -> Vec<Vec<u8>> {
    let frames = sizes.into_iter().flat_map(|size| {
        let first = followed(frame_object(size), size as usize, &[]);
        both(first)
    });
    let foreign = sizes.into_iter().map(|size| foreign(size, 16));
    frames.chain(foreign).collect()
}

/// Sizes that leave 1, 2 and 3 over, and so many zero bytes behind them.
fn padded_objects() -> Vec<(Vec<u8>, usize)> {
    let one = of_sizes([65, 125]).into_iter().map(|o| (o, 1));
    let two = of_sizes([66, 126]).into_iter().map(|o| (o, 2));
    let three = of_sizes([67, 127]).into_iter().map(|o| (o, 3));
    one.chain(two).chain(three).collect()
}

/// Every byte of the padding and no other, within a log and last in it.
#[test]
fn every_byte_of_the_padding() {
    for (object, zeros) in padded_objects() {
        let size = object.len();
        let last = [m2(), object, vec![0; zeros]].concat();
        let within = [last.clone(), m2()].concat();
        assert_eq!((walk(&last), walk(&within)), (Ok(2), Ok(3)), "{size}");
        for at in 36 + size..36 + size + zeros {
            for value in [1, 0x4C, 0x80, 0xFF] {
                for mut log in [last.clone(), within.clone()] {
                    log[at] = value;
                    assert_eq!(walk(&log), refused(6, at), "{size} {at}");
                }
            }
            assert_eq!(walk(&last[..at]), refused(5, at), "{size} {at}");
        }
        let behind = last.len();
        let mut next = within.clone();
        next[behind] = 0;
        assert_eq!(walk(&next), refused(2, behind), "{size}");
    }
}

/// One zero byte more or less than there must be.
#[test]
fn one_zero_more_or_less() {
    for (object, zeros) in padded_objects() {
        let size = object.len();
        let more = [object.clone(), vec![0; zeros + 1]].concat();
        assert_eq!(walk(&more), refused(1, size + zeros), "{size}");
        assert_eq!(walk(&joined(&[more, m2()])), refused(2, size + zeros));
        // The log's end, or what stands in the place of the last zero.
        let less = [object, vec![0; zeros - 1]].concat();
        let end = size + zeros - 1;
        assert_eq!(walk(&less), refused(5, end), "{size}");
        assert_eq!(walk(&joined(&[less, m2()])), refused(6, end), "{size}");
    }
    // Where the size leaves nothing over there is nothing less.
    for object in of_sizes([64, 128]) {
        assert_eq!(walk(&object), Ok(1));
        assert_eq!(walk(&joined(&[object.clone(), m2()])), Ok(2));
        let more = joined(&[object.clone(), vec![0]]);
        assert_eq!(walk(&more), refused(1, object.len()));
    }
}

/// Logs that document 01 let through: padded up to a multiple of four.
#[test]
fn old_logs() {
    for (size, old, within, last) in [
        (65, 68, refused(2, 66), refused(1, 66)),
        (125, 128, refused(2, 126), refused(1, 126)),
        (67, 68, refused(6, 68), refused(5, 68)),
        (127, 128, refused(6, 128), refused(5, 128)),
        (64, 64, Ok(2), Ok(1)),
        (126, 128, Ok(2), Ok(1)),
    ] {
        let frame = followed(frame_object(size), size as usize, &[]);
        for mut object in [frame, foreign(size, 16)] {
            object.resize(old, 0);
            assert_eq!(walk(&object), last, "{size}");
            assert_eq!(walk(&joined(&[object, m2()])), within, "{size}");
        }
    }
    // The same behind another object, under the second header, and in a check.
    for (size, old, within, last) in [
        (133, 136, refused(2, 170), refused(1, 170)),
        (135, 136, refused(6, 172), refused(5, 172)),
    ] {
        let mut object = followed(second(&frame_object(size - 8)), size as usize, &[]);
        object.resize(old, 0);
        let log = joined(&[m2(), object]);
        assert_eq!((walk(&log), check(&log, &[])), (last, last));
        let log = joined(&[log, m2()]);
        assert_eq!((walk(&log), check(&log, &[])), (within, within));
    }
}

#[test]
fn frames_written() {
    let long = [0xAB; 63];
    let own = Own::Second {
        status: 0,
        original: 0,
    };
    for (length, first, second) in [
        (60, 124, 132),
        (61, 126, 134),
        (62, 128, 136),
        (63, 130, 138),
    ] {
        for (own, used) in [(Own::default(), first), (own, second)] {
            let mut record = EthernetFrame {
                frame: &long[..length],
                ..EthernetFrame::default()
            };
            record.head = Head {
                unit: 1,
                own,
                ..Head::default()
            };
            let mut out = [7; 140];
            let short = write_ethernet_frame(&record, &mut out[..used - 1]);
            assert_eq!((short, out), (refused(10, 0), [7; 140]));
            assert_eq!(write_ethernet_frame(&record, &mut out), Ok(used));
            let zeros = length - 60;
            assert_eq!(out[used - zeros - 1], 0xAB);
            assert!(out[used - zeros..used].iter().all(|b| *b == 0));
            assert!(out[used..].iter().all(|b| *b == 7));
            assert_eq!(frame_view(&out[..used], 0), &long[..length]);
        }
    }
}

#[test]
fn foreign_objects_written() {
    for (size, used) in [(16, 16), (17, 18), (18, 20), (19, 22), (20, 20)] {
        let object = foreign(size, 16);
        let mut out = [7; 24];
        assert_eq!(write_foreign(&object, &mut out[..used - 1]), refused(10, 0));
        assert_eq!(out, [7; 24]);
        assert_eq!(write_foreign(&object, &mut out), Ok(used));
        assert_eq!(out[..size as usize], object);
        assert!(out[size as usize..used].iter().all(|b| *b == 0));
        assert!(out[used..].iter().all(|b| *b == 7));
        assert_eq!(foreign_view(&out[..used], 0), object);
    }
}

/// As python-can writes type 100: header size 32 and version 1, and as many zero
/// bytes as the size leaves over; here of any type.
fn as_python_can(kind: u8) -> Vec<u8> {
    let mut log = Vec::new();
    for size in [104, 105, 106, 107] {
        let mut object = foreign(size, 32);
        object[6] = 1;
        object[12..16].copy_from_slice(&[kind, 0, 0, 0]);
        object[32..].fill(0xCD);
        object.resize((size + size - 104) as usize, 0);
        log.extend(object);
    }
    log
}

/// Type 100 is not foreign any more (W-208), and has none of these sizes; type 96
/// is.
#[test]
fn python_can() {
    let log = as_python_can(100);
    for start in [0, 104, 210, 318] {
        assert_eq!(walk(&log[start..]), refused(3, 8));
    }
    let log = as_python_can(96);
    assert_eq!(log.len(), 428);
    assert_eq!(walk(&log), Ok(4));
    let text = "0 104 96\n104 105 96\n210 106 96\n318 107 96\nend 428 objects 4\n";
    assert_eq!(lister(&log), text);
    let mut out = vec![7; 430];
    assert_eq!(rewrite(&log, &mut out), Ok(428));
    assert_eq!((&out[..428], &out[428..]), (&log[..], &[7, 7][..]));
    let one = [(0, 104, 96), (210, 106, 96)];
    let two = [(104, 105, 96), (318, 107, 96)];
    let bundle = joined(&[slip(1, &one), slip(2, &two)]);
    assert_eq!(check_plain(&log, &bundle), Ok(4));
    assert_eq!(desk(Some(&log), Some(&bundle)), "accepted 4\n");
    // The last one counted with its padding, and without its last zero.
    let padded = joined(&[slip(1, &one), slip(2, &[two[0], (318, 110, 96)])]);
    assert_eq!(desk(Some(&log), Some(&padded)), "refused 25 at 318\n");
    assert_eq!(desk(Some(&log[..427]), Some(&bundle)), "refused 5 at 427\n");
}

/// The answers of another reading of the papers.
#[test]
fn shared_cases() {
    assert_eq!(common::shared_cases(include_str!("cases/W-204.txt")), 34);
}
