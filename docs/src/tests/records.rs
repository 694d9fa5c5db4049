//! Records under both headers: offsets, read-write-read round trips, refused
//! writes, rewrite.

mod common;
use common::*;
use mshelovat_reference::gen::{self, Rng};
use mshelovat_reference::layout::{row, Refusal};
use mshelovat_reference::object::{foreign_view, frame_view, walk};
use mshelovat_reference::records::*;

fn number_at(object: &[u8], offset: usize, width: usize) -> u64 {
    let mut bytes = [0; 8];
    bytes[..width].copy_from_slice(&object[offset..offset + width]);
    u64::from_le_bytes(bytes)
}

/// Field after field: its value, and its offset and width by the paper. Under
/// the second header the fields behind byte 32 have moved.
fn expect(object: &[u8], fields: &[(u64, usize, usize)]) {
    for (value, offset, width) in fields {
        let at = moved(object, *offset);
        assert_eq!(*value, number_at(object, at, *width), "offset {offset}");
    }
}

/// The header's fields, and which header it is.
fn expect_head(object: &[u8], head: &Head) {
    let fields = [
        (u64::from(head.unit), 16, 4),
        (u64::from(head.version), 22, 2),
        (head.time, 24, 8),
    ];
    expect(object, &fields);
    match head.own {
        Own::First { client_index } => {
            assert_eq!(object[4..8], [32, 0, 1, 0]);
            assert_eq!(u64::from(client_index), number_at(object, 20, 2));
        }
        Own::Second { status, original } => {
            assert_eq!(object[4..8], [40, 0, 2, 0]);
            assert_eq!(status, object[20]);
            assert_eq!(original, number_at(object, 32, 8));
        }
    }
}

/// A sound object whose bytes from 20 on are all different from their
/// neighbours, where they are free.
fn counted(kind: u32, size: u32) -> Vec<u8> {
    let mut object = bare(kind, size);
    for (at, byte) in object.iter_mut().enumerate().take(size as usize).skip(20) {
        *byte = (at * 7 % 251) as u8;
    }
    for at in row(kind).unwrap().reserved {
        object[32 + at] = 0;
    }
    match kind {
        50 => object[56..58].copy_from_slice(&[200, 0]),
        57 if size == 184 => object[175] = 0x40,
        100 => object[46] = 40,
        120..=123 => {
            object[32..34].copy_from_slice(&[32, 0]);
            object[54..56].copy_from_slice(&((size - 64) as u16).to_le_bytes());
        }
        _ => {}
    }
    object
}

/// Such an object under each header.
fn counted_both(kind: u32, size: u32) -> [Vec<u8>; 2] {
    both(counted(kind, size))
}

fn record_at<R>(answer: Read<R>) -> R {
    match answer {
        Read::Record { record, .. } => record,
        _ => panic!("no record"),
    }
}

#[test]
fn offsets_of_can() {
    for object in counted_both(1, 48) {
        let r = record_at(read_can_message(&object, 0));
        expect_head(&object, &r.head);
        let fields = [
            (r.front.channel as u64, 32, 2),
            (r.front.flags as u64, 34, 1),
            (r.front.dlc as u64, 35, 1),
            (r.front.id as u64, 36, 4),
            (u64::from_le_bytes(r.data), 40, 8),
        ];
        expect(&object, &fields);
    }
    for object in counted_both(3, 36) {
        let r = record_at(read_can_overload(&object, 0));
        expect_head(&object, &r.head);
        expect(&object, &[(r.channel as u64, 32, 2)]);
    }
    for object in counted_both(4, 60) {
        let r = record_at(read_can_statistic(&object, 0));
        expect_head(&object, &r.head);
        let fields = [
            (r.channel as u64, 32, 2),
            (r.bus_load as u64, 34, 2),
            (r.standard_data as u64, 36, 4),
            (r.extended_data as u64, 40, 4),
            (r.standard_remote as u64, 44, 4),
            (r.extended_remote as u64, 48, 4),
            (r.error as u64, 52, 4),
            (r.overload as u64, 56, 4),
        ];
        expect(&object, &fields);
    }
}

#[test]
fn offsets_of_can_message_2() {
    for object in counted_both(86, 56) {
        let r = record_at(read_can_message_2(&object, 0));
        expect_head(&object, &r.message.head);
        let fields = [
            (r.message.front.channel as u64, 32, 2),
            (r.message.front.flags as u64, 34, 1),
            (r.message.front.dlc as u64, 35, 1),
            (r.message.front.id as u64, 36, 4),
            (u64::from_le_bytes(r.message.data), 40, 8),
            (r.frame_length as u64, 48, 4),
            (r.bit_count as u64, 52, 1),
        ];
        expect(&object, &fields);
    }
}

#[test]
fn offsets_of_can_fd() {
    for object in counted_both(100, 120) {
        let r = record_at(read_can_fd_message(&object, 0));
        expect_head(&object, &r.head);
        let fields = [
            (r.front.channel as u64, 32, 2),
            (r.front.flags as u64, 34, 1),
            (r.front.dlc as u64, 35, 1),
            (r.front.id as u64, 36, 4),
            (r.frame_length as u64, 40, 4),
            (r.arbitration_bit_count as u64, 44, 1),
            (r.fd_flags as u64, 45, 1),
            (r.valid_bytes as u64, 46, 1),
        ];
        expect(&object, &fields);
        assert_eq!(r.data, object[moved(&object, 52)..moved(&object, 116)]);
    }
}

#[test]
fn offsets_of_flexray() {
    for object in counted_both(50, 330) {
        let r = record_at(read_flexray_receive(&object, 0));
        expect_head(&object, &r.head);
        let fields = [
            (r.channel as u64, 32, 2),
            (r.version as u64, 34, 2),
            (r.mask as u64, 36, 2),
            (r.direction as u64, 38, 1),
            (r.client as u64, 40, 4),
            (r.cluster as u64, 44, 4),
            (r.frame_id as u64, 48, 2),
            (r.crc_a as u64, 50, 2),
            (r.crc_b as u64, 52, 2),
            (r.byte_count as u64, 54, 2),
            (r.data_count as u64, 56, 2),
            (r.cycle as u64, 58, 1),
            (r.tag as u64, 60, 4),
            (r.state as u64, 64, 4),
            (r.flags as u64, 68, 4),
        ];
        expect(&object, &fields);
        assert_eq!(r.data, object[moved(&object, 76)..moved(&object, 330)]);
    }
}

#[test]
fn offsets_of_lin_message() {
    for object in counted_both(57, 164) {
        let r = record_at(read_lin_message(&object, 0));
        expect_head(&object, &r.head);
        let fields = [
            (r.bus.start, 32, 8),
            (r.bus.baud_rate as u64, 40, 4),
            (r.bus.channel as u64, 44, 2),
            (r.break_length, 48, 8),
            (r.delimiter_length, 56, 8),
            (r.supplier as u64, 64, 2),
            (r.message as u64, 66, 2),
            (r.nad as u64, 68, 1),
            (r.id as u64, 69, 1),
            (r.dlc as u64, 70, 1),
            (r.checksum_model as u64, 71, 1),
            (r.times[0], 72, 8),
            (r.times[8], 136, 8),
            (r.checksum as u64, 152, 2),
            (r.direction as u64, 154, 1),
            (r.simulated as u64, 155, 1),
            (r.event_triggered as u64, 156, 1),
            (r.index as u64, 157, 1),
            (r.associated_id as u64, 158, 1),
            (r.machine as u64, 159, 1),
            (r.state as u64, 160, 1),
        ];
        expect(&object, &fields);
        expect(&object, &[(u64::from_le_bytes(r.data), 144, 8)]);
        assert_eq!(r.tail, LinTail::Nothing);
    }
}

#[test]
fn offsets_of_lin_tails() {
    for object in counted_both(57, 168) {
        let tail = record_at(read_lin_message(&object, 0)).tail;
        let LinTail::Response { response_rate } = tail else {
            panic!("a response rate");
        };
        expect(&object, &[(response_rate as u64, 164, 4)]);
    }
    for object in counted_both(57, 184) {
        let LinTail::Rates {
            response_rate,
            exact_header_rate,
            stop_bit_offset,
            response_stop_bit_offset,
        } = record_at(read_lin_message(&object, 0)).tail
        else {
            panic!("rates");
        };
        let fields = [
            (response_rate as u64, 164, 4),
            (exact_header_rate, 168, 8),
            (stop_bit_offset as u64, 176, 4),
            (response_stop_bit_offset as u64, 180, 4),
        ];
        expect(&object, &fields);
    }
}

#[test]
fn offsets_of_lin_wake_up() {
    for object in counted_both(62, 52) {
        let r = record_at(read_lin_wake_up(&object, 0));
        expect_head(&object, &r.head);
        let fields = [
            (r.bus.start, 32, 8),
            (r.bus.baud_rate as u64, 40, 4),
            (r.bus.channel as u64, 44, 2),
            (r.length_info as u64, 48, 1),
            (r.signal as u64, 49, 1),
            (r.external as u64, 50, 1),
        ];
        expect(&object, &fields);
    }
}

#[test]
fn offsets_of_ethernet_status() {
    for object in counted_both(103, 48) {
        let r = record_at(read_ethernet_status(&object, 0));
        expect_head(&object, &r.head);
        let fields = [
            (r.channel as u64, 32, 2),
            (r.flags as u64, 34, 2),
            (r.link_status as u64, 36, 1),
            (r.ethernet_phy as u64, 37, 1),
            (r.duplex as u64, 38, 1),
            (r.mdi as u64, 39, 1),
            (r.connector as u64, 40, 1),
            (r.clock_mode as u64, 41, 1),
            (r.pairs as u64, 42, 1),
            (r.hardware_channel as u64, 43, 1),
            (r.bit_rate as u64, 44, 4),
        ];
        expect(&object, &fields);
    }
}

fn expect_frame(object: &[u8], r: &EthernetFrame) {
    expect_head(object, &r.head);
    let fields = [
        (32, 32, 2),
        (r.flags as u64, 34, 2),
        (r.channel as u64, 36, 2),
        (r.hardware_channel as u64, 38, 2),
        (r.duration, 40, 8),
        (r.checksum as u64, 48, 4),
        (r.direction as u64, 52, 2),
        (r.frame.len() as u64, 54, 2),
        (r.handle as u64, 56, 4),
    ];
    expect(object, &fields);
    let start = moved(object, 64);
    assert_eq!(r.frame, &object[start..start + r.frame.len()]);
    assert_eq!(frame_view(object, 0), r.frame);
}

#[test]
fn offsets_of_ethernet_frames() {
    for size in [64, 65, 125, 1_676] {
        for object in counted_both(120, size) {
            expect_frame(&object, &record_at(read_ethernet_frame(&object, 0)));
        }
        for object in counted_both(121, size) {
            expect_frame(&object, &record_at(read_forwarded_frame(&object, 0)));
        }
        for object in counted_both(122, size) {
            let r = record_at(read_ethernet_error(&object, 0));
            expect_frame(&object, &r.event);
            expect(&object, &[(r.error_code as u64, 60, 4)]);
        }
        for object in counted_both(123, size) {
            let r = record_at(read_forwarded_error(&object, 0));
            expect_frame(&object, &r.event);
            expect(&object, &[(r.error_code as u64, 60, 4)]);
        }
    }
}

/// Every byte that is not reserved comes back: the object is read and written
/// again from bytes that this writer did not make.
#[test]
fn every_free_byte_is_kept() {
    let frames: [(u32, &[u32]); 4] = [
        (120, &[64, 66, 300]),
        (121, &[64, 67, 300]),
        (122, &[64, 65, 1_676]),
        (123, &[64, 65, 1_676]),
    ];
    for (kind, sizes) in SIZES.into_iter().chain(frames) {
        for log in sizes.iter().flat_map(|size| counted_both(kind, *size)) {
            assert_eq!(walk(&log), Ok(1), "{kind} {}", log.len());
            let mut out = vec![0xEE; log.len() + 3];
            assert_eq!(rewrite(&log, &mut out), Ok(log.len()));
            assert_eq!(out[..log.len()], log[..]);
            assert_eq!(out[log.len()..], [0xEE; 3]);
        }
    }
}

#[test]
fn write_read_round_trips() {
    let mut rng = Rng(1);
    for turn in 0..13_000 {
        let (kind, header) = (gen::LISTED[turn % 13], Header::BOTH[turn / 13 % 2]);
        let frame = gen::frame(&mut rng);
        let record = gen::record_under(&mut rng, header, kind, &frame);
        let mut out = vec![0xEE; 2_048];
        let used = write_any(&record, &mut out).expect("valid and room enough");
        assert_eq!(walk(&out[..used]), Ok(1));
        assert_eq!(out[4..8], header.pair());
        assert!(out[used..].iter().all(|b| *b == 0xEE));
        let answer = read_any(&out, 0);
        assert_eq!(answer, Read::Record { record, next: used });
        let mut exact = vec![0x11; used];
        assert_eq!(write_any(&record, &mut exact), Ok(used));
        assert_eq!(exact, out[..used]);
        let mut short = vec![0x11; used - 1];
        assert_eq!(write_any(&record, &mut short), refused(10, 0));
        assert!(short.iter().all(|b| *b == 0x11));
    }
}

/// What the paper says of a record, told apart from the writer.
fn expected_number(record: &Record) -> Option<u8> {
    let (unit, content) = match record {
        Record::CanMessage(r) => (r.head.unit, true),
        Record::CanOverload(r) => (r.head.unit, true),
        Record::CanStatistic(r) => (r.head.unit, true),
        Record::FlexRayReceive(r) => {
            let holds = r.data_count <= 254 && r.data_count <= r.byte_count;
            (r.head.unit, holds)
        }
        Record::LinMessage(r) => (r.head.unit, tail_holds(&r.tail)),
        Record::LinWakeUp(r) => (r.head.unit, true),
        Record::CanMessage2(r) => (r.message.head.unit, true),
        Record::CanFdMessage(r) => (r.head.unit, r.valid_bytes <= 64),
        Record::EthernetStatus(r) => (r.head.unit, true),
        Record::EthernetFrame(r) | Record::ForwardedFrame(r) => {
            (r.head.unit, r.frame.len() <= 1_612)
        }
        Record::EthernetError(r) | Record::ForwardedError(r) => {
            (r.event.head.unit, r.event.frame.len() <= 1_612)
        }
        Record::Foreign(_) => return None,
    };
    match (unit, content) {
        (1 | 2, true) => None,
        (1 | 2, false) => Some(9),
        _ => Some(7),
    }
}

fn tail_holds(tail: &LinTail) -> bool {
    match tail {
        LinTail::Rates {
            exact_header_rate, ..
        } => {
            let rate = f64::from_bits(*exact_header_rate);
            rate.is_finite() && rate.is_sign_positive()
        }
        _ => true,
    }
}

#[test]
fn any_records_are_judged() {
    let mut rng = Rng(2);
    let mut met = [0; 12];
    for turn in 0..13_000 {
        let kind = gen::LISTED[turn % 13];
        let length = rng.from_to(1_600, 1_620);
        let frame = rng.bytes(length);
        let record = gen::any_record(&mut rng, kind, &frame);
        let mut out = vec![0x11; rng.below(2_000)];
        let before = out.clone();
        match (expected_number(&record), write_any(&record, &mut out)) {
            (Some(number), answer) => {
                assert_eq!(answer, refused(number, 0));
                assert_eq!(out, before);
                met[number as usize] += 1;
            }
            (None, Ok(used)) => {
                assert_eq!(read_any(&out, 0), Read::Record { record, next: used });
            }
            (None, answer) => {
                assert_eq!(answer, refused(10, 0));
                assert_eq!(out, before);
                met[10] += 1;
            }
        }
    }
    assert!(met[7] > 0 && met[9] > 0 && met[10] > 0, "{met:?}");
}

#[test]
fn foreign_round_trips() {
    let mut rng = Rng(3);
    for _ in 0..2_000 {
        let object = gen::foreign(&mut rng);
        let mut out = vec![0x11; 2_048];
        let used = write_foreign(&object, &mut out).expect("foreign");
        assert_eq!(out[..used], gen::padded(object.clone()));
        assert_eq!(foreign_view(&out, 0), object);
        let record = Record::Foreign(&object);
        assert_eq!(read_any(&out, 0), Read::Record { record, next: used });
    }
}

/// Answer and output of a rewrite into so many bytes.
fn rewritten(log: &[u8], length: usize) -> (Result<usize, Refusal>, Vec<u8>) {
    let mut out = vec![0x11; length];
    (rewrite(log, &mut out), out)
}

#[test]
fn rewrite_keeps_the_log_or_changes_nothing() {
    let mut rng = Rng(4);
    for _ in 0..3_000 {
        let log = gen::any_log(&mut rng, 6);
        let short = log.len().saturating_sub(1);
        let (answer, out) = rewritten(&log, log.len() + 5);
        match walk(&log) {
            Ok(_) => {
                assert_eq!(answer, Ok(log.len()));
                assert_eq!(out[..log.len()], log[..]);
                assert_eq!(out[log.len()..], [0x11; 5]);
                if !log.is_empty() {
                    assert_eq!(rewritten(&log, short), (refused(10, 0), vec![0x11; short]));
                }
            }
            Err(refusal) => {
                assert_eq!((answer, out), (Err(refusal), vec![0x11; log.len() + 5]));
                assert_eq!(rewritten(&log, 0), (Err(refusal), vec![]));
            }
        }
    }
}

#[test]
fn raw_bytes_and_their_record() {
    let mut rng = Rng(47);
    for round in 0..200 {
        for kind in gen::LISTED {
            let frame = vec![7; round * 9];
            let any = gen::any_record(&mut rng, kind, &frame);
            let bytes = raw(&any);
            assert_eq!(record_in(kind, &bytes), any);
            let mut out = vec![0; 2_048];
            if let Ok(used) = write_any(&any, &mut out) {
                assert_eq!(gen::padded(bytes), out[..used], "type {kind}");
            }
        }
    }
}

#[test]
fn raw_objects_have_every_fault_of_a_write() {
    let mut rng = Rng(48);
    let mut met = [0; 12];
    for _ in 0..200 {
        for kind in gen::LISTED {
            let object = gen::raw_object(&mut rng, kind);
            let written = write_any(&record_in(kind, &object), &mut [0; 1_000]);
            met[written.map_or_else(|refusal| refusal.number.into(), |_| 0)] += 1;
        }
    }
    assert!(
        [0, 7, 9, 10].iter().all(|number| met[*number] > 0),
        "{met:?}"
    );
}
