//! Records of every type.

use super::headers::{first as head, second_own, wrong_pair};
use super::Rng;
use crate::header::STATUS_GAP;
use crate::layout::{kind, put, row, CAN_FD_DATA, FLEXRAY_DATA, FRAME_LIMIT};
use crate::object::has_frame;
use crate::records::*;

/// A frame, 0 to 1,612 bytes; the ends and short ones come often.
pub fn frame(rng: &mut Rng) -> Vec<u8> {
    let length = match rng.below(8) {
        0 => 0,
        1 => FRAME_LIMIT - rng.below(4),
        2 => rng.below(FRAME_LIMIT + 1),
        _ => rng.below(80),
    };
    rng.bytes(length)
}

/// A valid record of one of the thirteen types, with fields of every value, under
/// either header. `frame` is lent to types 120 to 123 and must not be above
/// 1,612 bytes.
pub fn record<'a>(rng: &mut Rng, kind: u32, frame: &'a [u8]) -> Record<'a> {
    let header = rng.pick(&Header::BOTH);
    record_under(rng, header, kind, frame)
}

/// A valid record under this header.
pub fn record_under<'a>(rng: &mut Rng, header: Header, kind: u32, frame: &'a [u8]) -> Record<'a> {
    let mut record = first_record(rng, kind, frame);
    if header == Header::Second {
        head_of(&mut record).own = second_own(rng);
    }
    record
}

fn first_record<'a>(rng: &mut Rng, kind: u32, frame: &'a [u8]) -> Record<'a> {
    match kind {
        kind::CAN_MESSAGE => Record::CanMessage(can_message(rng)),
        kind::CAN_OVERLOAD => Record::CanOverload(can_overload(rng)),
        kind::CAN_STATISTIC => Record::CanStatistic(can_statistic(rng)),
        kind::FLEXRAY_RECEIVE => Record::FlexRayReceive(flexray_receive(rng)),
        kind::LIN_MESSAGE => Record::LinMessage(lin_message(rng)),
        kind::LIN_WAKE_UP => Record::LinWakeUp(lin_wake_up(rng)),
        kind::CAN_MESSAGE_2 => Record::CanMessage2(can_message_2(rng)),
        kind::CAN_FD_MESSAGE => Record::CanFdMessage(can_fd_message(rng)),
        kind::ETHERNET_STATUS => Record::EthernetStatus(ethernet_status(rng)),
        kind::ETHERNET_FRAME => Record::EthernetFrame(ethernet_frame(rng, frame)),
        kind::FORWARDED_FRAME => Record::ForwardedFrame(ethernet_frame(rng, frame)),
        kind::ETHERNET_ERROR => Record::EthernetError(ethernet_error(rng, frame)),
        kind::FORWARDED_ERROR => Record::ForwardedError(ethernet_error(rng, frame)),
        _ => panic!("type {kind} is foreign and has no record"),
    }
}

/// A record that may be invalid: wrong unit (7), wrong content (9), both, or
/// neither. The frame may have any length.
pub fn any_record<'a>(rng: &mut Rng, kind: u32, frame: &'a [u8]) -> Record<'a> {
    let mut any = record(rng, kind, frame);
    if rng.once_in(3) {
        head_of(&mut any).unit = rng.number() as u32;
    }
    if rng.once_in(2) {
        spoil_content(rng, &mut any);
    }
    any
}

/// The bytes of an object whose record may be invalid, with a frame that may be
/// too long. Half the time what a write must set right is wrong too: signature,
/// header size and version, object size, reserved bytes and the two lengths. Now
/// and then they name another header than they have; a LIN message does not,
/// since its length would then be none that a LIN message has.
pub fn raw_object(rng: &mut Rng, kind: u32) -> Vec<u8> {
    let mut frame = frame(rng);
    if rng.once_in(6) {
        let length = FRAME_LIMIT + rng.pick(&[1, 1, 2, 3, 4, 400]);
        frame = rng.bytes(length);
    }
    let mut object = raw(&any_record(rng, kind, &frame));
    if rng.once_in(2) {
        spoil_fixed(rng, &mut object, kind);
    }
    if kind != kind::LIN_MESSAGE && rng.once_in(6) {
        let pairs = [Header::of(&object).other().pair(), wrong_pair(rng)];
        put(&mut object, 4, &rng.pick(&pairs));
    }
    object
}

/// Rubbish over what is no field of the record. The header stays the same one:
/// a pair that is neither header's counts as the first's.
fn spoil_fixed(rng: &mut Rng, object: &mut [u8], kind: u32) {
    let header = Header::of(object);
    let (front, body) = object.split_at_mut(header.length());
    put(front, 0, &rng.array::<4>());
    match header {
        Header::First => put(front, 4, &wrong_pair(rng)),
        Header::Second => front[STATUS_GAP] = rng.byte(),
    }
    put(front, 8, &rng.array::<4>());
    for offset in row(kind).expect("a listed type").reserved {
        body[*offset] = rng.byte();
    }
    if has_frame(kind) {
        put(body, 0, &rng.array::<2>());
        put(body, 22, &rng.array::<2>());
    }
}

fn head_of<'r>(record: &'r mut Record) -> &'r mut Head {
    match record {
        Record::CanMessage(r) => &mut r.head,
        Record::CanOverload(r) => &mut r.head,
        Record::CanStatistic(r) => &mut r.head,
        Record::FlexRayReceive(r) => &mut r.head,
        Record::LinMessage(r) => &mut r.head,
        Record::LinWakeUp(r) => &mut r.head,
        Record::CanMessage2(r) => &mut r.message.head,
        Record::CanFdMessage(r) => &mut r.head,
        Record::EthernetStatus(r) => &mut r.head,
        Record::EthernetFrame(r) | Record::ForwardedFrame(r) => &mut r.head,
        Record::EthernetError(r) | Record::ForwardedError(r) => &mut r.event.head,
        Record::Foreign(_) => panic!("a foreign object has no record"),
    }
}

/// Gives the fields that 9 looks at values on both sides of the rule.
fn spoil_content(rng: &mut Rng, record: &mut Record) {
    match record {
        Record::FlexRayReceive(r) => {
            r.data_count = rng.from_to(250, 258) as u16;
            r.byte_count = match rng.below(3) {
                0 => rng.from_to(250, 258) as u16,
                1 => r.data_count - 1,
                _ => rng.number() as u16,
            };
        }
        Record::LinMessage(r) => {
            if let LinTail::Rates {
                exact_header_rate, ..
            } = &mut r.tail
            {
                *exact_header_rate = edge_rate(rng);
            }
        }
        Record::CanFdMessage(r) => {
            let any = rng.byte();
            r.valid_bytes = rng.pick(&[0, 63, 64, 65, 66, 128, 255, any]);
        }
        _ => {}
    }
}

/// Bits of an f64 around the borders of its rule.
fn edge_rate(rng: &mut Rng) -> u64 {
    let edges = [
        0,
        1,
        f64::MIN_POSITIVE.to_bits(),
        f64::MAX.to_bits(),
        f64::INFINITY.to_bits(),
        f64::INFINITY.to_bits() + 1,
        f64::NAN.to_bits(),
        1 << 63,
        (-1.5f64).to_bits(),
        f64::NEG_INFINITY.to_bits(),
        u64::MAX,
        rng.number(),
    ];
    rng.pick(&edges)
}

fn sound_rate(rng: &mut Rng) -> u64 {
    match rng.below(4) {
        0 => 19_200f64.to_bits(),
        1 => rng.pick(&[0, 1, f64::MAX.to_bits(), f64::MIN_POSITIVE.to_bits()]),
        _ => rng.bits() % f64::INFINITY.to_bits(),
    }
}

fn can_front(rng: &mut Rng) -> CanFront {
    CanFront {
        channel: rng.number() as u16,
        flags: rng.byte(),
        dlc: rng.byte(),
        id: rng.number() as u32,
    }
}

fn can_message(rng: &mut Rng) -> CanMessage {
    CanMessage {
        head: head(rng),
        front: can_front(rng),
        data: rng.array(),
    }
}

fn can_overload(rng: &mut Rng) -> CanOverload {
    CanOverload {
        head: head(rng),
        channel: rng.number() as u16,
    }
}

fn can_statistic(rng: &mut Rng) -> CanStatistic {
    CanStatistic {
        head: head(rng),
        channel: rng.number() as u16,
        bus_load: rng.number() as u16,
        standard_data: rng.number() as u32,
        extended_data: rng.number() as u32,
        standard_remote: rng.number() as u32,
        extended_remote: rng.number() as u32,
        error: rng.number() as u32,
        overload: rng.number() as u32,
    }
}

fn can_message_2(rng: &mut Rng) -> CanMessage2 {
    CanMessage2 {
        message: can_message(rng),
        frame_length: rng.number() as u32,
        bit_count: rng.byte(),
    }
}

/// The data behind the valid bytes is anything, and so is the DLC.
fn can_fd_message(rng: &mut Rng) -> CanFdMessage {
    let any = rng.below(CAN_FD_DATA + 1) as u8;
    CanFdMessage {
        head: head(rng),
        front: can_front(rng),
        frame_length: rng.number() as u32,
        arbitration_bit_count: rng.byte(),
        fd_flags: rng.byte(),
        valid_bytes: rng.pick(&[0, CAN_FD_DATA as u8, any, any]),
        data: rng.array(),
    }
}

fn flexray_receive(rng: &mut Rng) -> FlexRayReceive {
    let byte_count = rng.number() as u16;
    let most = usize::from(byte_count).min(FLEXRAY_DATA);
    let data_count = if rng.once_in(3) {
        most
    } else {
        rng.below(most + 1)
    };
    FlexRayReceive {
        head: head(rng),
        channel: rng.number() as u16,
        version: rng.number() as u16,
        mask: rng.number() as u16,
        direction: rng.byte(),
        client: rng.number() as u32,
        cluster: rng.number() as u32,
        frame_id: rng.number() as u16,
        crc_a: rng.number() as u16,
        crc_b: rng.number() as u16,
        byte_count,
        data_count: data_count as u16,
        cycle: rng.byte(),
        tag: rng.number() as u32,
        state: rng.number() as u32,
        flags: rng.number() as u32,
        data: rng.array(),
    }
}

fn lin_bus(rng: &mut Rng) -> LinBus {
    LinBus {
        start: rng.number(),
        baud_rate: rng.number() as u32,
        channel: rng.number() as u16,
    }
}

fn lin_tail(rng: &mut Rng) -> LinTail {
    match rng.below(3) {
        0 => LinTail::Nothing,
        1 => LinTail::Response {
            response_rate: rng.number() as u32,
        },
        _ => LinTail::Rates {
            response_rate: rng.number() as u32,
            exact_header_rate: sound_rate(rng),
            stop_bit_offset: rng.number() as u32,
            response_stop_bit_offset: rng.number() as u32,
        },
    }
}

fn lin_message(rng: &mut Rng) -> LinMessage {
    LinMessage {
        head: head(rng),
        bus: lin_bus(rng),
        break_length: rng.number(),
        delimiter_length: rng.number(),
        supplier: rng.number() as u16,
        message: rng.number() as u16,
        nad: rng.byte(),
        id: rng.byte(),
        dlc: rng.byte(),
        checksum_model: rng.byte(),
        times: std::array::from_fn(|_| rng.number()),
        data: rng.array(),
        checksum: rng.number() as u16,
        direction: rng.byte(),
        simulated: rng.byte(),
        event_triggered: rng.byte(),
        index: rng.byte(),
        associated_id: rng.byte(),
        machine: rng.byte(),
        state: rng.byte(),
        tail: lin_tail(rng),
    }
}

fn lin_wake_up(rng: &mut Rng) -> LinWakeUp {
    LinWakeUp {
        head: head(rng),
        bus: lin_bus(rng),
        length_info: rng.byte(),
        signal: rng.byte(),
        external: rng.byte(),
    }
}

fn ethernet_status(rng: &mut Rng) -> EthernetStatus {
    EthernetStatus {
        head: head(rng),
        channel: rng.number() as u16,
        flags: rng.number() as u16,
        link_status: rng.byte(),
        ethernet_phy: rng.byte(),
        duplex: rng.byte(),
        mdi: rng.byte(),
        connector: rng.byte(),
        clock_mode: rng.byte(),
        pairs: rng.byte(),
        hardware_channel: rng.byte(),
        bit_rate: rng.number() as u32,
    }
}

fn ethernet_frame<'a>(rng: &mut Rng, frame: &'a [u8]) -> EthernetFrame<'a> {
    EthernetFrame {
        head: head(rng),
        flags: rng.number() as u16,
        channel: rng.number() as u16,
        hardware_channel: rng.number() as u16,
        duration: rng.number(),
        checksum: rng.number() as u32,
        direction: rng.number() as u16,
        handle: rng.number() as u32,
        frame,
    }
}

fn ethernet_error<'a>(rng: &mut Rng, frame: &'a [u8]) -> EthernetError<'a> {
    EthernetError {
        event: ethernet_frame(rng, frame),
        error_code: rng.number() as u32,
    }
}
