//! A record as numbers: six of its header, then field by field in the order of document 01's table and of W-208. What a
//! read must find.
use mshelovat_reference::records::*;

/// The fields of a record as numbers, and the frame it was read with.
pub trait Numbers {
    fn numbers(&self) -> Vec<u64>;

    fn frame(&self) -> &[u8] {
        &[]
    }
}

/// A row of numbers of any width.
macro_rules! row {
    ($($value:expr),* $(,)?) => { vec![$(u64::from($value)),*] };
}

fn each(bytes: &[u8]) -> Vec<u64> {
    bytes.iter().map(|b| u64::from(*b)).collect()
}

/// Unit; which header, 1 or 2; what stands at byte 20: client index or time stamp status; object version; time stamp;
/// original time stamp, 0 under the first header.
fn head(head: &Head) -> Vec<u64> {
    let (header, at_20, original) = match head.own {
        Own::First { client_index } => (1u64, u64::from(client_index), 0),
        Own::Second { status, original } => (2, u64::from(status), original),
    };
    row![head.unit, header, at_20, head.version, head.time, original]
}

/// What stands first in types 1, 86 and 100.
fn front(front: &CanFront) -> Vec<u64> {
    row![front.channel, front.flags, front.dlc, front.id]
}

impl Numbers for CanMessage {
    fn numbers(&self) -> Vec<u64> {
        [head(&self.head), front(&self.front), each(&self.data)].concat()
    }
}

impl Numbers for CanOverload {
    fn numbers(&self) -> Vec<u64> {
        [head(&self.head), row![self.channel]].concat()
    }
}

impl Numbers for CanStatistic {
    fn numbers(&self) -> Vec<u64> {
        let fields = row![
            self.channel,
            self.bus_load,
            self.standard_data,
            self.extended_data,
            self.standard_remote,
            self.extended_remote,
            self.error,
            self.overload,
        ];
        [head(&self.head), fields].concat()
    }
}

impl Numbers for CanMessage2 {
    fn numbers(&self) -> Vec<u64> {
        let fields = row![self.frame_length, self.bit_count];
        [self.message.numbers(), fields].concat()
    }
}

impl Numbers for CanFdMessage {
    fn numbers(&self) -> Vec<u64> {
        let fields = row![
            self.frame_length,
            self.arbitration_bit_count,
            self.fd_flags,
            self.valid_bytes,
        ];
        let front = [head(&self.head), front(&self.front), fields].concat();
        [front, each(&self.data)].concat()
    }
}

impl Numbers for FlexRayReceive {
    fn numbers(&self) -> Vec<u64> {
        let fields = row![
            self.channel,
            self.version,
            self.mask,
            self.direction,
            self.client,
            self.cluster,
            self.frame_id,
            self.crc_a,
            self.crc_b,
            self.byte_count,
            self.data_count,
            self.cycle,
            self.tag,
            self.state,
            self.flags,
        ];
        [head(&self.head), fields, each(&self.data)].concat()
    }
}

fn bus(bus: &LinBus) -> Vec<u64> {
    row![bus.start, bus.baud_rate, bus.channel]
}

/// 0, 1 or 2 for the way in which the message ends, and what it ends with.
fn tail(tail: &LinTail) -> Vec<u64> {
    match *tail {
        LinTail::Nothing => vec![0],
        LinTail::Response { response_rate } => row![1u64, response_rate],
        LinTail::Rates {
            response_rate,
            exact_header_rate,
            stop_bit_offset,
            response_stop_bit_offset,
        } => row![
            2u64,
            response_rate,
            exact_header_rate,
            stop_bit_offset,
            response_stop_bit_offset,
        ],
    }
}

/// A LIN message's fields between the bus's and the arrays.
fn lin_front(r: &LinMessage) -> Vec<u64> {
    row![
        r.break_length,
        r.delimiter_length,
        r.supplier,
        r.message,
        r.nad,
        r.id,
        r.dlc,
        r.checksum_model,
    ]
}

/// A LIN message's fields between the arrays and the tail.
fn lin_marks(r: &LinMessage) -> Vec<u64> {
    row![
        r.checksum,
        r.direction,
        r.simulated,
        r.event_triggered,
        r.index,
        r.associated_id,
        r.machine,
        r.state,
    ]
}

impl Numbers for LinMessage {
    fn numbers(&self) -> Vec<u64> {
        let front = [head(&self.head), bus(&self.bus), lin_front(self)].concat();
        let arrays = [self.times.to_vec(), each(&self.data)].concat();
        [front, arrays, lin_marks(self), tail(&self.tail)].concat()
    }
}

impl Numbers for LinWakeUp {
    fn numbers(&self) -> Vec<u64> {
        let fields = row![self.length_info, self.signal, self.external];
        [head(&self.head), bus(&self.bus), fields].concat()
    }
}

impl Numbers for EthernetStatus {
    fn numbers(&self) -> Vec<u64> {
        let fields = row![
            self.channel,
            self.flags,
            self.link_status,
            self.ethernet_phy,
            self.duplex,
            self.mdi,
            self.connector,
            self.clock_mode,
            self.pairs,
            self.hardware_channel,
            self.bit_rate,
        ];
        [head(&self.head), fields].concat()
    }
}

impl Numbers for EthernetFrame<'_> {
    fn numbers(&self) -> Vec<u64> {
        let fields = row![
            self.flags,
            self.channel,
            self.hardware_channel,
            self.duration,
            self.checksum,
            self.direction,
            self.handle,
        ];
        [head(&self.head), fields].concat()
    }

    fn frame(&self) -> &[u8] {
        self.frame
    }
}

impl Numbers for EthernetError<'_> {
    fn numbers(&self) -> Vec<u64> {
        [self.event.numbers(), row![self.error_code]].concat()
    }

    fn frame(&self) -> &[u8] {
        self.event.frame
    }
}
