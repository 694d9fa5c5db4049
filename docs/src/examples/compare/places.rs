//! The cases on the places of refusals (W-205), all of them in logs of several objects: two wrong bytes at once, of
//! what is reserved and of the padding; each field that 9 looks at; and each of 2 to 9 by each question that reads a
//! log.
use super::cases::Case;
use super::padding::foreign;
use mshelovat_reference::gen::{self, Rng, LISTED};
use mshelovat_reference::header::Header;
use mshelovat_reference::layout::{kind, padding, put, row, u32_at};
use mshelovat_reference::object::reserved_bytes;
use mshelovat_reference::records::raw;

/// The questions that read a log.
const QUESTIONS: [u8; 5] = [1, 2, 3, 4, 5];

/// All of them.
pub fn sweep(rng: &mut Rng) -> Vec<Case> {
    let mut objects = Vec::new();
    for header in Header::BOTH {
        sweep_reserved(rng, header, &mut objects);
        sweep_lengths(rng, header, &mut objects);
        sweep_counts_and_rates(rng, header, &mut objects);
    }
    sweep_padding(rng, &mut objects);
    let mut cases = Vec::new();
    for (object, question) in objects.iter().zip(QUESTIONS.into_iter().cycle()) {
        cases.push(asked(rng, object, question));
    }
    for number in 2..=9 {
        for question in QUESTIONS {
            let object = refused_by(rng, number);
            cases.push(asked(rng, &object, question));
        }
    }
    cases
}

/// A damaged object behind one or two others, by one of the questions. An overload follows where its padding is whole.
fn asked(rng: &mut Rng, object: &[u8], question: u8) -> Case {
    let before = rng.from_to(1, 2);
    let mut log = gen::sound_log(rng, before);
    let (start, wanted) = (log.len() as u64, u32_at(object, 12));
    log.extend(object);
    if object.len().is_multiple_of(2) {
        log.extend(gen::object(rng, kind::CAN_OVERLOAD));
    }
    match question {
        1 => Case::steps(log, start),
        2 => Case::walks(log),
        3 => {
            let bundle = gen::honest_bundle(rng, &log);
            Case::checks(log, bundle)
        }
        4 => {
            let room = log.len();
            Case::writes(4, log, room)
        }
        _ if row(wanted).is_some() => Case::reads(log, start, wanted),
        _ => Case::reads(log, start, kind::CAN_MESSAGE),
    }
}

/// An object with its padding and with these bytes set.
fn with_set(rng: &mut Rng, object: &[u8], offsets: &[usize]) -> Vec<u8> {
    let mut object = gen::padded(object.to_vec());
    for at in offsets {
        object[*at] = rng.nonzero();
    }
    object
}

/// An object with its padding and with other bytes at an offset.
fn with(object: &[u8], offset: usize, bytes: &[u8]) -> Vec<u8> {
    let mut object = gen::padded(object.to_vec());
    put(&mut object, offset, bytes);
    object
}

/// Each reserved byte and the one behind it, the header's own among them.
fn sweep_reserved(rng: &mut Rng, header: Header, objects: &mut Vec<Vec<u8>>) {
    for row in LISTED.into_iter().filter_map(row) {
        let reserved: Vec<usize> = reserved_bytes(header, row).collect();
        for two in reserved.windows(2) {
            let object = gen::object_under(rng, header, row.kind);
            objects.push(with_set(rng, &object, two));
        }
    }
}

/// Structure length, frame length, and both.
fn sweep_lengths(rng: &mut Rng, header: Header, objects: &mut Vec<Vec<u8>>) {
    let (structure, length) = (header.length(), header.length() + 22);
    for kind in kind::ETHERNET_FRAME..=kind::FORWARDED_ERROR {
        let object = short_frame(rng, header, kind, 9);
        let wrong = with(&object, structure, &[rng.pick(&[0, 31, 33])]);
        objects.push(with(&wrong, length, &[10]));
        objects.push(wrong);
        objects.push(with(&object, length, &[rng.pick(&[0, 1, 8, 10])]));
    }
}

/// An object with a frame of so many bytes, without padding.
fn short_frame(rng: &mut Rng, header: Header, kind: u32, length: usize) -> Vec<u8> {
    let frame = rng.bytes(length);
    raw(&gen::record_under(rng, header, kind, &frame))
}

/// Data counts above 254, above the byte count, and both; exact rates that are none.
fn sweep_counts_and_rates(rng: &mut Rng, header: Header, objects: &mut Vec<Vec<u8>>) {
    let object = gen::object_under(rng, header, kind::FLEXRAY_RECEIVE);
    let counts = header.length() + 22;
    for [byte_count, data_count] in [[300u16, 255], [9, 10], [254, 255]] {
        let object = with(&object, counts, &byte_count.to_le_bytes());
        objects.push(with(&object, counts + 2, &data_count.to_le_bytes()));
    }
    let object = loop {
        let object = gen::object_under(rng, header, kind::LIN_MESSAGE);
        if object.len() == header.length() + 152 {
            break object;
        }
    };
    for rate in [f64::NAN, f64::INFINITY, -1.0] {
        objects.push(with(&object, header.length() + 136, &rate.to_le_bytes()));
    }
}

/// Every two bytes of the padding, behind frames under both headers and behind foreign objects.
fn sweep_padding(rng: &mut Rng, objects: &mut Vec<Vec<u8>>) {
    for over in [2, 3] {
        let [first, second] = Header::BOTH
            .map(|header| short_frame(rng, header, kind::ETHERNET_FRAME + over, 8 + over as usize));
        for object in [first, second, foreign(rng, over)] {
            let end = object.len();
            for two in [[0, 1], [0, 2], [1, 2]] {
                if two[1] < padding(end as u32) as usize {
                    objects.push(with_set(rng, &object, &two.map(|at| end + at)));
                }
            }
        }
    }
}

/// A FlexRay receive that is refused by this number; by 5 since its last byte is missing.
fn refused_by(rng: &mut Rng, number: u8) -> Vec<u8> {
    let header = rng.pick(&Header::BOTH);
    let mut object = gen::padded(gen::object_under(rng, header, kind::FLEXRAY_RECEIVE));
    let (body, end) = (header.length(), object.len());
    match number {
        2 => object[rng.below(4)] ^= rng.nonzero(),
        3 => object[8 + rng.below(4)] ^= rng.nonzero(),
        4 => object[4 + rng.below(4)] ^= rng.nonzero(),
        5 => object.truncate(end - 1),
        6 => object[end - rng.from_to(1, 2)] = rng.nonzero(),
        7 => object[17 + rng.below(3)] ^= rng.nonzero(),
        8 => object[body + rng.pick(&[7, 27, 40, 43])] = rng.nonzero(),
        _ => put(&mut object, body + 24, &[255, rng.byte()]),
    }
    object
}
