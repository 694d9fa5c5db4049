//! W-207: a tray of CAN messages. What comes of it is what writing one by one
//! gives until the first refusal; 31 comes before all else; bytes from the
//! refused message on stay.

mod common;
use common::*;
use mshelovat_reference::gen::{self, Rng};
use mshelovat_reference::layout::Refusal;
use mshelovat_reference::object::walk;
use mshelovat_reference::records::{read_can_message, write_can_message};
use mshelovat_reference::records::{CanFront, CanMessage, Head, Own, Read};
use mshelovat_reference::tray::{write, Common, Trayed};

/// What a buffer holds before a call: bytes unlike their neighbours.
fn pattern(room: usize) -> Vec<u8> {
    (0..room).map(|at| (at % 251) as u8 ^ 0xA5).collect()
}

/// All that a call is handed but the room.
#[derive(Clone)]
struct Tray {
    common: Common,
    ids: Vec<u32>,
    stamps: Vec<u64>,
    data: Vec<u8>,
}

impl Tray {
    /// A call on a buffer with the pattern: the answer, and the buffer afterwards.
    fn write(&self, room: usize) -> (Trayed, Vec<u8>) {
        let mut out = pattern(room);
        let answer = write(&self.common, &self.ids, &self.stamps, &self.data, &mut out);
        (answer, out)
    }

    /// The message at a number.
    fn message(&self, number: usize) -> CanMessage {
        CanMessage {
            head: Head {
                unit: self.common.unit,
                own: self.common.own,
                version: self.common.version,
                time: self.stamps[number],
            },
            front: CanFront {
                channel: self.common.channel,
                flags: self.common.flags,
                dlc: self.common.dlc,
                id: self.ids[number],
            },
            data: self.data[8 * number..8 * number + 8].try_into().unwrap(),
        }
    }

    /// The message's object, field by field as the papers have it.
    fn object(&self, number: usize) -> Vec<u8> {
        let stamp = self.stamps[number].to_le_bytes();
        let (front, own, original) = match self.common.own {
            Own::First { client_index } => (
                hex("4C4F424A 2000 0100 30000000 01000000"),
                client_index.to_le_bytes(),
                vec![],
            ),
            Own::Second { status, original } => (
                hex("4C4F424A 2800 0200 38000000 01000000"),
                [status, 0],
                original.to_le_bytes().to_vec(),
            ),
        };
        [
            &front[..],
            &self.common.unit.to_le_bytes(),
            &own,
            &self.common.version.to_le_bytes(),
            &stamp,
            &original,
            &self.common.channel.to_le_bytes(),
            &[self.common.flags, self.common.dlc],
            &self.ids[number].to_le_bytes(),
            &self.data[8 * number..8 * number + 8],
        ]
        .concat()
    }

    /// How long each message is.
    fn size(&self) -> usize {
        match self.common.own {
            Own::First { .. } => 48,
            Own::Second { .. } => 56,
        }
    }

    /// How long all of them are.
    fn needed(&self) -> usize {
        self.size() * self.ids.len()
    }
}

/// An answer: so many written, and then this refusal, which has place 0.
fn refused(written: usize, number: u8) -> Trayed {
    let refusal = Some(Refusal { number, place: 0 });
    Trayed { written, refusal }
}

/// All written.
fn all(written: usize) -> Trayed {
    let refusal = None;
    Trayed { written, refusal }
}

const FIRST: Own = Own::First {
    client_index: 0x0A0B,
};
const SECOND: Own = Own::Second {
    status: 0x0C,
    original: 0x1112_1314_1516_1718,
};

/// A tray of so many messages, none like another.
fn tray(own: Own, unit: u32, count: usize) -> Tray {
    let id = |i| 0x8100_0203u32.wrapping_mul(i as u32 + 1);
    let stamp = |i| 0x0102_0304_0506_0708u64.wrapping_mul(i as u64 + 1);
    Tray {
        common: Common {
            unit,
            own,
            version: 0x2122,
            channel: 0x3132,
            flags: 0x41,
            dlc: 0x42,
        },
        ids: (0..count).map(id).collect(),
        stamps: (0..count).map(stamp).collect(),
        data: (0..8 * count).map(|i| 0xFF - i as u8).collect(),
    }
}

/// The same time stamps and data, but as many as said.
fn uneven(tray: &Tray, stamps: usize, data: usize) -> Tray {
    let mut tray = tray.clone();
    tray.stamps.resize(stamps, 9);
    tray.data.resize(data, 9);
    tray
}

#[test]
fn two_messages() {
    let expected = hex(
        "4C4F424A 2000 0100 30000000 01000000 02000000 0B0A 2221 0807060504030201
         3231 41 42 03020081 FFFEFDFCFBFAF9F8
         4C4F424A 2000 0100 30000000 01000000 02000000 0B0A 2221 100E0C0A08060402
         3231 41 42 06040002 F7F6F5F4F3F2F1F0",
    );
    assert_eq!(tray(FIRST, 2, 2).write(96), (all(2), expected));
    let expected = hex(
        "4C4F424A 2800 0200 38000000 01000000 01000000 0C 00 2221 0807060504030201
         1817161514131211 3231 41 42 03020081 FFFEFDFCFBFAF9F8
         4C4F424A 2800 0200 38000000 01000000 01000000 0C 00 2221 100E0C0A08060402
         1817161514131211 3231 41 42 06040002 F7F6F5F4F3F2F1F0",
    );
    assert_eq!(tray(SECOND, 1, 2).write(112), (all(2), expected));
}

/// It succeeds with any unit and any room, and writes nothing.
#[test]
fn a_tray_of_none() {
    for own in [FIRST, SECOND] {
        for unit in [0, 1, 2, 3, u32::MAX] {
            for room in [0, 1, 47, 48, 56, 200] {
                let none = tray(own, unit, 0);
                assert_eq!(none.write(room), (all(0), pattern(room)));
            }
        }
    }
}

/// 31, with any unit and in any room: nothing is written.
fn refused_by_31(uneven: &Tray) {
    for unit in [0, 1, 2, 3, 0x0100, u32::MAX] {
        let mut tray = uneven.clone();
        tray.common.unit = unit;
        let needed = tray.needed();
        for room in [0, 1, 47, 48, 56, needed, needed + 1, needed + 200] {
            assert_eq!(tray.write(room), (refused(0, 31), pattern(room)));
        }
    }
}

/// Fewer and more time stamps, fewer and more data, by a byte and by eight.
#[test]
fn uneven_trays() {
    for own in [FIRST, SECOND] {
        for count in 0..=5 {
            let even = tray(own, 2, count);
            let (stamps, data) = (count, 8 * count);
            refused_by_31(&uneven(&even, stamps + 1, data));
            refused_by_31(&uneven(&even, stamps, data + 1));
            refused_by_31(&uneven(&even, stamps, data + 8));
            refused_by_31(&uneven(&even, stamps + 1, data + 8));
            if count > 0 {
                refused_by_31(&uneven(&even, stamps - 1, data));
                refused_by_31(&uneven(&even, stamps, data - 1));
                refused_by_31(&uneven(&even, stamps, data - 8));
                refused_by_31(&uneven(&even, stamps - 1, data - 8));
                refused_by_31(&uneven(&even, stamps - 1, data + 8));
                refused_by_31(&uneven(&even, stamps + 1, data - 8));
            }
        }
    }
}

/// Every number of time stamps and of data bytes up to more than enough: all but
/// one pair is 31.
#[test]
fn every_unevenness() {
    for count in 0..=3 {
        let even = tray(FIRST, 1, count);
        for stamps in 0..=5 {
            for data in 0..=41 {
                let (answer, out) = uneven(&even, stamps, data).write(200);
                if (stamps, data) == (count, 8 * count) {
                    assert_eq!(answer, all(count));
                } else {
                    assert_eq!((answer, out), (refused(0, 31), pattern(200)));
                }
            }
        }
    }
}

/// Data and time stamps in each other's number do not make up for it.
#[test]
fn swapped_numbers() {
    let even = tray(FIRST, 1, 4);
    refused_by_31(&uneven(&even, 32, 4));
    refused_by_31(&uneven(&even, 4, 4));
    refused_by_31(&uneven(&even, 32, 32));
    refused_by_31(&uneven(&even, 0, 0));
    refused_by_31(&uneven(&even, 4, 0));
    refused_by_31(&uneven(&even, 0, 32));
}

/// A wrong unit refuses the first message, with room and without.
#[test]
fn wrong_units() {
    for own in [FIRST, SECOND] {
        for unit in [0, 3, 4, 0x0100, 0x0201, 0x0100_0000, 0x0200_0002, u32::MAX] {
            for count in 1..=5 {
                let tray = tray(own, unit, count);
                for room in [0, 1, 47, 48, 56, tray.needed(), tray.needed() + 9] {
                    assert_eq!(tray.write(room), (refused(0, 7), pattern(room)));
                }
            }
        }
    }
}

/// How many are written, every byte of the buffer, and each message read again.
#[test]
fn every_room() {
    for own in [FIRST, SECOND] {
        for (unit, count) in (1..=2).flat_map(|unit| (0..=5).map(move |count| (unit, count))) {
            let tray = tray(own, unit, count);
            let size = tray.size();
            for room in 0..=tray.needed() + size + 1 {
                let (answer, out) = tray.write(room);
                let written = count.min(room / size);
                let expected = if written == count {
                    all(count)
                } else {
                    refused(written, 10)
                };
                assert_eq!(answer, expected, "{count} in {room}");
                let (front, behind) = out.split_at(size * written);
                let objects: Vec<_> = (0..written).map(|number| tray.object(number)).collect();
                assert_eq!(front, objects.concat());
                assert_eq!(behind, &pattern(room)[front.len()..]);
                assert_eq!(walk(front), Ok(written));
                for number in 0..written {
                    let (record, at) = (tray.message(number), size * number);
                    let next = at + size;
                    assert_eq!(read_can_message(front, at), Read::Record { record, next });
                }
            }
        }
    }
}

/// One by one by the call that writes one message, until the first refusal.
fn one_by_one(tray: &Tray, room: usize) -> (Trayed, Vec<u8>) {
    let (mut out, mut at) = (pattern(room), 0);
    for number in 0..tray.ids.len() {
        match write_can_message(&tray.message(number), &mut out[at..]) {
            Ok(used) => at += used,
            Err(refusal) => {
                assert_eq!(refusal.place, 0);
                return (refused(number, refusal.number), out);
            }
        }
    }
    (all(tray.ids.len()), out)
}

/// A tray of anything, whose slices go together.
fn any_tray(rng: &mut Rng) -> Tray {
    let first = Own::First {
        client_index: rng.number() as u16,
    };
    let both = [first, gen::second_own(rng)];
    let any = rng.number() as u32;
    let common = Common {
        unit: rng.pick(&[1, 1, 1, 2, 2, 2, 3, any]),
        own: rng.pick(&both),
        version: rng.number() as u16,
        channel: rng.number() as u16,
        flags: rng.byte(),
        dlc: rng.byte(),
    };
    let count = rng.below(20);
    Tray {
        common,
        ids: (0..count).map(|_| rng.number() as u32).collect(),
        stamps: (0..count).map(|_| rng.number()).collect(),
        data: rng.bytes(8 * count),
    }
}

#[test]
fn as_one_by_one() {
    let mut rng = Rng(207);
    for _ in 0..20_000 {
        let tray = any_tray(&mut rng);
        let needed = tray.needed();
        let (less, more) = (rng.below(needed + 1), needed + rng.below(80));
        let room = rng.pick(&[less, less, needed, more]);
        assert_eq!(tray.write(room), one_by_one(&tray, room));
    }
}

/// The common part is that of every message, and its own message is the same.
#[test]
fn messages() {
    let mut rng = Rng(31);
    for _ in 0..2_000 {
        let tray = any_tray(&mut rng);
        for number in 0..tray.ids.len() {
            let message = tray.message(number);
            let own = (message.front.id, message.head.time, message.data);
            assert_eq!(tray.common.message(own.0, own.1, own.2), message);
        }
    }
}

/// Thousands of messages are a sound log.
#[test]
fn thousands() {
    for own in [FIRST, SECOND] {
        let tray = tray(own, 2, 10_000);
        let (answer, out) = tray.write(tray.needed());
        assert_eq!((answer, walk(&out)), (all(10_000), Ok(10_000)));
        let (answer, out) = tray.write(tray.needed() - 1);
        let front = tray.needed() - tray.size();
        assert_eq!(answer, refused(9_999, 10));
        assert_eq!(walk(&out[..front]), Ok(9_999));
        assert_eq!(out[front..], pattern(out.len())[front..]);
    }
}

/// Numbers with commas between them; `-` for none.
fn numbers<T: std::str::FromStr<Err: std::fmt::Debug>>(text: &str) -> Vec<T> {
    let words = text.split(',').filter(|word| *word != "-");
    words.map(|word| word.parse().unwrap()).collect()
}

/// Bytes in hex; `-` for none.
fn bytes(text: &str) -> Vec<u8> {
    hex(text.trim_start_matches('-'))
}

/// An answer in the words of the shared cases.
fn in_words(answer: Trayed) -> String {
    match answer.refusal {
        None => format!("{} none", answer.written),
        Some(r) => format!("{} refused {} at {}", answer.written, r.number, r.place),
    }
}

/// The tray and the room that a shared case asks for.
fn asked(text: &str) -> (Tray, usize) {
    let words: Vec<&str> = text.split(' ').collect();
    let ["tray", header, own, original, unit, version, channel, flags, dlc, ids, stamps, data, room] =
        words[..]
    else {
        panic!("no case: {text}");
    };
    let own = match header {
        "1" => {
            assert_eq!(original, "0");
            let client_index = own.parse().unwrap();
            Own::First { client_index }
        }
        _ => Own::Second {
            status: own.parse().unwrap(),
            original: original.parse().unwrap(),
        },
    };
    let common = Common {
        unit: unit.parse().unwrap(),
        own,
        version: version.parse().unwrap(),
        channel: channel.parse().unwrap(),
        flags: flags.parse().unwrap(),
        dlc: dlc.parse().unwrap(),
    };
    let tray = Tray {
        common,
        ids: numbers(ids),
        stamps: numbers(stamps),
        data: bytes(data),
    };
    (tray, room.parse().unwrap())
}

/// The answers of another reading of the papers.
#[test]
fn shared_cases() {
    let mut held = 0;
    for case in include_str!("cases/W-207.txt").lines().skip(1) {
        println!("{case}");
        let (question, answer) = case.split_once(" = ").unwrap();
        let (answer, after) = answer.rsplit_once(' ').unwrap();
        let (tray, room) = asked(question);
        let mut out = vec![0xEE; room];
        let ours = write(&tray.common, &tray.ids, &tray.stamps, &tray.data, &mut out);
        assert_eq!((in_words(ours), out), (answer.to_string(), bytes(after)));
        held += 1;
    }
    assert_eq!(held, 60);
}
