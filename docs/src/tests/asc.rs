//! ASC lines: what is written, what is read, and what is refused.

mod common;
use common::*;
use mshelovat_reference::asc::*;
use mshelovat_reference::gen::{self, Rng};
use mshelovat_reference::layout::Refusal;
use mshelovat_reference::records::*;

/// What stands in a buffer that no call has written to.
const UNTOUCHED: u8 = 0xA5;

/// The header of this unit and time stamp.
fn head(unit: u32, time: u64) -> Head {
    Head {
        unit,
        time,
        ..Head::default()
    }
}

/// The line that a call writes. The bytes behind it must stay; a buffer of
/// exactly its length will do, and every shorter one is refused and stays.
fn line(write: impl Fn(&mut [u8]) -> Result<usize, Refusal>) -> Vec<u8> {
    let mut out = [UNTOUCHED; 200];
    let used = write(&mut out).unwrap();
    assert!(out[used..].iter().all(|b| *b == UNTOUCHED));
    for room in 0..=used {
        let mut short = vec![UNTOUCHED; room];
        if room == used {
            assert_eq!(write(&mut short), Ok(used));
            assert_eq!(short, out[..used]);
        } else {
            assert_eq!(write(&mut short), refused(10, 0));
            assert!(short.iter().all(|b| *b == UNTOUCHED));
        }
    }
    out[..used].to_vec()
}

fn shown(line: Vec<u8>) -> String {
    String::from_utf8(line).unwrap()
}

fn message(record: &CanMessage) -> String {
    shown(line(|out| message_line(record, out)))
}

fn overload(record: &CanOverload) -> String {
    shown(line(|out| overload_line(record, out)))
}

fn statistic(record: &CanStatistic) -> String {
    shown(line(|out| statistic_line(record, out)))
}

/// A message at one second on channel 2, with data 01 23 .. EF.
fn plain(id: u32, flags: u8, dlc: u8) -> CanMessage {
    CanMessage {
        head: head(2, 1_000_000_000),
        front: CanFront {
            channel: 2,
            flags,
            dlc,
            id,
        },
        data: [0x01, 0x23, 0x45, 0x67, 0x89, 0xAB, 0xCD, 0xEF],
    }
}

/// A statistic whose six counters are all different.
fn counted(bus_load: u16) -> CanStatistic {
    CanStatistic {
        head: head(1, 101_000),
        channel: 1,
        bus_load,
        standard_data: 1_000,
        extended_data: 2,
        standard_remote: 15,
        extended_remote: 4,
        error: 5,
        overload: u32::MAX,
    }
}

/// The same event once more, as a record whose line tells this. The unit is
/// nanoseconds where they suffice.
fn record_of(told: &Told) -> Record<'static> {
    let nanos = u128::from(told.seconds) * 1_000_000_000 + u128::from(told.nanoseconds);
    let head = match u64::try_from(nanos) {
        Ok(nanos) => head(2, nanos),
        Err(_) => {
            assert_eq!(nanos % 10_000, 0);
            head(1, u64::try_from(nanos / 10_000).unwrap())
        }
    };
    let channel = told.channel;
    match told.event {
        Event::Message(m) => Record::CanMessage(CanMessage {
            head,
            front: CanFront {
                channel,
                flags: u8::from(m.sent) | u8::from(m.remote) << 7,
                dlc: m.dlc,
                id: m.id | u32::from(m.extended) << 31,
            },
            data: m.data,
        }),
        Event::Overload => Record::CanOverload(CanOverload { head, channel }),
        Event::Statistic(s) => Record::CanStatistic(CanStatistic {
            head,
            channel,
            bus_load: s.load,
            standard_data: s.counters[0],
            extended_data: s.counters[1],
            standard_remote: s.counters[2],
            extended_remote: s.counters[3],
            error: s.counters[4],
            overload: s.counters[5],
        }),
    }
}

/// A record's line, through its object's bytes.
fn line_of(record: &Record) -> Vec<u8> {
    let mut out = [0; 200];
    let used = object_line(&raw(record), &mut out).unwrap();
    out[..used].to_vec()
}

/// A text is refused, or what it tells has that text as its line.
fn strict(text: &[u8]) -> bool {
    match read_line(text) {
        Ok(told) => {
            assert_eq!(shown(line_of(&record_of(&told))), shown(text.to_vec()));
            true
        }
        Err(refusal) => {
            assert_eq!(Err::<(), _>(refusal), refused(30, 0));
            false
        }
    }
}

fn read_text(text: &str) -> Option<Told> {
    strict(text.as_bytes()).then(|| read_line(text.as_bytes()).unwrap())
}

/// A valid CAN record of a type, with flags, DLC and ids that matter.
fn any_record(rng: &mut Rng, kind: u32) -> Record<'static> {
    let mut record = gen::record(rng, kind, &[]);
    if let Record::CanMessage(r) = &mut record {
        let front = &mut r.front;
        front.dlc = rng.pick(&[0, 1, 7, 8, 9, 15, 255, front.dlc]);
        front.id = rng.pick(&[0, 1 << 31, 0x7FF, u32::MAX, i32::MAX as u32, front.id]);
    }
    record
}

#[test]
fn the_line_of_m2() {
    let record = CanOverload {
        head: head(2, 1_000_000),
        channel: 1,
    };
    assert_eq!(overload(&record), "0.001000000 1 OverloadFrame\r\n");
    let mut out = [0; 29];
    assert_eq!(object_line(&m2(), &mut out), Ok(29));
    assert_eq!(&out, b"0.001000000 1 OverloadFrame\r\n");
    let answer = line_at(&m2(), 0, &mut out);
    assert_eq!(answer, LineAt::Line { used: 29, next: 36 });
}

#[test]
fn messages() {
    let expect = |record: CanMessage, behind: &str| {
        assert_eq!(message(&record), format!("1.000000000 2 {behind}\r\n"));
    };
    expect(plain(0x64, 1, 8), "64 Tx d 8 01 23 45 67 89 AB CD EF");
    expect(plain(0x7FF, 0, 0), "7FF Rx d 0");
    expect(plain(0, 0, 1), "0 Rx d 1 01");
    expect(plain(0x8000_0000, 0, 2), "0x Rx d 2 01 23");
    expect(plain(0x9FFF_FFFF, 0, 0), "1FFFFFFFx Rx d 0");
    expect(plain(u32::MAX, 0, 0), "7FFFFFFFx Rx d 0");
    expect(plain(0x7FFF_FFFF, 0, 0), "7FFFFFFF Rx d 0");
    expect(plain(10, 0, 9), "A Rx d 9 01 23 45 67 89 AB CD EF");
    expect(plain(10, 0, 10), "A Rx d 10 01 23 45 67 89 AB CD EF");
    expect(plain(10, 0, 255), "A Rx d 255 01 23 45 67 89 AB CD EF");
    expect(plain(0x200, 0x81, 8), "200 Tx r 8");
    expect(plain(0x200, 0x80, 0), "200 Rx r 0");
    expect(plain(0x8000_0200, 0xFE, 255), "200x Rx r 255");
    // No other flag bit is looked at.
    expect(plain(1, 0x7E, 0), "1 Rx d 0");
}

#[test]
fn statistics() {
    let counters = "D 1000 R 15 XD 2 XR 4 E 5 O 4294967295";
    for (load, percent) in [
        (65_535, "655.35"),
        (5, "0.05"),
        (0, "0.00"),
        (100, "1.00"),
        (1_194, "11.94"),
        (10_000, "100.00"),
    ] {
        let expected = format!("1.010000000 1 Statistic: {counters} B {percent}%\r\n");
        assert_eq!(statistic(&counted(load)), expected);
    }
}

#[test]
fn times_written() {
    let expect = |unit: u32, time: u64, shown: &str| {
        let record = CanOverload {
            head: head(unit, time),
            channel: 65_535,
        };
        let expected = format!("{shown} 65535 OverloadFrame\r\n");
        assert_eq!(overload(&record), expected);
    };
    expect(1, 0, "0.000000000");
    expect(2, 0, "0.000000000");
    expect(1, 1, "0.000010000");
    expect(2, 1, "0.000000001");
    expect(1, 99_999, "0.999990000");
    expect(1, 100_000, "1.000000000");
    expect(2, 999_999_999, "0.999999999");
    expect(2, 10_000_000_000, "10.000000000");
    expect(2, u64::MAX, "18446744073.709551615");
    expect(1, u64::MAX, "184467440737095.516150000");
}

#[test]
fn the_unit_comes_before_the_room() {
    for unit in [0, 3, 0x0100_0001, u32::MAX] {
        let (mut m, mut s) = (plain(1, 0, 0), counted(0));
        (m.head.unit, s.head.unit) = (unit, unit);
        let o = CanOverload {
            head: head(unit, 7),
            channel: 1,
        };
        for room in [0, 200] {
            let mut out = vec![UNTOUCHED; room];
            assert_eq!(message_line(&m, &mut out), refused(7, 0));
            assert_eq!(overload_line(&o, &mut out), refused(7, 0));
            assert_eq!(statistic_line(&s, &mut out), refused(7, 0));
            for record in [
                Record::CanMessage(m),
                Record::CanOverload(o),
                Record::CanStatistic(s),
            ] {
                assert_eq!(object_line(&raw(&record), &mut out), refused(7, 0));
            }
            assert!(out.iter().all(|b| *b == UNTOUCHED));
        }
    }
}

/// These bytes give none, in any room.
fn nothing(object: &[u8]) {
    let mut out = [UNTOUCHED; 200];
    assert_eq!(object_line(object, &mut out), Ok(0));
    assert_eq!(object_line(object, &mut []), Ok(0));
    assert!(out.iter().all(|b| *b == UNTOUCHED));
}

#[test]
fn bytes_that_are_no_such_object() {
    let objects = [bare(1, 48), bare(3, 36), bare(4, 60)];
    for object in objects.into_iter().flat_map(both) {
        // A wrong unit must not come before what is wrong here.
        for unit in [2, 9] {
            let changed = |at: usize, value: u8| {
                let mut object = object.clone();
                object[16] = unit;
                object[at] = value;
                object
            };
            // Signature, header size and version, size, type.
            for (at, value) in [(0, 0), (3, 0), (4, 16), (5, 1), (6, 3), (8, 40), (12, 62)] {
                nothing(&changed(at, value));
            }
            nothing(&changed(12, 5));
            let sound = changed(16, unit);
            for length in 0..sound.len() {
                nothing(&sound[..length]);
            }
            nothing(&[&sound[..], &[0]].concat());
            nothing(&[&sound[..], &sound].concat());
        }
    }
    for at in [34, 35] {
        for mut reserved in both(m2()) {
            let at = moved(&reserved, at);
            (reserved[16], reserved[at]) = (0, 1);
            nothing(&reserved);
        }
    }
}

/// Sound objects of other types, and with a wrong unit.
#[test]
fn objects_of_other_types() {
    for (kind, sizes) in SIZES.iter().skip(3) {
        for size in *sizes {
            let mut object = bare(*kind, *size);
            object.truncate(*size as usize);
            for mut object in both(object) {
                nothing(&object);
                object[16] = 0;
                nothing(&object);
            }
        }
    }
    nothing(&frame_object(64));
    nothing(&foreign(16, 16));
}

#[test]
fn lines_at_positions() {
    let message = raw(&Record::CanMessage(plain(0x64, 0x80, 3)));
    let log = joined(&[m2(), frame_object(125), message, foreign(16, 16)]);
    let mut out = [UNTOUCHED; 64];
    let mut at = |log: &[u8], position: usize, room: usize| {
        let answer = line_at(log, position, &mut out[..room]);
        (answer, answer.position_after(position))
    };
    let line = |used, next| (LineAt::Line { used, next }, next);
    let no = |number, place, position| {
        let refusal = Refusal::new(number, place);
        (LineAt::Refused(refusal), position)
    };
    assert_eq!(at(&log, 0, 64), line(29, 36));
    assert_eq!(at(&log, 36, 0), line(0, 162));
    assert_eq!(at(&log, 162, 25), line(25, 210));
    assert_eq!(at(&log, 162, 24), no(10, 0, 162));
    assert_eq!(at(&log, 210, 0), line(0, 226));
    assert_eq!(at(&log, 226, 0), (LineAt::Done, 226));
    assert_eq!(at(&log, 227, 64), no(1, 227, 227));
    assert_eq!(at(&log, usize::MAX, 64), no(1, usize::MAX, usize::MAX));
    assert_eq!(at(&log, 4, 64), no(2, 4, 4));
    let mut damaged = log.clone();
    damaged[162 + 16] = 0;
    assert_eq!(at(&damaged, 162, 0), no(7, 178, 162));
    damaged[34] = 1;
    assert_eq!(at(&damaged, 0, 0), no(8, 34, 0));
    damaged[161] = 1;
    assert_eq!(at(&damaged, 36, 64), no(6, 161, 36));
    assert_eq!(at(&log[..100], 36, 64), no(5, 100, 36));
    // The second line over the first, which goes on behind it.
    assert_eq!(&out[..29], b"1.000000000 2 64 Rx r 3\r\nme\r\n");
    assert!(out[29..].iter().all(|b| *b == UNTOUCHED));
}

#[test]
fn what_lines_tell() {
    let told = read_text("0.001000000 1 OverloadFrame\r\n").unwrap();
    let mut expected = [0; 24];
    expected[..4].copy_from_slice(&[3, 0, 1_000_000, 1]);
    assert_eq!(told.numbers(), expected);

    let told = read_text("12.000000345 65535 54C5638x Tx d 3 00 AF 10\r\n").unwrap();
    let mut expected = [0; 24];
    expected[..9].copy_from_slice(&[1, 12, 345, 65_535, 0x54C_5638, 1, 1, 0, 3]);
    expected[9..12].copy_from_slice(&[0, 0xAF, 0x10]);
    assert_eq!(told.numbers(), expected);

    let told = read_text("0.000000000 0 0 Rx r 255\r\n").unwrap();
    let mut expected = [0; 24];
    (expected[0], expected[7], expected[8]) = (1, 1, 255);
    assert_eq!(told.numbers(), expected);

    let text = "1.5 7 Statistic: D 1 R 2 XD 3 XR 4 E 5 O 6 B 1.05%\r\n";
    let told = read_text(&text.replace("1.5 ", "1.500000000 ")).unwrap();
    let mut expected = [0; 24];
    expected[..4].copy_from_slice(&[4, 1, 500_000_000, 7]);
    expected[17..].copy_from_slice(&[105, 1, 3, 2, 4, 5, 6]);
    assert_eq!(told.numbers(), expected);
    assert_eq!(read_text(text), None);
}

/// What is no time that one of the units can write.
const NO_TIMES: [&str; 25] = [
    "18446744073.709551616",
    "18446744073.709555000",
    "18446744073.709559999",
    "18446744074.000000001",
    "18446744074.000001000",
    "184467440737095.516150001",
    "184467440737095.516160000",
    "184467440737095.999990000",
    "184467440737096.000000000",
    "1844674407370955.000000000",
    "18446744073709551616.000000000",
    "18446744073709551617.000000001",
    "99999999999999999999999999999999.000000000",
    "00.000000000",
    "01.000000000",
    "0.00000000",
    "0.0000000000",
    "0.",
    ".000000000",
    "0",
    "",
    "-0.000000000",
    "+1.000000000",
    "1,000000000",
    " 1.000000000",
];

#[test]
fn times_read() {
    let reads = |time: &str| read_text(&format!("{time} 1 OverloadFrame\r\n"));
    for time in [
        "0.000000000",
        "18446744073.709551615",
        "18446744073.709560000",
        "18446744074.000000000",
        "18446744074.999990000",
        "184467440737095.516150000",
    ] {
        let told = reads(time).expect(time);
        assert_eq!(format!("{}.{:09}", told.seconds, told.nanoseconds), time);
    }
    for time in NO_TIMES {
        assert_eq!(reads(time), None, "{time}");
    }
}

#[test]
fn ends_of_lines() {
    let line = "0.001000000 1 OverloadFrame";
    let reads = |text: String| read_text(&text).is_some();
    assert!(reads(format!("{line}\r\n")));
    for end in [
        "", "\r", "\n", "\n\r", " \r\n", "\r\n ", "\r\n\r\n", "\r\r\n", "\r\n\n", "\r\n\0",
    ] {
        assert!(!reads(format!("{line}{end}")), "{end:?}");
    }
    assert!(!reads(String::new()));
    assert!(!reads("\r\n".to_string()));
    assert!(!reads(format!("{line}\r\n{line}\r\n")));
    assert!(!reads(format!("\r\n{line}\r\n")));
}

/// What is read behind time and channel.
const READ: [&str; 8] = [
    "0 Rx d 0",
    "0x Rx d 0",
    "7FFFFFFF Tx r 8",
    "7FFFFFFFx Rx d 1 FF",
    "ABC Rx d 9 00 00 00 00 00 00 00 00",
    "ABC Rx d 255 00 00 00 00 00 00 00 00",
    "Statistic: D 0 R 0 XD 0 XR 0 E 0 O 0 B 655.35%",
    "Statistic: D 4294967295 R 0 XD 0 XR 0 E 0 O 4294967295 B 0.00%",
];

/// What is not read behind time and channel.
const NOT_READ: [&str; 48] = [
    "00 Rx d 0",
    "01 Rx d 0",
    "80000000 Rx d 0",
    "FFFFFFFFx Rx d 0",
    "100000001 Rx d 0",
    "10000000000000001 Rx d 0",
    "abc Rx d 0",
    "0X Rx d 0",
    "0xx Rx d 0",
    "0 x Rx d 0",
    "x Rx d 0",
    " Rx d 0",
    "0 rx d 0",
    "0 TxRq d 0",
    "0 Rx D 0",
    "0 Rx d",
    "0 Rx d ",
    "0 Rx r",
    "0 Rx d 00",
    "0 Rx d 1",
    "0 Rx d 1 0",
    "0 Rx d 1 000",
    "0 Rx d 1 00 00",
    "0 Rx d 1  00",
    "0 Rx d 1 0a",
    "0 Rx d 0 00",
    "0 Rx d A 00 00 00 00 00 00 00 00",
    "0 Rx d 9 00 00 00 00 00 00 00 00 00",
    "0 Rx d 256 00 00 00 00 00 00 00 00",
    "0 Rx r 256",
    "0 Rx r 1 00",
    "0 Rx r 08",
    "OverloadFrame 1",
    "Overloadframe",
    "ErrorFrame",
    "Statistic: D 0 R 0 XD 0 XR 0 E 0 O 0 B 655.36%",
    "Statistic: D 0 R 0 XD 0 XR 0 E 0 O 0 B 656.00%",
    "Statistic: D 0 R 0 XD 0 XR 0 E 0 O 0 B 0.0%",
    "Statistic: D 0 R 0 XD 0 XR 0 E 0 O 0 B 0.000%",
    "Statistic: D 0 R 0 XD 0 XR 0 E 0 O 0 B 00.00%",
    "Statistic: D 0 R 0 XD 0 XR 0 E 0 O 0 B .00%",
    "Statistic: D 0 R 0 XD 0 XR 0 E 0 O 0 B 0.00 %",
    "Statistic: D 0 R 0 XD 0 XR 0 E 0 O 0 B 0.00",
    "Statistic: D 0 R 0 XD 0 XR 0 E 0 0 0 B 0.00%",
    "Statistic: D 0 XD 0 R 0 XR 0 E 0 O 0 B 0.00%",
    "Statistic: D 4294967296 R 0 XD 0 XR 0 E 0 O 0 B 0.00%",
    "Statistic: D 00 R 0 XD 0 XR 0 E 0 O 0 B 0.00%",
    "Statistic : D 0 R 0 XD 0 XR 0 E 0 O 0 B 0.00%",
];

#[test]
fn items_read() {
    let reads = |behind: &str| read_text(&format!("1.000000000 2 {behind}\r\n")).is_some();
    for behind in READ {
        assert!(reads(behind), "{behind}");
    }
    for behind in NOT_READ {
        assert!(!reads(behind), "{behind}");
    }
    for channel in ["65536", "01", "", "-1", "A", "18446744073709551617"] {
        let text = format!("1.000000000 {channel} OverloadFrame\r\n");
        assert_eq!(read_text(&text), None, "{text}");
    }
}

/// A record's line tells what the record holds of it.
#[test]
fn there_and_back() {
    let mut rng = Rng(201);
    for turn in 0..30_000 {
        let kind = [1, 3, 4][turn % 3];
        let record = any_record(&mut rng, kind);
        let line = line_of(&record);
        let told = read_line(&line).unwrap();
        assert_eq!(told.kind(), kind);
        match (record, record_of(&told)) {
            (Record::CanMessage(a), Record::CanMessage(b)) => {
                let count = match a.front.flags & 0x80 {
                    0 => usize::from(a.front.dlc.min(8)),
                    _ => 0,
                };
                let flags = a.front.flags & 0x81;
                assert_eq!(CanFront { flags, ..a.front }, b.front);
                assert_eq!(a.data[..count], b.data[..count]);
                assert_eq!(b.data[count..], [0; 8][count..]);
                assert_eq!(nanoseconds(&a.head), nanoseconds(&b.head));
            }
            (Record::CanOverload(a), Record::CanOverload(b)) => {
                assert_eq!(a.channel, b.channel);
                assert_eq!(nanoseconds(&a.head), nanoseconds(&b.head));
            }
            (Record::CanStatistic(a), Record::CanStatistic(b)) => {
                assert_eq!(nanoseconds(&a.head), nanoseconds(&b.head));
                assert_eq!(a, CanStatistic { head: a.head, ..b });
            }
            _ => panic!("another type"),
        }
    }
}

fn nanoseconds(head: &Head) -> u128 {
    u128::from(head.time) * if head.unit == 1 { 10_000 } else { 1 }
}

/// Every byte of a line changed to every other, taken out, and put in.
#[test]
fn one_byte_off() {
    let mut rng = Rng(202);
    let (mut sound, mut no) = (0, 0);
    for turn in 0..60 {
        let line = line_of(&any_record(&mut rng, [1, 3, 4][turn % 3]));
        assert!(strict(&line));
        let mut count = |text: &[u8]| match strict(text) {
            true => sound += 1,
            false => no += 1,
        };
        for at in 0..line.len() {
            assert!(!strict(&line[..at]));
            count(&[&line[..at], &line[at + 1..]].concat());
            let mut text = line.clone();
            for value in (0..=255).filter(|value| *value != line[at]) {
                text[at] = value;
                count(&text);
            }
        }
        for at in 0..=line.len() {
            for value in *b"019AFfx .\r\n" {
                count(&[&line[..at], &[value], &line[at..]].concat());
            }
        }
    }
    // Both happen, and often.
    assert!(sound > 1_000 && no > 100_000, "{sound} {no}");
}

/// What one of the shared cases expects of a text, as numbers.
fn expected_numbers(words: &[&str]) -> [u64; 24] {
    let mut numbers = [0; 24];
    let mut put = |at: usize, words: &[&str]| {
        for (number, word) in numbers[at..].iter_mut().zip(words) {
            *number = word.parse().unwrap();
        }
    };
    put(0, &words[..4]);
    match words[0] {
        "1" => {
            put(4, &words[4..9]);
            let data = if words[9] == "-" { "" } else { words[9] };
            for (at, byte) in hex(data).iter().enumerate() {
                put(9 + at, &[&byte.to_string()]);
            }
        }
        "4" => put(17, &words[4..]),
        _ => assert_eq!(words.len(), 4),
    }
    numbers
}

/// The refusal that a shared case expects; none where it expects an answer.
fn expected_refusal(words: &[&str]) -> Option<Refusal> {
    match words {
        ["refused", number, "at", place] => {
            let (number, place) = (number.parse().unwrap(), place.parse().unwrap());
            Some(Refusal::new(number, place))
        }
        _ => None,
    }
}

fn shared_line(object: &[u8], room: usize, answer: &[&str]) {
    let mut out = vec![UNTOUCHED; room];
    let ours = object_line(object, &mut out);
    let line = match expected_refusal(answer) {
        Some(refusal) => {
            assert_eq!(ours, Err(refusal));
            Vec::new()
        }
        None => {
            let line = hex(answer[1].trim_start_matches('-'));
            assert_eq!(ours, Ok(line.len()));
            line
        }
    };
    assert_eq!(out[..line.len()], line);
    assert!(out[line.len()..].iter().all(|b| *b == UNTOUCHED));
}

fn shared_text(text: &[u8], answer: &[&str]) {
    let ours = read_line(text).map(|told| told.numbers());
    let theirs = match expected_refusal(answer) {
        Some(refusal) => Err(refusal),
        None => Ok(expected_numbers(answer)),
    };
    assert_eq!(ours, theirs);
    strict(text);
}

/// The answers of another reading of the papers.
#[test]
fn shared_cases() {
    let (mut lines, mut texts) = (0, 0);
    for case in include_str!("cases/W-201.txt").lines() {
        println!("{case}");
        let words: Vec<&str> = case.split_whitespace().collect();
        match words[..] {
            ["line", object, room, "=", ref answer @ ..] => {
                shared_line(&hex(object), room.parse().unwrap(), answer);
                lines += 1;
            }
            ["text", text, "=", ref answer @ ..] => {
                shared_text(&hex(text.trim_start_matches('-')), answer);
                texts += 1;
            }
            _ => assert!(case.starts_with('#')),
        }
    }
    assert_eq!((lines, texts), (110, 160));
}
