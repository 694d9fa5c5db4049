//! W-201: texts for question 3, which are lines or nearly so.
use super::asc_cases::any_line;
use mshelovat_reference::gen::Rng;

/// Bytes of which lines are made, and some that look like them.
const LETTERS: &[u8] = b"0123456789ABCDEFabcdefxXRTdrOS .:%\r\n\t\0-+";
/// Items that stand in a line in place of others.
#[rustfmt::skip]
const ITEMS: [&str; 48] = [
    "0", "1", "8", "9", "10", "15", "16", "99", "100", "255", "256", "257", "655", "656", "65535",
    "65536", "65537", "131073", "2147483647", "2147483648", "4294967295", "4294967296",
    "4294967297", "18446744073709551615", "18446744073709551616", "18446744073709551617",
    "340282366920938463463374607431768211457", "00", "01", "08", "-1", "+1", "", "7FF",
    "7FFFFFFF", "80000000", "FFFFFFFF", "100000000", "0x", "x", "7ff", "7FFFFFFFx", "Rx", "Tx",
    "TxRq", "d", "r", "OverloadFrame",
];
/// Seconds around the ends of both units, and where a reckoning in 64 bits comes round.
#[rustfmt::skip]
const SECONDS: [u128; 16] = [
    0, 1, 9, 10, 999_999_999, 18_446_744_072, 18_446_744_073, 18_446_744_074, 36_893_488_147,
    184_467_440_737_094, 184_467_440_737_095, 184_467_440_737_096, 999_999_999_999_999,
    1_844_674_407_370_955, 18_446_744_073_709_551_616, 18_446_744_073_709_551_617,
];
/// Nanoseconds around the ends of both units, and around ten microseconds.
#[rustfmt::skip]
const NANOSECONDS: [u32; 22] = [
    0, 1, 10, 100, 1_000, 2_000, 5_000, 9_999, 10_000, 10_001, 419_103_231, 516_140_000,
    516_150_000, 516_150_001, 516_160_000, 709_550_000, 709_551_615, 709_551_616, 709_555_000,
    709_560_000, 999_990_000, 999_999_999,
];

/// A line, or a text that comes near one.
pub fn any_text(rng: &mut Rng, turn: usize) -> Vec<u8> {
    let line = any_line(rng);
    match turn % 12 {
        0..=2 => line,
        3 => other_byte(rng, line),
        4 => {
            let once = other_byte(rng, line);
            other_byte(rng, once)
        }
        5 | 6 => other_item(rng, &line),
        7 => moved_items(rng, &line),
        8 | 9 => other_time(rng, &line),
        10 => other_end(rng, line),
        _ => {
            let length = rng.below(60);
            (0..length).map(|_| rng.pick(LETTERS)).collect()
        }
    }
}

/// A byte changed, put in or taken out.
fn other_byte(rng: &mut Rng, mut line: Vec<u8>) -> Vec<u8> {
    let at = rng.below(line.len());
    match rng.below(4) {
        0 => line[at] = rng.byte(),
        1 => line[at] = rng.pick(LETTERS),
        2 => line.insert(at, rng.pick(LETTERS)),
        _ => {
            line.remove(at);
        }
    }
    line
}

/// The items of a line without its end, which has two bytes.
fn items(line: &[u8]) -> Vec<Vec<u8>> {
    let front = &line[..line.len() - 2];
    front.split(|b| *b == b' ').map(<[u8]>::to_vec).collect()
}

fn joined(items: &[Vec<u8>]) -> Vec<u8> {
    [&items.join(&b' ')[..], b"\r\n"].concat()
}

/// One item of a line replaced by another that might stand there.
fn other_item(rng: &mut Rng, line: &[u8]) -> Vec<u8> {
    let mut items = items(line);
    let at = rng.below(items.len());
    items[at] = rng.pick(&ITEMS).as_bytes().to_vec();
    joined(&items)
}

/// An item twice, left out, or in another's place.
fn moved_items(rng: &mut Rng, line: &[u8]) -> Vec<u8> {
    let mut items = items(line);
    let (at, other) = (rng.below(items.len()), rng.below(items.len()));
    match rng.below(3) {
        0 => items.insert(other, items[at].clone()),
        1 => {
            items.remove(at);
        }
        _ => items.swap(at, other),
    }
    joined(&items)
}

/// A line at another time, which no unit might be able to tell.
fn other_time(rng: &mut Rng, line: &[u8]) -> Vec<u8> {
    let seconds = match rng.below(4) {
        0 => rng.number().into(),
        1 => rng.number() as u128 % 200_000_000_000_000,
        _ => rng.pick(&SECONDS),
    };
    let nanoseconds = match rng.below(3) {
        0 => rng.below(1_000_000_000) as u32,
        1 => rng.below(100_000) as u32 * 10_000,
        _ => rng.pick(&NANOSECONDS),
    };
    let mut items = items(line);
    items[0] = format!("{seconds}.{nanoseconds:09}").into_bytes();
    joined(&items)
}

/// A line with another end, or with more behind or before it.
fn other_end(rng: &mut Rng, mut line: Vec<u8>) -> Vec<u8> {
    let ends: [&[u8]; 10] = [
        b"",
        b"\r",
        b"\n",
        b"\n\r",
        b" \r\n",
        b"\r\n ",
        b"\r\n\r\n",
        b"\r\r\n",
        b"\r\n\0",
        b"\0\r\n",
    ];
    match rng.below(4) {
        0 => line.extend(any_line(rng)),
        1 => line.insert(0, rng.pick(b" \r\n\t0")),
        _ => {
            line.truncate(line.len() - 2);
            line.extend(rng.pick(&ends));
        }
    }
    line
}

/// Bytes that stand near this one: its neighbours, its other case, blank, CR and LF.
fn near(byte: u8) -> impl Iterator<Item = u8> {
    let near = [byte + 1, byte - 1, byte ^ 0x20, b' ', b'\r', b'\n'];
    near.into_iter().filter(move |other| *other != byte)
}

/// A line cut off at every length; each byte changed, to any other and to those near it; each byte
/// taken out; and one put in at every place.
pub fn sweep(rng: &mut Rng, line: &[u8]) -> Vec<Vec<u8>> {
    let mut texts = vec![line.to_vec()];
    for (at, byte) in line.iter().enumerate() {
        let (front, behind) = (&line[..at], &line[at + 1..]);
        texts.push(front.to_vec());
        texts.push([front, behind].concat());
        for other in near(*byte).chain([byte ^ rng.nonzero()]) {
            texts.push([front, &[other], behind].concat());
        }
    }
    for at in 0..=line.len() {
        let (front, behind) = line.split_at(at);
        for more in [rng.pick(b"0123456789"), rng.pick(LETTERS)] {
            texts.push([front, &[more], behind].concat());
        }
    }
    texts
}

/// Every second beside every fraction; and the edges of every other item.
pub fn edges() -> Vec<Vec<u8>> {
    let mut texts = Vec::new();
    for seconds in SECONDS {
        for nanoseconds in NANOSECONDS {
            texts.push(format!("{seconds}.{nanoseconds:09} 1 OverloadFrame\r\n"));
        }
    }
    for item in ITEMS {
        texts.push(format!("1.000000000 {item} OverloadFrame\r\n"));
        texts.push(format!("1.000000000 1 {item} Rx r 8\r\n"));
        texts.push(format!("1.000000000 1 {item}x Tx d 1 0A\r\n"));
        texts.push(format!("1.000000000 1 0 Rx r {item}\r\n"));
        texts.push(format!(
            "1.000000000 1 0 Rx d {item}{}\r\n",
            " 5A".repeat(8)
        ));
        texts.push(format!(
            "1.000000000 1 {}%\r\n",
            with_load(&format!("{item}.35"))
        ));
        for at in 0..6 {
            texts.push(format!("1.000000000 1 {}0.05%\r\n", with_counter(at, item)));
        }
    }
    for fraction in ["34", "35", "36", "3", "350", "", "99", "00"] {
        texts.push(format!(
            "1.000000000 1 {}%\r\n",
            with_load(&format!("655.{fraction}"))
        ));
    }
    texts.into_iter().map(String::into_bytes).collect()
}

/// A statistic's line behind the channel, up to the load, with one of the counters.
fn with_counter(at: usize, counter: &str) -> String {
    let names = ["D", "R", "XD", "XR", "E", "O"];
    let mut line = "Statistic: ".to_string();
    for (number, name) in names.iter().enumerate() {
        let value = if number == at { counter } else { "7" };
        line += &format!("{name} {value} ");
    }
    line + "B "
}

fn with_load(load: &str) -> String {
    with_counter(0, "1000") + load
}
