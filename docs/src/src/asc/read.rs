//! The reader of a line: a parser that takes exactly what the writer can write,
//! item by item, and never looks back.

use super::{Event, Message, Statistic, Told, MOST_BYTES};
use crate::layout::{number, Refusal};

/// The last time that a stamp of nanoseconds (unit 2) can tell.
const LAST_NANOSECOND: (u64, u32) = (18_446_744_073, 709_551_615);
/// The last time that a stamp of ten microseconds (unit 1) can tell.
const LAST_STAMP: (u64, u32) = (184_467_440_737_095, 516_150_000);
/// Nanoseconds of one stamp of unit 1.
const TEN_MICROSECONDS: u32 = 10_000;

/// Reads one line with its CR LF and nothing behind it. Refuses with 30 what
/// is no such line.
pub fn read_line(text: &[u8]) -> Result<Told, Refusal> {
    whole(text).ok_or(Refusal::new(number::LINE, 0))
}

fn whole(text: &[u8]) -> Option<Told> {
    let mut text = Text(text);
    let (seconds, nanoseconds) = text.time()?;
    text.word(b" ")?;
    let channel = text.decimal(u16::MAX.into())? as u16;
    text.word(b" ")?;
    let event = text.event()?;
    text.word(b"\r\n")?;
    text.0.is_empty().then_some(Told {
        seconds,
        nanoseconds,
        channel,
        event,
    })
}

/// Can one of the units tell this time?
fn time_holds(time: (u64, u32)) -> bool {
    time <= LAST_NANOSECOND || (time <= LAST_STAMP && time.1.is_multiple_of(TEN_MICROSECONDS))
}

fn decimal_digit(byte: u8) -> Option<u8> {
    byte.is_ascii_digit().then(|| byte - b'0')
}

fn hex_digit(byte: u8) -> Option<u8> {
    match byte {
        b'0'..=b'9' => Some(byte - b'0'),
        b'A'..=b'F' => Some(byte - b'A' + 10),
        _ => None,
    }
}

/// What is still to be read. A call that finds its item steps behind it. One
/// that does not find it ends the reading; only `has` asks first.
struct Text<'a>(&'a [u8]);

impl Text<'_> {
    fn has(&mut self, word: &[u8]) -> bool {
        self.word(word).is_some()
    }

    fn word(&mut self, word: &[u8]) -> Option<()> {
        self.0 = self.0.strip_prefix(word)?;
        Some(())
    }

    /// The next byte's value, where it is such a digit.
    fn digit(&mut self, value: fn(u8) -> Option<u8>) -> Option<u8> {
        let (first, rest) = self.0.split_first()?;
        let value = value(*first)?;
        self.0 = rest;
        Some(value)
    }

    /// A number without leading zeros and not above `most`, which must leave
    /// room for one more digit in a u64. Behind a first 0 it ends; the item
    /// behind it is no digit, so a leading zero is found there.
    fn number(&mut self, base: u64, digit: fn(u8) -> Option<u8>, most: u64) -> Option<u64> {
        let mut value = u64::from(self.digit(digit)?);
        if value == 0 {
            return Some(0);
        }
        while let Some(next) = self.digit(digit) {
            value = value * base + u64::from(next);
            if value > most {
                return None;
            }
        }
        Some(value)
    }

    fn decimal(&mut self, most: u64) -> Option<u64> {
        self.number(10, decimal_digit, most)
    }

    /// Exactly so many decimal digits, nine at most.
    fn digits(&mut self, count: usize) -> Option<u32> {
        let mut value = 0;
        for _ in 0..count {
            value = value * 10 + u32::from(self.digit(decimal_digit)?);
        }
        Some(value)
    }

    fn time(&mut self) -> Option<(u64, u32)> {
        let seconds = self.decimal(LAST_STAMP.0)?;
        self.word(b".")?;
        let time = (seconds, self.digits(9)?);
        time_holds(time).then_some(time)
    }

    /// What stands behind the channel. An id starts neither with O nor with S.
    fn event(&mut self) -> Option<Event> {
        if self.has(b"OverloadFrame") {
            return Some(Event::Overload);
        }
        if self.has(b"Statistic:") {
            return self.statistic().map(Event::Statistic);
        }
        self.message().map(Event::Message)
    }

    fn counter(&mut self, name: &[u8]) -> Option<u32> {
        self.word(name)?;
        self.decimal(u32::MAX.into()).map(|value| value as u32)
    }

    fn statistic(&mut self) -> Option<Statistic> {
        let standard_data = self.counter(b" D ")?;
        let standard_remote = self.counter(b" R ")?;
        let extended_data = self.counter(b" XD ")?;
        let extended_remote = self.counter(b" XR ")?;
        let errors = self.counter(b" E ")?;
        let overloads = self.counter(b" O ")?;
        self.word(b" B ")?;
        let load = self.percent()?;
        Some(Statistic {
            load,
            counters: [
                standard_data,
                extended_data,
                standard_remote,
                extended_remote,
                errors,
                overloads,
            ],
        })
    }

    /// Percent with two decimals, in 1/100.
    fn percent(&mut self) -> Option<u16> {
        let whole = self.decimal(u64::from(u16::MAX / 100))? as u32;
        self.word(b".")?;
        let load = whole * 100 + self.digits(2)?;
        self.word(b"%")?;
        load.try_into().ok()
    }

    fn message(&mut self) -> Option<Message> {
        let id = self.number(16, hex_digit, 0x7FFF_FFFF)? as u32;
        let extended = self.has(b"x");
        let sent = self.has(b" Tx");
        if !sent {
            self.word(b" Rx")?;
        }
        let remote = self.has(b" r ");
        if !remote {
            self.word(b" d ")?;
        }
        let dlc = self.decimal(u8::MAX.into())? as u8;
        let mut data = [0; 8];
        if !remote {
            self.data(&mut data[..usize::from(dlc.min(MOST_BYTES))])?;
        }
        Some(Message {
            id,
            extended,
            sent,
            remote,
            dlc,
            data,
        })
    }

    /// Bytes of two hex digits, a space before each.
    fn data(&mut self, data: &mut [u8]) -> Option<()> {
        for byte in data {
            self.word(b" ")?;
            *byte = self.digit(hex_digit)? << 4 | self.digit(hex_digit)?;
        }
        Some(())
    }
}
