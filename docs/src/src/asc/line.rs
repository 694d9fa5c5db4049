//! A line put together on the stack, from its end to its start: so digits come
//! in the order in which division gives them, and none has to be counted.

use crate::layout::{number, Refusal};

/// More than the longest line, which has 134 bytes; and so many that every u8
/// is an index.
const ROOM: usize = 256;

/// The digits of 0 to 99.
static PAIRS: [[u8; 2]; 100] = pairs();
const HEX: &[u8; 16] = b"0123456789ABCDEF";

const fn pairs() -> [[u8; 2]; 100] {
    let mut pairs = [[0; 2]; 100];
    let mut value = 0;
    while value < 100 {
        pairs[value] = [b'0' + value as u8 / 10, b'0' + value as u8 % 10];
        value += 1;
    }
    pairs
}

/// The end of a line. Every call puts something before it.
pub(super) struct Line {
    room: [u8; ROOM],
    start: u8,
}

impl Line {
    /// CR LF.
    pub fn new() -> Line {
        let mut room = [0; ROOM];
        room[ROOM - 2..].copy_from_slice(b"\r\n");
        Line {
            room,
            start: (ROOM - 2) as u8,
        }
    }

    #[inline]
    pub fn byte(&mut self, byte: u8) {
        self.start -= 1;
        self.room[usize::from(self.start)] = byte;
    }

    #[inline]
    pub fn text<const N: usize>(&mut self, text: &[u8; N]) {
        self.start -= N as u8;
        let start = usize::from(self.start);
        self.room[start..start + N].copy_from_slice(text);
    }

    /// The two digits of a number below 100.
    #[inline]
    fn pair(&mut self, value: usize) {
        let [tens, ones] = PAIRS[value];
        self.byte(ones);
        self.byte(tens);
    }

    /// A number in decimal, without leading zeros.
    #[inline]
    pub fn decimal(&mut self, mut value: u64) {
        while value >= 100 {
            self.pair((value % 100) as usize);
            value /= 100;
        }
        if value >= 10 {
            self.pair(value as usize);
        } else {
            self.byte(b'0' + value as u8);
        }
    }

    /// A number in upper-case hex, without leading zeros.
    #[inline]
    pub fn hex(&mut self, mut value: u32) {
        loop {
            self.byte(HEX[(value & 15) as usize]);
            value >>= 4;
            if value == 0 {
                return;
            }
        }
    }

    /// Bytes as two digits of hex each, a space before each.
    #[inline]
    pub fn bytes(&mut self, bytes: &[u8]) {
        for byte in bytes.iter().rev() {
            self.byte(HEX[usize::from(byte & 15)]);
            self.byte(HEX[usize::from(byte >> 4)]);
            self.byte(b' ');
        }
    }

    /// 1/100 percent with two decimals and the sign.
    #[inline]
    pub fn percent(&mut self, load: u16) {
        self.byte(b'%');
        self.pair(usize::from(load % 100));
        self.byte(b'.');
        self.decimal(u64::from(load / 100));
    }

    /// The line's front, last of all: time, channel and a space behind each.
    #[inline]
    pub fn front(&mut self, (seconds, mut nanoseconds): (u64, u32), channel: u16) {
        self.byte(b' ');
        self.decimal(channel.into());
        self.byte(b' ');
        for _ in 0..4 {
            self.pair((nanoseconds % 100) as usize);
            nanoseconds /= 100;
        }
        self.byte(b'0' + nanoseconds as u8);
        self.byte(b'.');
        self.decimal(seconds);
    }

    /// The whole line to the front of a buffer; 10 where it is too short.
    #[inline]
    pub fn copy_to(&self, out: &mut [u8]) -> Result<usize, Refusal> {
        let line = &self.room[usize::from(self.start)..];
        match out.get_mut(..line.len()) {
            Some(front) => {
                front.copy_from_slice(line);
                Ok(line.len())
            }
            None => Err(Refusal::new(number::ROOM, 0)),
        }
    }
}
