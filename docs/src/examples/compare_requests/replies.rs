//! Replies: this crate's own, and those that are read; and the faults that `--break` puts in.
use super::cases::{Case, LIMIT};
use super::{asc, ring, tray};
use mshelovat_reference::layout::Refusal;
use std::io::Read;

/// A word and four numbers.
pub type Reply = [u64; 5];

/// The words.
pub mod word {
    pub const DONE: u64 = 2;
    pub const REFUSED: u64 = 3;
    pub const USED: u64 = 5;
    pub const TOLD: u64 = 6;
    pub const FIRST: u64 = 7;
    pub const SECOND: u64 = 8;
    pub const COPIED: u64 = 9;
    pub const VIEW: u64 = 10;
    pub const TRAYED: u64 = 11;
}

/// A reply and the bytes behind it.
#[derive(PartialEq, Eq)]
pub struct Told {
    pub reply: Reply,
    pub behind: Vec<u8>,
}

impl Told {
    /// The reply as it is written.
    pub fn bytes(&self) -> Vec<u8> {
        let mut bytes: Vec<u8> = self.reply.iter().flat_map(|n| n.to_le_bytes()).collect();
        bytes.extend(&self.behind);
        bytes
    }
}

/// One place in which this crate answers wrongly.
#[derive(Clone, Copy, PartialEq, Eq)]
pub enum Break {
    Nothing,
    /// The line of a statistic has the counters of R and XD the wrong way round.
    Counter,
    /// The bytes of a message stand behind `r` too.
    Remote,
    /// The reader bounds only the seconds of a time.
    Time,
    /// What is refused at a position is told at that position, as before W-205.
    Place,
    /// An object that lies in both segments of a ring needs a scratch for its padding too.
    Scratch,
    /// An object that starts exactly where the second segment does is told as the first's.
    Seam,
    /// Each message of a tray is written at the front.
    Tray,
    /// 31 comes behind what the first message of the tray is refused by.
    Uneven,
}

impl Break {
    pub fn named(name: &str) -> Option<Break> {
        match name {
            "counter" => Some(Break::Counter),
            "remote" => Some(Break::Remote),
            "time" => Some(Break::Time),
            "place" => Some(Break::Place),
            "scratch" => Some(Break::Scratch),
            "seam" => Some(Break::Seam),
            "tray" => Some(Break::Tray),
            "uneven" => Some(Break::Uneven),
            _ => None,
        }
    }
}

/// The answer to a case. What is written goes to the page.
pub fn tell(case: &Case, page: &mut [u8], wrong: Break) -> Told {
    match case.question {
        1..=4 => asc::tell(case, page, wrong),
        5 | 6 => ring::tell(case, page, wrong),
        7 => tray::tell(case, page, wrong),
        other => panic!("there is no question {other}"),
    }
}

/// How many bytes stand behind a reply to a case. A view's length is told, but no more is believed
/// than two parts have.
fn length_behind(case: &Case, reply: &Reply) -> Option<usize> {
    match case.question {
        3 => Some(8 * asc::NUMBERS),
        6 => Some(reply[1] as usize).filter(|length| *length <= 2 * LIMIT),
        _ => Some(case.room()),
    }
}

/// The library's reply; none where it ends too early or tells too long a view.
pub fn read_told(input: &mut impl Read, case: &Case) -> Option<Told> {
    let mut bytes = [0; 40];
    input.read_exact(&mut bytes).ok()?;
    let number = |i: usize| u64::from_le_bytes(bytes[8 * i..8 * i + 8].try_into().unwrap());
    let reply = std::array::from_fn(number);
    let mut behind = vec![0; length_behind(case, &reply)?];
    input.read_exact(&mut behind).ok()?;
    Some(Told { reply, behind })
}

/// A refusal; `next` is 0 where the question has no position.
pub fn refused(refusal: Refusal, next: u64) -> Reply {
    let Refusal { number, place } = refusal;
    [word::REFUSED, number.into(), place as u64, 0, next]
}
