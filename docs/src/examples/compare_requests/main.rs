//! Compares the proved library with this crate on the requests of document 02, case by case.
//!
//! `compare_requests make SEED COUNT` writes the cases to standard output; the Rattle program
//! `compare_requests` answers them; `compare_requests judge SEED COUNT` makes the same cases again,
//! reads the replies from standard input and compares. With `--break NAME` behind it, `judge`
//! answers wrongly in one point (`counter`, `remote`, `time`, `place`, `scratch`, `seam`, `tray` or
//! `uneven`), so that one sees it fail.
//!
//! A case: the question (1 byte), the lengths of its first and second part (u32, u32), a number
//! (u64), the first part, the second part; a part has at most 4,096 bytes. A reply: a word and four
//! numbers, each a u64, and what stands behind it. All little-endian; what is not used is 0.
//!
//! The words: 2 done; 3 refused (number, place); 5 the bytes used; 6 told; an object (start, size
//! without padding, type): 7 in the first segment, 8 in the second, 9 copied; 10 the view's length;
//! 11 how many messages of a tray were written, and the number and place of the refusal, both 0 for
//! none. The last of the four numbers is the next position where the question has one, and after
//! done or a refusal the position that was handed in.
//!
//! W-201, ASC lines. The questions:
//!
//! 1. The line of an object: its bytes; the number is the room.
//! 2. The line at a position: the log; the number is the position; the second part is the room as
//!    a u32.
//! 3. A text read: the text.
//! 4. The line of a record: the bytes of an object, from which the record of the type in the second
//!    part (u32) is taken without any test, that of zeros where they are too few for header and
//!    body; the number is the room. The header is the second exactly where the bytes say (40, 2).
//!
//! Behind the reply to 1, 2 and 4 stand the bytes of the room; to 3, what the line tells as 24
//! numbers, each a u64, all 0 where it is refused. Both sides write lines to one page of 4,096
//! bytes, which is zero at first and never cleared, so that a byte that a call may not change
//! shows. A room of n bytes is the page's first n.
//!
//! W-205, places. The reply to 2 tells the place of 1 to 9 and, as the next position, the one that
//! was handed in; the others tell place 0.
//!
//! W-206, a ring in two segments. The questions:
//!
//! 5. A step over a ring: the first segment; the second part is the length of the scratch as a u32,
//!    then the second segment; the number is the position in the joined log.
//! 6. The view of the object at a position of a ring: the same, with 0 for the scratch's length.
//!
//! Behind the reply to 5 stand the bytes of the scratch, which is the front of the same page that
//! lines are written to; to 6, the view's bytes: as many as the reply tells, and never above 8,192.
//! A reply to 6 has no position.
//!
//! W-207, a tray of CAN messages. The question:
//!
//! 7. A tray written: the first part is 120 bytes, the second part is the data; the number is the
//!    room. In the first part stand
//!    - 0 the header, 1 or 2; 1 flags; 2 DLC; 3 how many ids, at most 8;
//!    - 4 unit u32; 8 client index u16, or status and a zero byte under the second header;
//!      10 object version u16; 12 channel u16; 14 how many time stamps, at most 8; 15 zero;
//!    - 16 original time stamp u64, 0 under the first header; 24 eight ids, u32 each; 56 eight time
//!      stamps, u64 each. Of the eight only as many as said are used; the others may be anything.
//!
//! Behind the reply to 7 stand the bytes of the room, which is the front of the same page too. The
//! reply has no position.
//!
//! The judge also fails where something never came that must come, by what the requests' files say
//! (`NEEDED`, `needed`), and where the sweeps were not asked to their end: then COUNT is too small
//! or the cases are.
mod asc;
mod asc_cases;
mod asc_texts;
pub mod cases;
pub mod replies;
mod ring;
mod ring_cases;
mod tray;
mod tray_cases;

use cases::{Case, Cases, LIMIT};
use replies::{read_told, tell, Break, Told};
use std::collections::BTreeMap;
use std::io::{self, BufReader, BufWriter, Read, Write};
use std::process::exit;

/// Writes the cases.
pub fn make(seed: u64, count: usize, out: &mut impl Write) -> io::Result<()> {
    let mut cases = Cases::new(seed);
    for _ in 0..count {
        out.write_all(&cases.next_case().bytes())?;
    }
    out.flush()
}

fn show(number: usize, case: &Case, ours: &Told, theirs: &Option<Told>) {
    let hex = |bytes: &[u8]| -> String { bytes.iter().map(|b| format!("{b:02x}")).collect() };
    println!("case {number}: {}", hex(&case.bytes()));
    println!("  docs/src:    {:?} {}", ours.reply, hex(&ours.behind));
    match theirs {
        Some(told) => println!("  the library: {:?} {}", told.reply, hex(&told.behind)),
        None => println!("  the library: no reply"),
    }
}

/// How often each thing came, by name.
#[derive(Default)]
struct Seen(BTreeMap<String, usize>);

impl Seen {
    fn note(&mut self, case: &Case, told: &Told) {
        let names = match case.question {
            1..=4 => asc::names(case, told),
            5 | 6 => ring::names(case, told),
            _ => tray::names(case, told),
        };
        for name in names {
            *self.0.entry(name).or_default() += 1;
        }
    }

    fn print(&self) {
        for (name, times) in &self.0 {
            println!("{name}: {times}");
        }
    }

    /// Prints and counts what never came and must come.
    fn missing(&self) -> usize {
        let needed = asc::NEEDED.iter().map(|name| name.to_string());
        let needed = needed.chain(ring::needed()).chain(tray::needed());
        let never = needed.filter(|name| !self.0.contains_key(name));
        never.inspect(|name| println!("never came: {name}")).count()
    }
}

/// Compares the replies with this crate's own; are all the same, and did all come that must?
pub fn judge(seed: u64, count: usize, wrong: Break, input: &mut impl Read) -> bool {
    let mut cases = Cases::new(seed);
    let (mut passed, mut failed) = (0, 0);
    let mut page = vec![0; LIMIT];
    let mut seen = Seen::default();
    for number in 0..count {
        let case = cases.next_case();
        let ours = tell(&case, &mut page, wrong);
        seen.note(&case, &ours);
        let theirs = read_told(input, &case);
        if theirs.as_ref() == Some(&ours) {
            passed += 1;
        } else {
            failed += 1;
            if failed <= 3 {
                show(number, &case, &ours, &theirs);
            }
        }
    }
    // Nothing may follow the last reply.
    if input.read(&mut [0]).is_ok_and(|n| n > 0) {
        println!("more replies than cases");
        failed += 1;
    }
    seen.print();
    failed += seen.missing();
    if cases.left() > 0 {
        println!("cases of sweeps left out: {}", cases.left());
        failed += 1;
    }
    println!("{passed} passed, {failed} failed");
    failed == 0
}

fn usage() -> ! {
    eprintln!(
        "usage: compare_requests make SEED COUNT, or compare_requests judge SEED COUNT \
         [--break counter|remote|time|place|scratch|seam|tray|uneven]"
    );
    exit(2);
}

fn main() {
    let words: Vec<String> = std::env::args().skip(1).collect();
    let words: Vec<&str> = words.iter().map(String::as_str).collect();
    let (what, seed, count, wrong) = match words[..] {
        [what, seed, count] => (what, seed, count, Some(Break::Nothing)),
        [what, seed, count, "--break", name] => (what, seed, count, Break::named(name)),
        _ => usage(),
    };
    let (Ok(seed), Ok(count), Some(wrong)) = (seed.parse(), count.parse(), wrong) else {
        usage();
    };
    let good = match what {
        "make" => make(seed, count, &mut BufWriter::new(io::stdout().lock())).is_ok(),
        "judge" => judge(seed, count, wrong, &mut BufReader::new(io::stdin().lock())),
        _ => usage(),
    };
    exit(if good { 0 } else { 1 });
}
