//! Compares the proved library with this reader, case by case.
//!
//! `compare make SEED COUNT` writes the cases to standard output; the Rattle program `compare` answers them;
//! `compare judge SEED COUNT` makes the same cases again, reads the replies from standard input and compares. With
//! `--break NAME` behind it, `judge` answers wrongly in one point (`padding`, `offset`, `room`; `rule`: a step goes on
//! behind the padding that document 01 had; `place`: refusals are told at the object's start, as before W-205; `last`:
//! of two wrong bytes that are reserved, or padding, the last one is told), so that one sees it fail.
//!
//! A case: the question (1 byte), the lengths of log and bundle (u32), the position or the room (u64), the log, the
//! bundle. The questions: 1 the step at the position; 2 the walk; 3 the check of the bundle; 4 the log written again to
//! the room; 5 the record at the position, of the type that stands in place of the bundle (u32); 6 the bytes in place
//! of the log written to the room as the object that they are; 7 the same bytes offered as a foreign object.
//!
//! To 6, bytes of one of the thirteen types are the record that stands in them, with no test: under the second header
//! exactly where they say (40, 2), else under the first; of more bytes than the type has there only the front counts,
//! all of them for a frame; too few give the record of zeros, which 7 refuses. A LIN message always has a length of its
//! type there, since that says how it ends. Fewer than 16 bytes are offered as a foreign object.
//!
//! A reply: a word and four numbers, each a u64. The words: 1 an object (start, size, type, next position); 2 done; 3
//! refused (number, place); 4 a count; 5 the bytes used; 6 a record (where its numbers end, the length of its frame); 7
//! an object of another type. To 1 and 5 the last number is the next position. Behind the reply, to 4, 6 and 7: the
//! bytes of the room; to 5, for a record: each of its fields as a u64, each byte of its data too, counted from byte 40,
//! then the bytes of its frame. The first six are the header's: unit; which header it was, 1 or 2; client index, or the
//! second header's time stamp status; object version; time stamp; original time stamp, 0 under the first header. All
//! little-endian. Both sides write to one page that is never cleared, so that a byte that a call may not change shows.
//!
//! The judge also fails where something never came that must come: then COUNT is too small or the cases are. These are
//! the refusals 1 to 11 and 20 to 27 (28 asks for a log above 4 GiB and stays out); each of the thirteen types, read
//! and written under each header; what shows in which order the headers are tested: 4 where the size is wrong under
//! both headers, 3 where it is one of the other header's, 8 for byte 21 alone and with a wrong content, 7 with byte 21
//! set too, and 9 where a frame's length under the second header is the size minus 64; and of the records read, each of
//! the 64 bits of the time stamp, and under the second header of the original one, both set and clear.
//!
//! Of the padding must come: sizes that leave 0, 1, 2 and 3 over when divided by four, of objects of the thirteen types
//! and of foreign ones, within a log and last in it, and of frames and foreign objects that are written; starts that
//! leave 0 to 3 over where a step or a read begins at them, and 0 and 2 in a whole log that is walked, checked or
//! written again (from 0 on no start is odd); and what the padding that document 01 had is refused by, behind an object
//! of the thirteen types and behind a foreign one: two zero bytes too many by 2, or by 1 at the log's end, two too few
//! by 6, or by 5 at its end.
//!
//! Of the places (W-205) must come: each of 2 to 9 told of an object behind others, to each question that reads a log;
//! 2 for each of the four letters; 3 and 4 for each type and for foreign objects, 4 for header size, version, both, and
//! the size of one header with the other's version; 5 in the header, the rest of the object and the padding; 6 for each
//! byte of one, two and three bytes of padding, alone and with a later one wrong too; 7 for each type under each
//! header; 8 for each reserved byte of each type under each header, byte 21 among them, alone and with a later one
//! wrong too; 9 under each header for the structure length, alone and with the frame length wrong too, and for the
//! frame length, of each of the four types, for the data count above 254, above the byte count and above both, for the
//! exact rate, and for the valid bytes.
//!
//! Of types 86 and 100 (W-208) must come besides: 3 for the sizes with which they passed as foreign objects, 116 of
//! type 100 among them; 8 where the valid bytes are above 64 too; 9 for these on writing under each header; and 11 for
//! a copy of each type that would be a foreign object if its type were foreign.
mod can_fd;
pub mod cases;
mod coverage;
mod headers;
mod numbers;
mod padding;
mod places;
mod places_seen;
pub mod replies;

use cases::{Case, Cases, LIMIT};
use coverage::Seen;
use replies::{tell, Break, Reply, Told};
use std::io::{self, BufReader, BufWriter, Read, Write};
use std::process::exit;

/// Writes the cases.
pub fn make(seed: u64, count: usize, out: &mut impl Write) -> io::Result<()> {
    let mut cases = Cases::new(seed);
    for _ in 0..count {
        out.write_all(&cases.next_case().bytes())?;
    }
    out.flush()
}

/// The library's reply, and the bytes that it says stand behind it.
fn read_told(input: &mut impl Read, case: &Case) -> Option<Told> {
    let mut bytes = [0; 40];
    input.read_exact(&mut bytes).ok()?;
    let number = |i: usize| u64::from_le_bytes(bytes[8 * i..8 * i + 8].try_into().unwrap());
    let reply: Reply = std::array::from_fn(number);
    let length = match case.question {
        5 if reply[0] == 6 => reply[1].checked_sub(40)?.checked_add(reply[2])?,
        _ => case.room() as u64,
    };
    let mut behind = Vec::new();
    input.take(length).read_to_end(&mut behind).ok()?;
    (behind.len() as u64 == length).then_some(Told { reply, behind })
}

fn show(number: usize, case: &Case, ours: &Told, theirs: &Option<Told>) {
    let hex = |bytes: &[u8]| -> String { bytes.iter().map(|b| format!("{b:02x}")).collect() };
    println!("case {number}: {}", hex(&case.bytes()));
    println!("  docs/src:    {:?} {}", ours.reply, hex(&ours.behind));
    match theirs {
        Some(told) => println!("  the library: {:?} {}", told.reply, hex(&told.behind)),
        None => println!("  the library: no reply"),
    }
}

/// Compares the replies with this reader's own; are all the same, and did all come that must?
pub fn judge(seed: u64, count: usize, wrong: Break, input: &mut impl Read) -> bool {
    let mut cases = Cases::new(seed);
    let (mut passed, mut failed) = (0, 0);
    let mut page = vec![0; LIMIT];
    let mut seen = Seen::default();
    for number in 0..count {
        let case = cases.next_case();
        let ours = tell(&case, &mut page, wrong);
        seen.note(&case, &ours);
        let theirs = read_told(input, &case);
        if theirs.as_ref() == Some(&ours) {
            passed += 1;
        } else {
            failed += 1;
            if failed <= 3 {
                show(number, &case, &ours, &theirs);
            }
        }
    }
    // Nothing may follow the last reply.
    if input.read(&mut [0]).is_ok_and(|n| n > 0) {
        println!("more replies than cases");
        failed += 1;
    }
    seen.print();
    failed += seen.all_missing();
    println!("{passed} passed, {failed} failed");
    failed == 0
}

fn usage() -> ! {
    eprintln!(
        "usage: compare make SEED COUNT, \
         or compare judge SEED COUNT [--break padding|offset|room|rule|place|last]"
    );
    exit(2);
}

fn main() {
    let words: Vec<String> = std::env::args().skip(1).collect();
    let words: Vec<&str> = words.iter().map(String::as_str).collect();
    let (what, seed, count, wrong) = match words[..] {
        [what, seed, count] => (what, seed, count, Some(Break::Nothing)),
        [what, seed, count, "--break", name] => (what, seed, count, Break::named(name)),
        _ => usage(),
    };
    let (Ok(seed), Ok(count), Some(wrong)) = (seed.parse(), count.parse(), wrong) else {
        usage();
    };
    let good = match what {
        "make" => make(seed, count, &mut BufWriter::new(io::stdout().lock())).is_ok(),
        "judge" => judge(seed, count, wrong, &mut BufReader::new(io::stdin().lock())),
        _ => usage(),
    };
    exit(if good { 0 } else { 1 });
}
