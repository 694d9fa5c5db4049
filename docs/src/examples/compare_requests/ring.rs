//! W-206: this crate's answers to questions 5 and 6, and what must come among them.
use super::cases::Case;
use super::replies::{refused, word, Break, Reply, Told};
use mshelovat_reference::gen::LISTED;
use mshelovat_reference::header::{header_length, Header, SHORT_HEADER};
use mshelovat_reference::layout::{number, occupied, row, u32_at, Refusal, LONGEST_OBJECT};
use mshelovat_reference::object::{self, Object};
use mshelovat_reference::ring::{self, Answer};
use std::cmp::Ordering;

/// The answer to a case.
pub fn tell(case: &Case, page: &mut [u8], wrong: Break) -> Told {
    let position = case.number as usize;
    if case.question == 6 {
        let (first, second) = case.segments();
        let view = ring::view(first, second, position);
        return Told {
            reply: [word::VIEW, view.len() as u64, 0, 0, 0],
            behind: view.to_vec(),
        };
    }
    let scratch = &mut page[..case.room()];
    let answer = step(case, scratch, wrong);
    Told {
        reply: reply(&answer, position),
        behind: scratch.to_vec(),
    }
}

fn step(case: &Case, scratch: &mut [u8], wrong: Break) -> Answer {
    let (first, second) = case.segments();
    let before = scratch.to_vec();
    let answer = ring::step(first, second, case.number as usize, scratch);
    match answer {
        Answer::Copied(object)
            if wrong == Break::Scratch && occupied(object.size) > scratch.len() as u64 =>
        {
            scratch.copy_from_slice(&before);
            Answer::Refused(Refusal::new(number::SCRATCH, object.start))
        }
        Answer::Second(object) if wrong == Break::Seam && object.start == first.len() => {
            Answer::First(object)
        }
        right => right,
    }
}

fn reply(answer: &Answer, position: usize) -> Reply {
    let next = answer.position_after(position) as u64;
    let told = |word, o: &Object| [word, o.start as u64, o.size.into(), o.kind.into(), next];
    match answer {
        Answer::First(object) => told(word::FIRST, object),
        Answer::Second(object) => told(word::SECOND, object),
        Answer::Copied(object) => told(word::COPIED, object),
        Answer::Done => [word::DONE, 0, 0, 0, next],
        Answer::Refused(refusal) => refused(*refusal, next),
    }
}

/// What must come besides what is told of each type and by each number.
#[rustfmt::skip]
const NEEDED: [&str; 27] = [
    "5: first", "5: first, up to the seam", "5: first, padding in the second",
    "5: first, padding in both", "5: second", "5: second, from the seam",
    "5: copied", "5: copied, seam in the head", "5: copied, seam in the header",
    "5: copied, seam in the body", "5: copied, scratch exactly the size",
    "5: copied, scratch with no room for the padding", "5: copied foreign",
    "5: copied foreign, longer than any listed", "5: refused 12, foreign",
    "5: refused 12, scratch one short", "5: refused 12, no scratch",
    "5: refused 6, padding in the second", "5: refused 6, padding in both",
    "5: done", "5: empty first", "5: empty second",
    "6: view of the first", "6: view of the second", "6: empty, in both", "6: empty, done",
    "6: empty, refused",
];

/// All that must come.
pub fn needed() -> Vec<String> {
    let mut needed: Vec<String> = NEEDED.iter().map(|name| name.to_string()).collect();
    for number in [1, 2, 3, 4, 5, 6, 7, 8, 9, 12] {
        needed.push(format!("5: refused {number}"));
    }
    for number in 2..=9 {
        needed.push(format!("5: refused {number}, in both"));
    }
    for number in 2..=6 {
        needed.push(format!("5: refused {number} before 12"));
    }
    for number in 7..=9 {
        needed.push(format!("5: refused 12 before {number}"));
    }
    for number in [3, 4, 7, 8, 9] {
        needed.push(format!("5: refused {number}, told before the seam"));
        needed.push(format!("5: refused {number}, told behind the seam"));
    }
    for kind in LISTED {
        for header in ["first", "second"] {
            needed.push(format!("5: copied type {kind}, {header} header"));
            needed.push(format!("5: refused 12, type {kind}, {header} header"));
        }
    }
    needed
}

/// A case of questions 5 and 6, looked at as a joined log.
struct Asked {
    log: Vec<u8>,
    /// The first segment's length.
    seam: usize,
    position: usize,
    scratch: usize,
}

impl Asked {
    fn new(case: &Case) -> Asked {
        let (first, second) = case.segments();
        Asked {
            log: [first, second].concat(),
            seam: first.len(),
            position: case.number as usize,
            scratch: case.room(),
        }
    }

    /// The bytes from the position on.
    fn tail(&self) -> &[u8] {
        self.log.get(self.position..).unwrap_or(&[])
    }

    /// The size that the object tells; none where too few bytes are there.
    fn size(&self) -> Option<usize> {
        let tail = self.tail();
        (tail.len() >= SHORT_HEADER).then(|| u32_at(tail, 8) as usize)
    }

    /// Does the object lie in both segments, by the size that it tells? Its head always counts.
    fn in_both(&self) -> bool {
        let end = |size: usize| (self.position + size.max(SHORT_HEADER)).min(self.log.len());
        let before = self.position < self.seam;
        before && self.size().is_some_and(|size| self.seam < end(size))
    }

    /// Where the padding lies of an object that lies in the first segment, unless it does too.
    fn padding(&self) -> Option<&str> {
        let size = self.size()?;
        let next = self.position + occupied(size as u32) as usize;
        match (self.position + size).cmp(&self.seam) {
            Ordering::Equal if self.seam < next => Some("padding in the second"),
            Ordering::Less if self.seam < next => Some("padding in both"),
            _ => None,
        }
    }

    /// Its type and header, or that it is foreign.
    fn kind(&self) -> String {
        let kind = u32_at(self.tail(), 12);
        match Header::of(self.tail()) {
            _ if row(kind).is_none() => "foreign".to_string(),
            Header::First => format!("type {kind}, first header"),
            Header::Second => format!("type {kind}, second header"),
        }
    }
}

/// What came, by name.
pub fn names(case: &Case, told: &Told) -> Vec<String> {
    let asked = Asked::new(case);
    let mut names = match (case.question, told.reply[0]) {
        (6, _) => vec![view_name(&asked, told)],
        (_, word::FIRST) => first_names(&asked, &told.reply),
        (_, word::SECOND) => second_names(&asked),
        (_, word::COPIED) => copied_names(&asked),
        (_, word::DONE) => vec!["done".to_string()],
        _ => refused_names(&asked, &told.reply),
    };
    let (first, second) = case.segments();
    add(&mut names, first.is_empty(), "empty first");
    add(&mut names, second.is_empty(), "empty second");
    let question = case.question;
    names
        .iter()
        .map(|name| format!("{question}: {name}"))
        .collect()
}

/// Adds a name where it is due.
fn add(names: &mut Vec<String>, due: bool, name: &str) {
    if due {
        names.push(name.to_string());
    }
}

fn view_name(asked: &Asked, told: &Told) -> String {
    let name = match object::step(&asked.log, asked.position) {
        object::Answer::Done => "empty, done",
        object::Answer::Refused(_) => "empty, refused",
        object::Answer::Object(_) if told.behind.is_empty() => "empty, in both",
        object::Answer::Object(o) if o.start < asked.seam => "view of the first",
        object::Answer::Object(_) => "view of the second",
    };
    name.to_string()
}

fn first_names(asked: &Asked, reply: &Reply) -> Vec<String> {
    let [_, start, size, ..] = reply.map(|number| number as usize);
    let mut names = vec!["first".to_string()];
    let up_to = start + size == asked.seam;
    add(&mut names, up_to, "first, up to the seam");
    names.extend(asked.padding().map(|lies| format!("first, {lies}")));
    names
}

fn second_names(asked: &Asked) -> Vec<String> {
    let mut names = vec!["second".to_string()];
    let from = asked.position == asked.seam && asked.seam > 0;
    add(&mut names, from, "second, from the seam");
    names
}

fn copied_names(asked: &Asked) -> Vec<String> {
    let size = asked.size().expect("an object");
    let header = match asked.seam - asked.position {
        1..=15 => "head",
        n if n < header_length(asked.tail()) => "header",
        _ => "body",
    };
    let mut names = vec!["copied".to_string(), format!("copied {}", asked.kind())];
    names.push(format!("copied, seam in the {header}"));
    let exact = asked.scratch == size;
    add(&mut names, exact, "copied, scratch exactly the size");
    let short = (asked.scratch as u64) < occupied(size as u32);
    let name = "copied, scratch with no room for the padding";
    add(&mut names, short, name);
    let long = asked.kind() == "foreign" && size > LONGEST_OBJECT;
    add(&mut names, long, "copied foreign, longer than any listed");
    names
}

fn refused_names(asked: &Asked, reply: &Reply) -> Vec<String> {
    let [_, number, place, ..] = *reply;
    let mut names = vec![format!("refused {number}")];
    if number == number::PADDING.into() {
        names.extend(asked.padding().map(|lies| format!("refused 6, {lies}")));
    }
    if !asked.in_both() {
        return names;
    }
    if number == number::SCRATCH.into() {
        names.extend(scratch_names(asked));
        return names;
    }
    let before = (place as usize) < asked.seam;
    let side = if before { "before" } else { "behind" };
    names.push(format!("refused {number}, in both"));
    names.push(format!("refused {number}, told {side} the seam"));
    let short = number < 7 && asked.size().is_some_and(|size| asked.scratch < size);
    add(&mut names, short, &format!("refused {number} before 12"));
    names
}

fn scratch_names(asked: &Asked) -> Vec<String> {
    let mut names = vec![format!("refused 12, {}", asked.kind())];
    let one = asked.size() == Some(asked.scratch + 1);
    add(&mut names, one, "refused 12, scratch one short");
    add(&mut names, asked.scratch == 0, "refused 12, no scratch");
    if let object::Answer::Refused(other) = object::step(&asked.log, asked.position) {
        names.push(format!("refused 12 before {}", other.number));
    }
    names
}
