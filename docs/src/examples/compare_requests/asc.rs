//! W-201: this crate's answers to questions 1 to 4, and what must come among them.
use super::asc_cases::KINDS;
use super::cases::Case;
use super::replies::{refused, word, Break, Reply, Told};
use mshelovat_reference::asc::{self, LineAt};
use mshelovat_reference::header::{header_length, Header, STATUS_GAP};
use mshelovat_reference::layout::{u32_at, Refusal};
use mshelovat_reference::object::{step, Answer};
use mshelovat_reference::records::{record_in, Record};

/// How many numbers stand behind the reply to question 3.
pub const NUMBERS: usize = 24;

/// The answer to a case.
pub fn tell(case: &Case, page: &mut [u8], wrong: Break) -> Told {
    if case.question == 3 {
        return read_told(&case.first, wrong);
    }
    let room = &mut page[..case.room()];
    let reply = match case.question {
        1 => used_reply(asc::object_line(&case.first, room)),
        2 => at_reply(case, room, wrong),
        _ => used_reply(record_line(case, room, wrong)),
    };
    Told {
        reply,
        behind: room.to_vec(),
    }
}

fn used_reply(answer: Result<usize, Refusal>) -> Reply {
    match answer {
        Ok(used) => [word::USED, used as u64, 0, 0, 0],
        Err(refusal) => refused(refusal, 0),
    }
}

fn at_reply(case: &Case, room: &mut [u8], wrong: Break) -> Reply {
    let position = case.number as usize;
    let answer = asc::line_at(&case.first, position, room);
    let next = answer.position_after(position) as u64;
    match answer {
        LineAt::Line { used, .. } => [word::USED, used as u64, 0, 0, next],
        LineAt::Done => [word::DONE, 0, 0, 0, next],
        LineAt::Refused(mut refusal) => {
            if wrong == Break::Place && refusal.number <= 9 {
                refusal.place = position;
            }
            refused(refusal, next)
        }
    }
}

fn record_line(case: &Case, room: &mut [u8], wrong: Break) -> Result<usize, Refusal> {
    match record_in(case.second_number(), &case.first) {
        Record::CanMessage(mut r) if wrong == Break::Remote && r.front.flags & 0x80 != 0 => {
            r.front.flags &= 0x7F;
            let used = asc::message_line(&r, room)?;
            let line = &mut room[..used];
            let at = line.windows(3).position(|three| three == b" d ");
            line[at.expect("a message's line") + 1] = b'r';
            Ok(used)
        }
        Record::CanMessage(r) => asc::message_line(&r, room),
        Record::CanOverload(r) => asc::overload_line(&r, room),
        Record::CanStatistic(mut r) => {
            if wrong == Break::Counter {
                (r.extended_data, r.standard_remote) = (r.standard_remote, r.extended_data);
            }
            asc::statistic_line(&r, room)
        }
        _ => panic!("type {} has no line", case.second_number()),
    }
}

fn read_told(text: &[u8], wrong: Break) -> Told {
    let read = match wrong {
        Break::Time => any_fraction(text),
        _ => asc::read_line(text),
    };
    let (reply, numbers) = match read {
        Ok(told) => ([word::TOLD, 0, 0, 0, 0], told.numbers()),
        Err(refusal) => (refused(refusal, 0), [0; NUMBERS]),
    };
    Told {
        reply,
        behind: numbers.iter().flat_map(|n| n.to_le_bytes()).collect(),
    }
}

/// Reads a line as if its time had no fraction, and then puts that in its place.
fn any_fraction(text: &[u8]) -> Result<asc::Told, Refusal> {
    let mut whole = text.to_vec();
    let point = text.iter().position(|b| *b == b'.').unwrap_or(0);
    let Some(digits) = whole.get_mut(point + 1..point + 10) else {
        return asc::read_line(text);
    };
    let fraction = String::from_utf8_lossy(digits).into_owned();
    if !digits.iter().all(u8::is_ascii_digit) {
        return asc::read_line(text);
    }
    digits.fill(b'0');
    let mut told = asc::read_line(&whole)?;
    told.nanoseconds = fraction.parse().expect("nine digits");
    Ok(told)
}

/// What must come.
#[rustfmt::skip]
pub const NEEDED: [&str; 61] = [
    "1: line of type 1, first header", "1: line of type 1, second header",
    "1: line of type 3, first header", "1: line of type 3, second header",
    "1: line of type 4, first header", "1: line of type 4, second header",
    "1: 0 bytes, another type", "1: 0 bytes, no object", "1: 0 bytes, byte 21",
    "1: 0 bytes, sound type 86", "1: 0 bytes, sound type 100",
    "1: refused 7", "1: refused 10",
    "2: line of type 1, first header", "2: line of type 1, second header",
    "2: line of type 3, first header", "2: line of type 3, second header",
    "2: line of type 4, first header", "2: line of type 4, second header",
    "2: 0 bytes", "2: 0 bytes, sound type 86", "2: 0 bytes, sound type 100", "2: done",
    "2: refused 1", "2: refused 2", "2: refused 3", "2: refused 4", "2: refused 5",
    "2: refused 7", "2: refused 8", "2: refused 8, byte 21", "2: refused 10",
    "2: refused 2 behind others", "2: refused 3 behind others", "2: refused 4 behind others",
    "2: refused 5 behind others", "2: refused 6 behind others", "2: refused 7 behind others",
    "2: refused 8 behind others", "2: refused 9 behind others",
    "2: refused 8, first of an overload's two", "2: refused 8, second of an overload's two",
    "2: refused 8, both of an overload's two", "2: refused 8, byte 21 and one of an overload's two",
    "3: told type 1", "3: told type 3", "3: told type 4",
    "3: told a time that only unit 1 can write", "3: refused 30",
    "4: line of type 1, first header", "4: line of type 1, second header",
    "4: line of type 3, first header", "4: line of type 3, second header",
    "4: line of type 4, first header", "4: line of type 4, second header",
    "4: refused 7, type 1", "4: refused 7, type 3", "4: refused 7, type 4",
    "4: refused 10, type 1", "4: refused 10, type 3", "4: refused 10, type 4",
];

/// What came, by name.
pub fn names(case: &Case, told: &Told) -> Vec<String> {
    let [came, number, ..] = told.reply;
    let name = match (case.question, came) {
        (4, word::REFUSED) => format!("refused {number}, type {}", case.second_number()),
        (_, word::REFUSED) => format!("refused {number}"),
        (_, word::DONE) => "done".to_string(),
        (_, word::TOLD) => format!("told type {}", told.behind[0]),
        (_, _) if number > 0 => line_name(case),
        (1, _) if is_object(&case.first) => "0 bytes, another type".to_string(),
        (1, _) => "0 bytes, no object".to_string(),
        (_, _) => "0 bytes".to_string(),
    };
    let others = [
        shown(case, told),
        can_2_or_fd(case, told),
        behind_others(case, told),
        overload(case, told),
    ];
    let names = [Some(name)].into_iter().chain(others).flatten();
    let question = case.question;
    names.map(|name| format!("{question}: {name}")).collect()
}

/// What else an answer shows, if anything.
fn shown(case: &Case, told: &Told) -> Option<String> {
    let [came, number, ..] = told.reply;
    let what = match (case.question, came, number) {
        (1, word::USED, 0) if only_byte_21(case) => "0 bytes, byte 21",
        (2, word::REFUSED, 8) if only_byte_21(case) => "refused 8, byte 21",
        (3, word::TOLD, _) if past_nanoseconds(&told.behind) => {
            "told a time that only unit 1 can write"
        }
        _ => return None,
    };
    Some(what.to_string())
}

/// A sound CAN message 2 or CAN FD message (W-208), which has no line.
fn can_2_or_fd(case: &Case, told: &Told) -> Option<String> {
    let (1 | 2, [word::USED, 0, ..]) = (case.question, told.reply) else {
        return None;
    };
    let Answer::Object(o) = step(asked(case), 0) else {
        return None;
    };
    let whole = case.question == 2 || o.next == case.first.len();
    let sound = whole && [86, 100].contains(&o.kind);
    sound.then(|| format!("0 bytes, sound type {}", o.kind))
}

/// A refusal at a position, where other objects stand before it. The place is not the object's start, but for 2.
fn behind_others(case: &Case, told: &Told) -> Option<String> {
    let [came, number, place, _, next] = told.reply;
    let refused = (case.question, came) == (2, word::REFUSED) && (2..=9).contains(&number);
    let placed = place > next || number == 2;
    let walked = refused && placed && next > 0 && walked(&case.first) as u64 == next;
    walked.then(|| format!("refused {number} behind others"))
}

/// Where a walk of a log ends.
pub fn walked(log: &[u8]) -> usize {
    let mut position = 0;
    while let Answer::Object(object) = step(log, position) {
        position = object.next;
    }
    position
}

/// Which of the reserved bytes of an overload an 8 at a position shows, where it is told at the first of them.
fn overload(case: &Case, told: &Told) -> Option<String> {
    let [came, number, place, _, next] = told.reply;
    if (case.question, came, number) != (2, word::REFUSED, 8) || u32_at(asked(case), 12) != 3 {
        return None;
    }
    let object = asked(case);
    let body = header_length(object);
    let set = [object[body + 2] != 0, object[body + 3] != 0];
    let what = match (place.checked_sub(next)? as usize, set) {
        (STATUS_GAP, [true, _] | [_, true]) => "byte 21 and one",
        (at, [true, true]) if at == body + 2 => "both",
        (at, [true, false]) if at == body + 2 => "first",
        (at, [false, true]) if at == body + 3 => "second",
        _ => return None,
    };
    Some(format!("refused 8, {what} of an overload's two"))
}

/// The bytes from the object on that is asked for.
fn asked(case: &Case) -> &[u8] {
    match case.question {
        2 => &case.first[case.number as usize..],
        _ => &case.first,
    }
}

/// A line's type and header.
fn line_name(case: &Case) -> String {
    let object = asked(case);
    let kind = match case.question {
        4 => case.second_number(),
        _ => u32_at(object, 12),
    };
    let header = match Header::of(object) {
        Header::First => "first",
        Header::Second => "second",
    };
    format!("line of type {kind}, {header} header")
}

/// Is byte 21 all that keeps the object that is asked for from having a line?
fn only_byte_21(case: &Case) -> bool {
    let mut bytes = asked(case).to_vec();
    bytes
        .iter_mut()
        .skip(STATUS_GAP)
        .take(1)
        .for_each(|gap| *gap = 0);
    match step(&bytes, 0) {
        Answer::Object(o) if case.question == 1 && o.next != bytes.len() => false,
        Answer::Object(o) => KINDS.contains(&o.kind),
        _ => false,
    }
}

/// Are these bytes one whole object, of a type that has no line?
fn is_object(bytes: &[u8]) -> bool {
    let padded = mshelovat_reference::gen::padded(bytes.to_vec());
    match step(&padded, 0) {
        Answer::Object(o) => o.size as usize == bytes.len() && !KINDS.contains(&o.kind),
        _ => false,
    }
}

/// Is the time that these numbers tell past what a u64 of nanoseconds holds?
fn past_nanoseconds(numbers: &[u8]) -> bool {
    let number = |i: usize| u64::from_le_bytes(numbers[8 * i..8 * i + 8].try_into().unwrap());
    u128::from(number(1)) * 1_000_000_000 + u128::from(number(2)) > u64::MAX.into()
}
