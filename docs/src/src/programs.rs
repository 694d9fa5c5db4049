//! What the two programs print, as text. Every line ends in one LF.

use crate::layout::Refusal;
use crate::object::{step, Answer};
use crate::slips::{check, plain_slips};

/// The most bytes either program takes of one input.
pub const INPUT_LIMIT: usize = 65_536;

fn refusal_line(refusal: Refusal) -> String {
    format!("refused {} at {}\n", refusal.number, refusal.place)
}

/// The lister's output for a log.
pub fn lister(log: &[u8]) -> String {
    if log.len() > INPUT_LIMIT {
        return "too long\n".to_string();
    }
    let mut text = String::new();
    let (mut count, mut position) = (0, 0);
    loop {
        match step(log, position) {
            Answer::Done => {
                text += &format!("end {} objects {}\n", log.len(), count);
                return text;
            }
            Answer::Refused(refusal) => return text + &refusal_line(refusal),
            Answer::Object(object) => {
                text += &format!("{} {} {}\n", object.start, object.size, object.kind);
                count += 1;
                position = object.next;
            }
        }
    }
}

/// The desk program's output; `None` stands for a file that did not open.
pub fn desk(log: Option<&[u8]>, bundle: Option<&[u8]>) -> String {
    let (Some(log), Some(bundle)) = (log, bundle) else {
        return "no file\n".to_string();
    };
    if log.len() > INPUT_LIMIT || bundle.len() > INPUT_LIMIT {
        return "too long\n".to_string();
    }
    match check(log, bundle) {
        Err(refusal) => refusal_line(refusal),
        Ok(_) if any_outside(log, bundle) => "outside\n".to_string(),
        Ok(count) => format!("accepted {count}\n"),
    }
}

/// Does an entry end past the log's end?
fn any_outside(log: &[u8], bundle: &[u8]) -> bool {
    let slips = plain_slips(bundle).unwrap_or_default();
    let mut entries = slips.iter().flat_map(|slip| &slip.entries);
    entries.any(|entry| u64::from(entry.start) + u64::from(entry.size) > log.len() as u64)
}
