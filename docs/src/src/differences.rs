//! Two logs compared (W-209). Objects are paired by their number in the file.
//! Each pair that is not equal byte for byte is a row, and so is each object past
//! the end of the log with fewer. Objects are compared without their padding: it
//! is zero in a log that is not refused, so that there is no row exactly where
//! the logs are equal.

use crate::header::field;
use crate::layout::{number, occupied, u32_at, Refusal};
use crate::object::{judge, place, walk};

/// What is the matter with the objects of one number.
#[derive(Clone, Copy, Debug, PartialEq, Eq)]
pub enum Kind {
    /// Their bytes differ.
    Differ = 1,
    /// Only the first log has one.
    OnlyFirst = 2,
    /// Only the second log has one.
    OnlySecond = 3,
}

/// The lent slices. Each row puts one number into each of them.
#[derive(Debug, PartialEq, Eq)]
pub struct Lent<'a> {
    /// The object's number in the file, from 0.
    pub numbers: &'a mut [u64],
    /// Its start in the first log; the log's length where that has none.
    pub firsts: &'a mut [u64],
    /// The same in the second log.
    pub seconds: &'a mut [u64],
    /// 1, 2 or 3: a [`Kind`].
    pub kinds: &'a mut [u64],
}

/// A refusal, and which log it belongs to.
#[derive(Clone, Copy, Debug, PartialEq, Eq)]
pub struct Refused {
    /// 1 or 2; 0 for neither, which is 10.
    pub log: u8,
    /// 1 to 9 as the walk of that log tells it, or 10 at place 0.
    pub refusal: Refusal,
}

impl Refused {
    fn new(log: u8, refusal: Refusal) -> Refused {
        Refused { log, refusal }
    }
}

/// Compares two logs: how many rows there are. They stand in order at the fronts
/// of the slices, and later numbers stay. After a refusal all numbers do. Tries
/// the first log, then the second, then 10: there are more rows than the shortest
/// slice has room for.
pub fn compare(first: &[u8], second: &[u8], lent: Lent) -> Result<usize, Refused> {
    let mut count = 0;
    each_row(first, second, judged, |_| count += 1)?;
    if count > lent.room() {
        return Err(Refused::new(0, Refusal::new(number::ROOM, 0)));
    }
    if count > 0 {
        lent.fill(first, second)?;
    }
    Ok(count)
}

impl Lent<'_> {
    fn room(&self) -> usize {
        let others = self.firsts.len().min(self.seconds.len());
        self.numbers.len().min(self.kinds.len()).min(others)
    }

    /// Puts the rows of two logs in, which are sound and have no more than there
    /// is room for.
    fn fill(self, first: &[u8], second: &[u8]) -> Result<(), Refused> {
        let starts = self.firsts.iter_mut().zip(self.seconds);
        let mut left = self.numbers.iter_mut().zip(starts).zip(self.kinds);
        each_row(first, second, known, |row| {
            if let Some(((number, (first, second)), kind)) = left.next() {
                *number = row.number as u64;
                (*first, *second) = (row.first as u64, row.second as u64);
                *kind = row.kind as u64;
            }
        })
    }
}

/// A row: the object's number, its start in each log, and what is the matter.
struct Row {
    number: usize,
    first: usize,
    second: usize,
    kind: Kind,
}

/// Lays two logs side by side and meets each row, in order. (What finds the end of
/// an object and what is done with a row are known in each of the two loops.)
#[inline(always)]
fn each_row(
    first: &[u8],
    second: &[u8],
    end_of: impl Fn(&[u8], usize) -> Result<Option<usize>, Refusal>,
    mut meet: impl FnMut(Row),
) -> Result<(), Refused> {
    let (mut number, mut at, mut other_at) = (0, 0, 0);
    loop {
        let end = end_of(first, at).map_err(|refusal| Refused::new(1, refusal))?;
        if let Some(end) = end {
            // The same bytes with the same padding need not be judged again.
            let whole = &first[at..end];
            if second[other_at..].starts_with(whole) {
                (number, at, other_at) = (number + 1, end, other_at + whole.len());
                continue;
            }
        }
        let other_end = end_of(second, other_at).map_err(|refusal| behind(first, refusal))?;
        let kind = match (end, other_end) {
            (None, None) => return Ok(()),
            // Their padding is zero, so that it is the objects that differ.
            (Some(_), Some(_)) => Kind::Differ,
            (Some(_), None) => Kind::OnlyFirst,
            (None, Some(_)) => Kind::OnlySecond,
        };
        // At a log's end the position is its length.
        meet(Row {
            number,
            first: at,
            second: other_at,
            kind,
        });
        number += 1;
        (at, other_at) = (end.unwrap_or(at), other_end.unwrap_or(other_at));
    }
}

/// The second log's refusal, which comes behind one that the first log has
/// further on.
#[cold]
#[inline(never)]
fn behind(first: &[u8], refusal: Refusal) -> Refused {
    match walk(first) {
        Err(earlier) => Refused::new(1, earlier),
        Ok(_) => Refused::new(2, refusal),
    }
}

/// Where the object at a position ends with its padding; none at the log's end.
#[inline(always)]
fn judged(log: &[u8], position: usize) -> Result<Option<usize>, Refusal> {
    let tail = &log[position..];
    if tail.is_empty() {
        return Ok(None);
    }
    match judge(tail, position) {
        Ok(object) => Ok(Some(object.next)),
        Err(number) => Err(Refusal::new(number, position + place(tail, number))),
    }
}

/// The same in a log that was judged: the size tells all.
#[inline(always)]
fn known(log: &[u8], position: usize) -> Result<Option<usize>, Refusal> {
    if position == log.len() {
        return Ok(None);
    }
    let size = u32_at(log, position + field::SIZE);
    Ok(Some(position + occupied(size) as usize))
}
