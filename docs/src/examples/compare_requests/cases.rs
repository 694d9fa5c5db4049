//! A case, and the cases of a seed: half of them from the sweeps, half at random.
use super::{asc_cases, ring_cases, tray_cases};
use mshelovat_reference::gen::Rng;
use mshelovat_reference::layout::u32_at;

/// The most bytes of a part, of a room and of a scratch.
pub const LIMIT: usize = 4_096;

/// A question with all it needs.
pub struct Case {
    pub question: u8,
    /// The position, or the room.
    pub number: u64,
    pub first: Vec<u8>,
    pub second: Vec<u8>,
}

impl Case {
    pub fn bytes(&self) -> Vec<u8> {
        let mut bytes = vec![self.question];
        bytes.extend((self.first.len() as u32).to_le_bytes());
        bytes.extend((self.second.len() as u32).to_le_bytes());
        bytes.extend(self.number.to_le_bytes());
        bytes.extend(&self.first);
        bytes.extend(&self.second);
        bytes
    }

    /// The number that the second part is or begins with: the room at a position, the type of a
    /// record, or the length of a scratch.
    pub fn second_number(&self) -> u32 {
        u32_at(&self.second, 0)
    }

    /// The room or the scratch of a case that writes; else 0.
    pub fn room(&self) -> usize {
        match self.question {
            1 | 4 | 7 => self.number as usize,
            2 | 5 => self.second_number() as usize,
            _ => 0,
        }
    }

    /// The segments of a ring.
    pub fn segments(&self) -> (&[u8], &[u8]) {
        (&self.first, &self.second[4..])
    }
}

/// The cases one after the other: every second one from the sweeps, while they last.
pub struct Cases {
    rng: Rng,
    /// No more than half of the cases that are asked by default.
    sweeps: std::vec::IntoIter<Case>,
    number: usize,
}

impl Cases {
    pub fn new(seed: u64) -> Cases {
        let mut rng = Rng(seed);
        let mut sweeps = asc_cases::sweeps(&mut rng);
        sweeps.extend(ring_cases::sweeps(&mut rng));
        sweeps.extend(tray_cases::sweeps(&mut rng));
        Cases {
            rng,
            sweeps: sweeps.into_iter(),
            number: 0,
        }
    }

    pub fn next_case(&mut self) -> Case {
        let number = self.number;
        self.number += 1;
        let swept = if number % 2 == 1 {
            self.sweeps.next()
        } else {
            None
        };
        swept.unwrap_or_else(|| at_random(&mut self.rng, number / 2))
    }

    /// How many cases of the sweeps were not asked for yet.
    pub fn left(&self) -> usize {
        self.sweeps.len()
    }
}

/// Each of the seven questions in turn.
fn at_random(rng: &mut Rng, number: usize) -> Case {
    let turn = number / 7;
    match 1 + number % 7 {
        question @ 1..=4 => asc_cases::at_random(rng, question, turn),
        5 => ring_cases::any_step(rng, turn),
        6 => ring_cases::any_view(rng, turn),
        _ => tray_cases::any_tray(rng, turn),
    }
}
