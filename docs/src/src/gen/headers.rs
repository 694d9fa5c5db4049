//! Headers of the thirteen types, sound and wrong.

use super::Rng;
use crate::header::{Head, Header, Own};

/// A sound first header.
pub(super) fn first(rng: &mut Rng) -> Head {
    Head {
        unit: rng.from_to(1, 2) as u32,
        own: Own::First {
            client_index: rng.number() as u16,
        },
        version: rng.number() as u16,
        time: rng.number(),
    }
}

/// What the second header alone has.
pub fn second_own(rng: &mut Rng) -> Own {
    Own::Second {
        status: rng.byte(),
        original: rng.number(),
    }
}

/// Header sizes and versions close to those of the two headers.
#[rustfmt::skip]
const NEAR: [(u16, u16); 16] = [
    (32, 2), (40, 1), (33, 1), (40, 3), (0, 0), (32, 0), (40, 0), (41, 2), (39, 2), (31, 1),
    (1, 32), (2, 40), (16, 1), (48, 3), (0x2820, 0x0201), (0x0128, 0x0102),
];

/// Header size and version, as they stand in an object, of neither header.
pub fn wrong_pair(rng: &mut Rng) -> [u8; 4] {
    loop {
        let (size, version) = match rng.below(4) {
            0 => (rng.pick(&[32, 40]), rng.number() as u16),
            1 => (rng.number() as u16, rng.pick(&[1, 2])),
            _ => rng.pick(&NEAR),
        };
        let ([a, b], [c, d]) = (size.to_le_bytes(), version.to_le_bytes());
        let pair = [a, b, c, d];
        if Header::BOTH.iter().all(|header| header.pair() != pair) {
            return pair;
        }
    }
}
