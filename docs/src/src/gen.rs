//! A seeded generator of logs, records and bundles, sound and damaged, for
//! comparing this implementation with another one.
//!
//! Everything comes out of an [`Rng`]; the same seed gives the same bytes:
//!
//! ```
//! use mshelovat_reference::{gen, slips};
//! let mut rng = gen::Rng(7);
//! let log = gen::sound_log(&mut rng, 20);
//! let bundle = gen::honest_bundle(&mut rng, &log);
//! assert_eq!(slips::check(&log, &bundle), Ok(20));
//! ```

mod bundles;
mod headers;
mod logs;
mod records;

pub use bundles::{any_bundle, bundle_bytes, damaged_bundle, honest_bundle, honest_slips};
pub use bundles::{Fault, Slip, FAULTS};
pub use headers::{second_own, wrong_pair};
pub use logs::{an_object, any_log, damaged_log, damaged_log_at, foreign, long_log, object};
pub use logs::{object_under, old_foreign, padded, position, sound_log, twice_damaged_log};
pub use logs::{Damage, DAMAGES, FRAMES, LISTED};
pub use records::{any_record, frame, raw_object, record, record_under};

/// A tiny xorshift generator. Any seed will do, 0 too.
#[derive(Clone, Debug)]
pub struct Rng(pub u64);

impl Rng {
    /// The next 64 bits.
    pub fn bits(&mut self) -> u64 {
        if self.0 == 0 {
            self.0 = 0x9E37_79B9_7F4A_7C15;
        }
        self.0 ^= self.0 >> 12;
        self.0 ^= self.0 << 25;
        self.0 ^= self.0 >> 27;
        self.0.wrapping_mul(0x2545_F491_4F6C_DD1D)
    }

    /// A number below `limit`; 0 where the limit is 0.
    pub fn below(&mut self, limit: usize) -> usize {
        (self.bits() >> 11) as usize % limit.max(1)
    }

    /// A number from `least` to `most`, both possible.
    pub fn from_to(&mut self, least: usize, most: usize) -> usize {
        least + self.below(most - least + 1)
    }

    /// True once in `n` times.
    pub fn once_in(&mut self, n: usize) -> bool {
        self.below(n) == 0
    }

    /// A byte.
    pub fn byte(&mut self) -> u8 {
        (self.bits() >> 56) as u8
    }

    /// A byte that is not zero.
    pub fn nonzero(&mut self) -> u8 {
        self.from_to(1, 255) as u8
    }

    /// A number that likes edges: small, near a power of two, near the top of
    /// a width, or anything.
    pub fn number(&mut self) -> u64 {
        let near = self.below(4) as u64;
        match self.below(6) {
            0 => near,
            1 => u64::MAX - near,
            2 => (1u64 << self.below(64)).wrapping_add(near).wrapping_sub(2),
            3 => 0x0101_0101_0101_0101 * u64::from(self.byte()),
            _ => self.bits(),
        }
    }

    /// One of these.
    pub fn pick<T: Copy>(&mut self, from: &[T]) -> T {
        from[self.below(from.len())]
    }

    /// So many bytes; sometimes all the same.
    pub fn bytes(&mut self, count: usize) -> Vec<u8> {
        if self.once_in(8) {
            return vec![self.byte(); count];
        }
        (0..count).map(|_| self.byte()).collect()
    }

    /// An array of bytes.
    pub fn array<const N: usize>(&mut self) -> [u8; N] {
        std::array::from_fn(|_| self.byte())
    }
}
