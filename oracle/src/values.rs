//! Values that the lists are made of: edges of both formats, and draws over all exponents.
//! A value is held as its bits, in a u64.

use crate::random::Random;

/// A binary format's layout: bits of the fraction, greatest biased exponent, place of the sign.
/// Origin: IEEE 754-2019, table 3.5.
#[derive(Clone, Copy)]
pub struct Format {
    pub fraction: u32,
    pub top: u64,
    pub sign: u64,
}

pub const F32: Format = Format {
    fraction: 23,
    top: 255,
    sign: 1 << 31,
};
pub const F64: Format = Format {
    fraction: 52,
    top: 2047,
    sign: 1 << 63,
};

impl Format {
    pub fn infinity(self) -> u64 {
        self.top << self.fraction
    }

    /// Quiet and signalling NaNs, least and greatest payloads, both signs.
    pub fn nans(self) -> Vec<u64> {
        let quiet = 1u64 << (self.fraction - 1);
        let payloads = [
            1,
            2,
            quiet >> 1,
            quiet - 1,
            quiet,
            quiet + 1,
            (quiet << 1) - 1,
        ];
        payloads
            .iter()
            .flat_map(|p| [self.infinity() + p, self.sign + self.infinity() + p])
            .collect()
    }

    pub fn both_signs(self, magnitudes: Vec<u64>) -> Vec<u64> {
        magnitudes
            .into_iter()
            .flat_map(|m| [m, self.sign | m])
            .collect()
    }

    /// Zeros, infinities, NaNs, the overflow limit and the least normal and subnormal, by sign.
    pub fn specials(self) -> Vec<u64> {
        let least_normal = 1u64 << self.fraction;
        let inf = self.infinity();
        let magnitudes = vec![
            0,
            1,
            2,
            3,
            least_normal - 1,
            least_normal,
            least_normal + 1,
            inf - 2,
            inf - 1,
            inf,
        ];
        let mut v = self.both_signs(magnitudes);
        v.extend(self.nans());
        v
    }

    /// The specials, every `step`-th power of two with both neighbours by sign, and one value of
    /// every other exponent.
    pub fn edges(self, step: u64) -> Vec<u64> {
        let subnormal = (0..self.fraction).map(|b| 1u64 << b);
        let normal = (1..self.top)
            .step_by(step as usize)
            .map(|e| e << self.fraction);
        let magnitudes = subnormal
            .chain(normal)
            .flat_map(|p| [p - 1, p, p + 1])
            .collect();
        let mut v = self.specials();
        v.extend(self.both_signs(magnitudes));
        v.extend(
            (1..self.top)
                .filter(|e| (e - 1) % step != 0)
                .map(|e| self.scattered(e)),
        );
        v
    }

    /// A value of the biased exponent e, its fraction and sign scattered by a product.
    fn scattered(self, e: u64) -> u64 {
        // Origin: 2^64 divided by the golden ratio, as in splitmix64.
        let product = e.wrapping_mul(0x9e37_79b9_7f4a_7c15);
        (self.sign * (product & 1)) | (e << self.fraction) | (product >> (64 - self.fraction))
    }

    /// The bits of `magnitude` and its neighbours up to `reach` places away, by sign.
    pub fn around(self, magnitude: u64, reach: u64) -> Vec<u64> {
        let low = magnitude.saturating_sub(reach);
        self.both_signs((low..=magnitude + reach).collect())
    }

    /// Any exponent, any sign, a fraction that is random, sparse, or nearly all ones.
    pub fn any(self, r: &mut Random) -> u64 {
        self.with_exponent(r, 0, self.top - 1)
    }

    /// As `any`, with a biased exponent from low to high.
    pub fn with_exponent(self, r: &mut Random, low: u64, high: u64) -> u64 {
        let mask = (1u64 << self.fraction) - 1;
        let fraction = match r.below(4) {
            0 => (1u64 << r.below(self.fraction as u64)) | (1u64 << r.below(self.fraction as u64)),
            1 => mask ^ ((1u64 << r.below(self.fraction as u64)) - 1) ^ r.below(2),
            _ => r.bits(),
        };
        let exponent = r.between(low as i64, high as i64) as u64;
        (if r.below(2) == 0 { 0 } else { self.sign })
            | (exponent << self.fraction)
            | (fraction & mask)
    }

    /// Any bits at all.
    pub fn bits(self, r: &mut Random) -> u64 {
        r.bits() & (self.sign | (self.sign - 1))
    }
}

pub fn f32_bits(x: f32) -> u64 {
    x.to_bits() as u64
}

pub fn f64_bits(x: f64) -> u64 {
    x.to_bits()
}
