//! A 32-bit float by its bits. Sign, exponent and significand are whole numbers; nothing here computes with floats.

const SIGN: u32 = 1 << 31;
pub const INFINITE: u32 = 0x7f80_0000;

/// A bit pattern; printed in hexadecimal.
#[derive(Clone, Copy, PartialEq, Eq)]
pub struct Float(pub u32);

impl std::fmt::Debug for Float {
    fn fmt(&self, f: &mut std::fmt::Formatter) -> std::fmt::Result {
        write!(f, "{:#010x}", self.0)
    }
}

impl Float {
    /// The value is the first number divided by 2 to the second; a NaN or an infinity has none. An exponent further than 90
    /// from 0 counts as 90: such a float stays far outside every range, or nearer to zero, on its side, than any test looks.
    pub fn exact(self) -> Option<(i128, u32)> {
        let (field, fraction) = ((self.0 >> 23) & 0xff, self.0 & 0x7f_ffff);
        let (significand, exponent) = match field {
            0 => (fraction, -149),
            255 => return None,
            _ => (fraction + (1 << 23), field as i32 - 150),
        };
        let magnitude = (significand as i128) << exponent.clamp(0, 90);
        let value = if self.0 & SIGN == 0 { magnitude } else { -magnitude };
        Some((value, (-exponent).clamp(0, 90) as u32))
    }

    /// From low to high, ends included.
    pub fn within(self, low: i64, high: i64) -> bool {
        self.exact().map_or(false, |(value, shift)| (low as i128) << shift <= value && value <= (high as i128) << shift)
    }

    /// The value times `per_unit`, plus one half, rounded down.
    pub fn grid(self, per_unit: i64) -> i64 {
        let (value, shift) = self.exact().expect("finite");
        ((2 * per_unit as i128 * value + (1 << shift)) >> (shift + 1)).try_into().expect("near the ranges")
    }

    /// The value times `per_unit` seen from a grid number: below it (1), on it (2) or above it (3).
    pub fn remark(self, per_unit: i64, number: i64) -> i64 {
        let (value, shift) = self.exact().expect("finite");
        2 + (per_unit as i128 * value).cmp(&((number as i128) << shift)) as i64
    }

    /// The float nearest to a fraction, of two equally near the one with the even last bit.
    pub fn nearest(numerator: i128, denominator: i128) -> Float {
        let (mut n, mut d, mut exponent) = (numerator.abs(), denominator, 0);
        while n >= d << 24 {
            d *= 2;
            exponent += 1;
        }
        while n < d << 23 && exponent > -149 {
            n *= 2;
            exponent -= 1;
        }
        assert!(exponent < 104, "too large");
        let (down, rest) = (n / d, n % d);
        let up = 2 * rest > d || (2 * rest == d && down % 2 == 1);
        // A significand that is rounded up to 2^24 carries into the exponent, as it should.
        let magnitude = (((exponent + 149) as u32) << 23) + down as u32 + up as u32;
        Float(magnitude | if numerator < 0 { SIGN } else { 0 })
    }

    /// This float and those of its sign up to `steps` away.
    pub fn around(self, steps: u32) -> impl Iterator<Item = Float> {
        let (sign, magnitude) = (self.0 & SIGN, self.0 & !SIGN);
        (magnitude.saturating_sub(steps)..=(magnitude + steps).min(!SIGN)).map(move |m| Float(sign | m))
    }

    pub fn negated(self) -> Float {
        Float(self.0 ^ SIGN)
    }
}
