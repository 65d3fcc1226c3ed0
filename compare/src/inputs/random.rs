//! A small generator of pseudo-random numbers (splitmix64), the same on every machine.

pub const SEED: u64 = 0x0097_ec38_8661_2026;

/// How many steps away a drawn neighbour may lie.
const REACH: u64 = 4;

pub struct Random(u64);

impl Random {
    /// One generator for each stream; the start is scattered so that streams do not overlap.
    pub fn new(stream: u64) -> Self {
        Random(Random(SEED ^ (stream << 32)).next())
    }

    pub fn next(&mut self) -> u64 {
        self.0 = self.0.wrapping_add(0x9e37_79b9_7f4a_7c15);
        let z = (self.0 ^ (self.0 >> 30)).wrapping_mul(0xbf58_476d_1ce4_e5b9);
        let z = (z ^ (z >> 27)).wrapping_mul(0x94d0_49bb_1331_11eb);
        z ^ (z >> 31)
    }

    /// From 0 to `end` - 1.
    pub fn below(&mut self, end: u64) -> u64 {
        ((self.next() as u128 * end as u128) >> 64) as u64
    }

    /// Any number of at most `most` bits, every width alike.
    pub fn width(&mut self, most: u32) -> u64 {
        let narrower = self.below(most as u64) as u32;
        self.next() >> (64 - most + narrower)
    }

    /// Alike over the range from `low` to `high`.
    pub fn within(&mut self, low: f64, high: f64) -> f64 {
        let part = (self.next() >> 11) as f64 / (1u64 << 53) as f64;
        low + (high - low) * part
    }

    pub fn choose<T: Copy>(&mut self, from: &[T]) -> T {
        from[self.below(from.len() as u64) as usize]
    }

    pub fn coin(&mut self) -> bool {
        self.next() & 1 == 0
    }

    /// From `low` to `high`, sizes alike: each root of the ratio is taken or left.
    pub fn sized(&mut self, low: f64, high: f64) -> f64 {
        let (mut x, mut factor) = (low, high / low);
        let mut choices = self.next() >> 32;
        while choices > 0 {
            factor = factor.sqrt();
            x = if choices & 1 == 0 { x } else { x * factor };
            choices >>= 1;
        }
        x
    }

    /// `x` with either sign.
    pub fn signed(&mut self, x: f64) -> f64 {
        if self.coin() { x } else { -x }
    }

    /// `x` or a float near it.
    pub fn near(&mut self, x: f64) -> f64 {
        neighbour(x, self.below(2 * REACH + 1) as i32 - REACH as i32)
    }

    /// `x` or a float near it, with either sign.
    pub fn about(&mut self, x: f64) -> f64 {
        let x = self.near(x);
        self.signed(x)
    }

    /// A positive float with an exponent of two from `low` to `high`.
    pub fn scaled(&mut self, low: i32, high: i32) -> f64 {
        let exponent = low + self.below((high - low + 1) as u64) as i32;
        let first = power(exponent).to_bits();
        // A subnormal's exponent is the place of its first bit; those below it are free.
        let free = if exponent < -1022 { first - 1 } else { (1 << 52) - 1 };
        f64::from_bits(first | (self.next() & free))
    }
}

/// The float so many steps above `x`, or below it.
pub fn neighbour(x: f64, steps: i32) -> f64 {
    let step = if steps < 0 { f64::next_down } else { f64::next_up };
    (0..steps.abs()).fold(x, |x, _| step(x))
}

/// 2^`exponent`, from -1074 to 1023.
pub const fn power(exponent: i32) -> f64 {
    if exponent < -1022 {
        f64::from_bits(1 << (exponent + 1074))
    } else {
        f64::from_bits(((exponent + 1023) as u64) << 52)
    }
}
