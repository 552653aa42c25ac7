//! Generators whose seeds are known, and the numbers that they draw.
use std::sync::LazyLock;

/// The round whose inputs are drawn: the number that ORACLE_SEED holds, else 0.
static ROUND: LazyLock<u64> = LazyLock::new(|| match std::env::var("ORACLE_SEED") {
    Ok(seed) => seed.parse().expect("ORACLE_SEED is no number"),
    Err(_) => 0,
});

/// Whether the inputs are those of round 0, which are always the same: what must occur is asked of that round alone.
pub fn is_fixed_round() -> bool {
    *ROUND == 0
}

/// The state of splitmix64.
pub struct Random(pub u64);

/// The word of a state; that of 0 is 0.
fn scrambled(mut z: u64) -> u64 {
    z = (z ^ z >> 30).wrapping_mul(0xbf58_476d_1ce4_e5b9);
    z = (z ^ z >> 27).wrapping_mul(0x94d0_49bb_1331_11eb);
    z ^ z >> 31
}

impl Random {
    /// The generator of this number in the round; in round 0 the number is the seed.
    pub fn of_round(number: u64) -> Random {
        Random(number.wrapping_add(scrambled(*ROUND)))
    }

    /// The next word.
    pub fn word(&mut self) -> u64 {
        self.0 = self.0.wrapping_add(0x9e37_79b9_7f4a_7c15);
        scrambled(self.0)
    }

    /// A whole number below the limit.
    pub fn below(&mut self, limit: usize) -> usize {
        (self.word() % limit as u64) as usize
    }

    /// One of the choices.
    pub fn pick<T: Copy>(&mut self, choices: &[T]) -> T {
        choices[self.below(choices.len())]
    }

    /// A number from low to high, evenly spread.
    pub fn between(&mut self, low: f64, high: f64) -> f64 {
        low + (high - low) * ((self.word() >> 11) as f64 / (1u64 << 53) as f64)
    }

    /// 1 or -1.
    pub fn sign(&mut self) -> f64 {
        self.pick(&[1.0, -1.0])
    }

    /// A number of either sign whose exponent, as a power of two, is any from low to high alike.
    pub fn spread(&mut self, low: i64, high: i64) -> f64 {
        let exponent = (1023 + low) as u64 + self.word() % (high - low + 1) as u64;
        self.sign() * f64::from_bits(exponent << 52 | self.word() >> 12)
    }

    /// A whole number of either sign, at most the limit in size.
    pub fn whole(&mut self, limit: usize) -> f64 {
        self.below(2 * limit + 1) as f64 - limit as f64
    }

    /// The number, or a neighbour of it up to so many ulps away.
    pub fn nudged(&mut self, x: f64, reach: u64) -> f64 {
        f64::from_bits(x.to_bits().wrapping_add(self.word() % (2 * reach + 1)).wrapping_sub(reach))
    }

    /// Zero of either sign.
    pub fn zero(&mut self) -> f64 {
        self.sign() * 0.0
    }

    /// A NaN of either sign and any payload.
    pub fn nan(&mut self) -> f64 {
        f64::from_bits(self.word() | 0x7ff0_0000_0000_0001)
    }

    /// An infinity of either sign.
    pub fn infinite(&mut self) -> f64 {
        self.sign() * f64::INFINITY
    }

    /// A subnormal number of either sign and any length.
    pub fn subnormal(&mut self) -> f64 {
        let shift = 12 + self.word() % 52;
        self.sign() * f64::from_bits(self.word() >> shift)
    }

    /// A tiny number of either sign: its square, cube or fifth power underflows.
    pub fn tiny(&mut self) -> f64 {
        self.spread(-560, -200)
    }

    /// A huge number of either sign: its square, cube or fifth power overflows.
    pub fn huge(&mut self) -> f64 {
        self.spread(200, 1023)
    }

    /// Any bit pattern.
    pub fn bits(&mut self) -> f64 {
        f64::from_bits(self.word())
    }
}
