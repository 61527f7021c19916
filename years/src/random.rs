//! Pseudo-random numbers from whole-number arithmetic alone (SplitMix64), so
//! that a seed gives the same history on every machine.

/// What a stream of numbers is drawn for. Each has its own, so that more noise
/// does not change what is sent.
#[derive(Clone, Copy)]
pub enum Purpose {
    Preamble = 1,
    Filler = 2,
    Scrambler = 3,
    Noise = 4,
    Joint = 5,
    Power = 6,
    Damage = 7,
}

#[derive(Clone)]
pub struct Random(u64);

impl Random {
    pub fn new(seed: u64, purpose: Purpose) -> Random {
        let mut random = Random(seed ^ (purpose as u64).wrapping_mul(0xD1B5_4A32_D192_ED03));
        random.draw();
        random
    }

    pub fn draw(&mut self) -> u64 {
        self.0 = self.0.wrapping_add(0x9E37_79B9_7F4A_7C15);
        let mut z = self.0;
        z = (z ^ (z >> 30)).wrapping_mul(0xBF58_476D_1CE4_E5B9);
        z = (z ^ (z >> 27)).wrapping_mul(0x94D0_49BB_1331_11EB);
        z ^ (z >> 31)
    }

    /// A whole number from 0 to `count` − 1.
    pub fn below(&mut self, count: u32) -> u32 {
        (((self.draw() >> 32) * u64::from(count)) >> 32) as u32
    }

    /// A number from 0 to below 1, in steps of 2^−53.
    pub fn share(&mut self) -> f64 {
        (self.draw() >> 11) as f64 / (1u64 << 53) as f64
    }

    pub fn happens(&mut self, share: f64) -> bool {
        self.share() < share
    }

    /// Near a normal number of mean 0 and variance 1: twelve shares less 6.
    pub fn normal(&mut self) -> f64 {
        (0..12).map(|_| self.share()).sum::<f64>() - 6.0
    }

    /// A number from −1 to below 1.
    pub fn either_way(&mut self) -> f64 {
        2.0 * self.share() - 1.0
    }
}
