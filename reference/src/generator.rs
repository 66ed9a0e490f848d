//! The pseudo-random numbers of docs/random-runs.md.

/// Seeds stay below this number, so that no product can overflow.
pub const SEED_LIMIT: u64 = 1 << 20;

/// A linear congruential generator with 32 bits of state.
#[derive(Clone, Debug)]
pub struct Generator(u64);

impl Generator {
    /// Spreads consecutive seeds, below `SEED_LIMIT`, over the states.
    pub fn new(seed: u64) -> Self {
        Generator(seed * 2_654_435_761 % (1 << 32))
    }

    /// The next output, 16 bits.
    pub fn output(&mut self) -> u64 {
        self.0 = (self.0 * 1_664_525 + 1_013_904_223) % (1 << 32);
        self.0 / 65_536
    }

    /// A number below `bound`.
    pub fn draw(&mut self, bound: u64) -> u64 {
        self.output() % bound
    }

    /// The eight outputs that one step or one record uses.
    pub fn eight(&mut self) -> [u64; 8] {
        std::array::from_fn(|_| self.output())
    }
}
