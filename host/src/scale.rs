//! How much a run compares.

/// What the caller asks of a run.
#[derive(Clone, Copy, Debug)]
pub struct Scale {
    /// Leaves out what takes minutes.
    pub quick: bool,
    /// The seed of everything that looks random.
    pub seed: u64,
    /// How many inputs each random part makes.
    pub count: usize,
}

impl Scale {
    pub const QUICK_COUNT: usize = 4_000;
    pub const FULL_COUNT: usize = 200_000;
}
