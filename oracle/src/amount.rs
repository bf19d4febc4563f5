//! How much of a command is done.

/// How many calls of each entry and depth, and under which seed.
#[derive(Clone, Copy)]
pub struct Amount {
    pub calls: u64,
    pub seed: u64,
}
