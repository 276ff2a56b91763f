//! Stand-in for `fixedbitset`, as far as executor.rs uses it.

#[derive(Clone, Debug, Default)]
pub struct FixedBitSet {
    bits: Vec<bool>,
}

impl FixedBitSet {
    pub fn new() -> Self {
        Self::default()
    }

    pub fn with_capacity(bits: usize) -> Self {
        Self { bits: vec![false; bits] }
    }

    pub fn contains(&self, bit: usize) -> bool {
        self.bits.get(bit).copied().unwrap_or(false)
    }

    /// Panics outside the capacity, as the crate does.
    pub fn insert(&mut self, bit: usize) {
        self.bits[bit] = true
    }
}
