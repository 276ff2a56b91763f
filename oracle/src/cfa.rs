// Stand-in for cfa.rs: a place. Ordered by section, then address; sums change only the address part.
use std::{
    fmt,
    ops::{Add, AddAssign},
};

use crate::obj::SectionIndex;

#[derive(Clone, Copy, Debug, Eq, PartialEq, Ord, PartialOrd, Hash)]
pub struct SectionAddress {
    pub section: SectionIndex,
    pub address: u32,
}

impl SectionAddress {
    pub fn new(section: SectionIndex, address: u32) -> Self { Self { section, address } }

    pub fn offset(self, offset: i32) -> Self { self.wrapping_add(offset as u32) }

    pub fn wrapping_add(self, rhs: u32) -> Self {
        Self { section: self.section, address: self.address.wrapping_add(rhs) }
    }
}

impl Add<u32> for SectionAddress {
    type Output = Self;

    fn add(self, rhs: u32) -> Self { self.wrapping_add(rhs) }
}

impl AddAssign<u32> for SectionAddress {
    fn add_assign(&mut self, rhs: u32) { *self = self.wrapping_add(rhs) }
}

impl fmt::UpperHex for SectionAddress {
    fn fmt(&self, f: &mut fmt::Formatter) -> fmt::Result {
        write!(f, "{}:", self.section)?;
        fmt::UpperHex::fmt(&self.address, f)
    }
}
