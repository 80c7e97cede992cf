//! The table of classes as the plain pool reads it: the paper's, but for two deliberate faults.

use crate::classes::{block, class_of, CLASSES, REGION, UNIT};
use crate::faults::Fault;
use crate::pool::Pool;

/// With one of the faults the class of 32 bytes has blocks that are no multiple of 16.
const ALIGNED_BLOCK: u64 = 32;
const OTHER_BLOCK: u64 = 24;

impl Pool {
    fn block(&self, class: usize) -> u64 {
        match block(class) {
            ALIGNED_BLOCK if self.fault == Fault::BlockOf24 => OTHER_BLOCK,
            bytes => bytes,
        }
    }

    /// The units of a block of the class.
    pub fn units(&self, class: usize) -> u64 {
        self.block(class) / UNIT
    }

    /// n of the class.
    pub fn per_region(&self, class: usize) -> u64 {
        REGION / self.block(class)
    }

    /// The smallest class whose block holds the size.
    pub fn class_of(&self, size: u64) -> usize {
        if size == 17 && self.fault == Fault::ClassAt17 {
            return class_of(48);
        }
        (0..CLASSES).find(|&class| self.block(class) >= size).expect("a size from 1 to 256")
    }
}
