//! The strips' memory slot by slot, told by the calls' answers alone: neither the plain pool's pieces nor control are
//! looked at.

use crate::strips::{FIRST_UNIT, SLOT, SLOTS, UNITS_PER_SLOT};

/// For each slot, whether it is in a strip: from the step that finishes with the strip to the step that frees it.
pub struct Slots([bool; SLOTS]);

/// "A size is rounded up to a power of two, at least 512."
pub fn rounded(size: u64) -> u64 {
    size.next_power_of_two().max(SLOT)
}

/// Whether a strip of so many bytes may serve the size: "at least as large as asked for and less than twice it, or
/// 512".
pub fn serves(bytes: u64, size: u64) -> bool {
    bytes >= size && (bytes < 2 * size || bytes == SLOT)
}

impl Slots {
    pub fn new() -> Slots {
        Slots([false; SLOTS])
    }

    /// The slots of so many bytes from a unit on, if the unit is a multiple of them.
    fn range(unit: u64, bytes: u64) -> Option<std::ops::Range<usize>> {
        let offset = unit.checked_sub(FIRST_UNIT)?;
        let first = (offset / UNITS_PER_SLOT) as usize;
        let end = first + (bytes / SLOT) as usize;
        (offset * 8 % bytes == 0 && end <= SLOTS).then_some(first..end)
    }

    pub fn set(&mut self, unit: u64, bytes: u64, taken: bool) {
        if let Some(range) = Slots::range(unit, bytes) {
            self.0[range].fill(taken);
        }
    }

    /// Whether a strip may be handed out at this unit: aligned, inside, and in no strip until now.
    pub fn is_free(&self, unit: u64, bytes: u64) -> bool {
        Slots::range(unit, bytes).is_some_and(|range| self.0[range].iter().all(|taken| !taken))
    }

    /// Whether an aligned stretch of so many bytes is free.
    pub fn has_stretch(&self, bytes: u64) -> bool {
        self.0.chunks((bytes / SLOT) as usize).any(|slots| slots.iter().all(|taken| !taken))
    }
}
