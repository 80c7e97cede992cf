//! The checks of the strips after each call: the library's answers against the slots, the strips' memory byte by byte,
//! and the pieces that control has.

use crate::checks::Parted;
use crate::classes::UNIT;
use crate::driver::Driver;
use crate::layout::{self, View, FREE_NODES, SLOT_BYTES};
use crate::pieces;
use crate::pool::{Answer, Call, Place, Request};
use crate::slots::{rounded, serves};
use crate::strips::{FIRST_UNIT, LEAST_SIZE, SLOT};

pub const STRIPS_KEPT: &str = "no call changes a byte of the strips' memory";
pub const SIXTEEN: &str = "16 ends a request exactly if no aligned stretch of the rounded size is free, slot by slot";
pub const OF_SLOTS: &str = "a finished strip is an aligned stretch of slots that was free";
pub const OF_SIZE: &str = "a finished strip has at least the size's bytes and fewer than twice it, or 512";
pub const ONE_STEP: &str = "a strip's request is over at its first step";
pub const READ: &str = "strips: tree, slots and tasks name pieces";
pub const PIECES: &str = "strips: the pieces in order, each with its order, state and task";
pub const PIECES_ONCE: &str = "strips: each slot is in exactly one strip or free piece";
pub const PIECES_JOINED: &str = "strips: no two halves are both free";
pub const PIECES_KEPT: &str = "strips: a call that is refused or about none leaves tree and slots as they are";

/// One in this many calls that are about no strip is followed by a comparison of the strips' memory.
const NOW_AND_THEN: u64 = 8;

impl Driver<'_> {
    /// Holds what a step of a strip's allocation answers against the slots.
    pub fn check_strip(&mut self, size: u64, (code, unit): Answer) -> Result<(), Parted> {
        let room = self.slots.has_stretch(rounded(size));
        let what = || format!("{size} bytes: code {code}, unit {unit}");
        self.checks.hold(ONE_STEP, code == 20 || code == 16, what)?;
        self.checks.hold(SIXTEEN, (code == 16) != room, what)?;
        if code == 16 {
            return Ok(());
        }
        self.checks.hold(OF_SLOTS, self.slots.is_free(unit, rounded(size)), what)?;
        let slot = (unit - FIRST_UNIT) * UNIT / SLOT;
        let byte = layout::get(self.lent.control.bytes(), SLOT_BYTES, slot as usize);
        let of_size = (1..=8).contains(&byte) && serves(SLOT << (byte - 1), size);
        self.checks.hold(OF_SIZE, of_size, || format!("{size} bytes: slot {slot} has {byte}"))
    }

    /// Compares the strips' memory and, of control, the pieces. A call that is about no strip leaves them as they are.
    pub fn compare_strips(&mut self, call: Call, place: Place, expected: Answer) -> Result<(), Parted> {
        let about = match call.request {
            Request::Start { .. } => true,
            Request::Allocate { size, .. } => size >= LEAST_SIZE,
            Request::Free { unit, .. } => unit >= FIRST_UNIT,
            Request::Leave { .. } => false,
            Request::Step { .. } => matches!(place, Place::TakeStrip | Place::GiveStrip),
        };
        let what = || format!("{call:?}");
        if about || self.coverage.calls % NOW_AND_THEN == 0 {
            self.checks.hold(STRIPS_KEPT, self.lent.strips.bytes() == self.strips_before, what)?;
        }
        if about && !(1..=11).contains(&expected.0) {
            return self.compare_pieces();
        }
        let fields = FREE_NODES.first..SLOT_BYTES.first + SLOT_BYTES.fields;
        let same = self.lent.control.bytes()[fields.clone()] == self.control_before[fields];
        self.checks.hold(PIECES_KEPT, same, what)
    }

    /// Compares the pieces that control has with the plain pool's.
    pub fn compare_pieces(&mut self) -> Result<(), Parted> {
        if self.pool.started_tasks == 0 {
            return Ok(());
        }
        let view = View { control: self.lent.control.bytes(), area: self.lent.area.bytes() };
        let memory = pieces::read(&view);
        self.checks.agree(READ, memory.as_ref().map(|_| ()).map_err(String::clone))?;
        let memory = memory.unwrap_or_default();
        self.checks.agree(PIECES, pieces::agree(&self.pool, &memory))?;
        self.checks.agree(PIECES_ONCE, pieces::once(&memory))?;
        self.checks.agree(PIECES_JOINED, pieces::joined(&memory))
    }
}
