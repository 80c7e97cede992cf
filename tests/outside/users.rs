//! What the users do with what they hold: they write in it and give it back.

use crate::driver::Driver;
use crate::lists::LISTS;
use crate::pool::{Answer, Place, Request, TASKS};
use crate::slots::{rounded, Slots};
use crate::strips::FIRST_UNIT;

/// A block or strip in a user's hands.
#[derive(Clone, Copy, Debug)]
pub struct Held {
    pub unit: u64,
    pub bytes: u64,
    /// The task that allocated it.
    pub task: u64,
}

impl Held {
    pub fn is_strip(&self) -> bool {
        self.unit >= FIRST_UNIT
    }

    /// Its first byte in its memory.
    fn first(&self) -> usize {
        let unit = if self.is_strip() { self.unit - FIRST_UNIT } else { self.unit };
        unit as usize * 8
    }
}

impl Driver<'_> {
    /// What the users do after an answer: they take note of what they hold and fill each new block and strip.
    pub fn follow(&mut self, request: Request, place: Place, answer: Answer) {
        match (request, answer.0) {
            (Request::Start { .. }, 0) => {
                self.asked = [None; TASKS];
                self.freeing = [None; TASKS];
                self.held.clear();
                self.covered.fill(false);
                self.slots = Slots::new();
                self.tags_at_start = [0; LISTS];
            }
            (Request::Allocate { task, size }, 0) => self.asked[task as usize] = Some(size),
            (Request::Free { task, unit }, 0) => self.give_back(task, unit),
            (Request::Step { task }, 12 | 13 | 16) => self.asked[task as usize] = None,
            (Request::Step { task }, 20) => self.finished(task, place, answer.1),
            _ => (),
        }
    }

    fn finished(&mut self, task: u64, place: Place, unit: u64) {
        let asked = self.asked[task as usize].take();
        match (place, asked) {
            (Place::AllocateCache, _) => {
                let bytes = crate::classes::block(self.pool.tasks[task as usize].class);
                self.receive(Held { unit, bytes, task });
            }
            (Place::TakeStrip, Some(size)) => {
                let bytes = rounded(size);
                self.slots.set(unit, bytes, true);
                self.receive(Held { unit, bytes, task });
            }
            (Place::GiveStrip, _) => {
                if let Some(strip) = self.freeing[task as usize].take() {
                    self.slots.set(strip.unit, strip.bytes, false);
                }
            }
            _ => (),
        }
    }

    fn give_back(&mut self, task: u64, unit: u64) {
        let Some(index) = self.held.iter().position(|held| held.unit == unit) else { return };
        let held = self.held.swap_remove(index);
        let another = u64::from(held.task != task);
        if held.is_strip() {
            self.coverage.strips.freed_by_another += another;
            self.freeing[task as usize] = Some(held);
        } else {
            self.coverage.freed_by_another += another;
            self.cover(held, false);
        }
    }

    fn receive(&mut self, held: Held) {
        self.held.push(held);
        if !held.is_strip() {
            self.cover(held, true);
        }
        self.user_fills(self.held.len() - 1);
    }

    fn cover(&mut self, held: Held, covered: bool) {
        let first = held.unit as usize;
        self.covered[first..first + held.bytes as usize / 8].fill(covered);
    }

    /// A user writes arbitrary bytes into the whole of a block, or into a part of a strip, that it holds.
    pub fn user_fills(&mut self, index: usize) {
        let held = self.held[index];
        let whole = held.first()..held.first() + held.bytes as usize;
        if !held.is_strip() {
            self.random.fill(&mut self.area_before[whole.clone()]);
            self.lent.area.bytes_mut()[whole.clone()].copy_from_slice(&self.area_before[whole]);
            self.coverage.writes += 1;
            return;
        }
        let from = whole.start + 64 * self.random.below(held.bytes / 64) as usize;
        let part = from..(from + 512).min(whole.end);
        self.random.fill(&mut self.strips_before[part.clone()]);
        self.lent.strips.bytes_mut()[part.clone()].copy_from_slice(&self.strips_before[part]);
        self.coverage.strips.writes += 1;
    }
}
