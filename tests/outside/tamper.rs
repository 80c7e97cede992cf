//! Deliberate faults on the library's side of the comparison: after a true call the memories or the answer are changed
//! as a broken library would leave them. They show that the checks on bytes notice what no fault of the plain pool
//! can bring about.

use crate::classes::{CLASSES, UNIT};
use crate::faults::Fault;
use crate::layout::{self, cache_index, View, COUNT, SLOT_BYTES, TASK_CLASS, TASK_PLACE, TASK_UNIT, TOP};
use crate::library::Lent;
use crate::memory::Memory;
use crate::pieces::{BEGUN, HELD};
use crate::pool::{Answer, Request, ALL_UNITS, TASKS};
use crate::strip_steps::slot_of;
use crate::strips::{SLOT, SLOTS, STRIPS};
use std::sync::OnceLock;

/// Set once, where the program is asked for a fault.
pub static TAMPERING: OnceLock<Fault> = OnceLock::new();

/// What a fault needs to know of the state before the call.
pub struct Before {
    /// The place and the class of the task that steps.
    pub place: u64,
    class: u64,
    /// A byte of control that a start has to write.
    byte: u8,
}

const SKIPPED: usize = 8000;
/// The cache of the last task and the last class, the entry behind it, which no class has, and the cache that the first
/// written schedule carves into.
const LAST_CACHE: usize = cache_index(TASKS - 1, CLASSES - 1);
const ENTRY_OF_NO_CLASS: usize = LAST_CACHE + 1;
const FIRST_CARVED: usize = cache_index(0, CLASSES - 1);

/// The call's answer and memories as the broken library would leave them.
pub fn after(lent: &mut Lent, request: Request, before: Before, answer: Answer) -> Answer {
    let Some(fault) = TAMPERING.get() else { return answer };
    let answer = after_strip(lent, *fault, before.place, answer);
    let answer = after_leave(&mut lent.control, *fault, request, before.place, answer);
    let Before { place, class, byte } = before;
    let Lent { control, area, .. } = lent;
    let refused = matches!(answer.0, 1..=11 | 14);
    let start = matches!(request, Request::Start { .. });
    let step = matches!(request, Request::Step { .. });
    match fault {
        Fault::RefusedWritesControl if refused => flip(control, 7000),
        Fault::RefusedWritesArea if refused => flip(area, 20),
        Fault::StartWritesArea if start && !refused => flip(area, 100),
        Fault::StartSkipsByte if start && !refused => control.bytes_mut()[SKIPPED] = byte,
        Fault::BeginningWritesArea if !start && !step && !refused => flip(area, 6),
        Fault::BeginningWritesOthers if !start && !step && !refused => flip_top(control, LAST_CACHE),
        Fault::NoClassWritten if !start && !step && !refused => flip_top(control, ENTRY_OF_NO_CLASS),
        Fault::NoClassRead if place > 0 && entry_of_no_class(control) != ALL_UNITS as u64 => return (14, 0),
        Fault::StepTouchesHeld if place == 2 && !refused => flip_held(control, area),
        Fault::StepWritesTwoLinks if place == 27 => flip(area, area.len() / 2 + 1),
        Fault::LinkOfEightBytes if place == 27 => {
            flip(area, (layout::get(control.bytes(), TOP, FIRST_CARVED) * UNIT) as usize + 4)
        }
        Fault::WritesBehindArea => area.flip_behind(),
        Fault::FourteenInRun if place == 30 => return (14, 0),
        Fault::ValueUnderWay if place == 27 && answer.0 == 0 => return (0, 1),
        Fault::BadLinkPassed if place == 25 && answer.0 == 14 => return (0, 0),
        Fault::Unaligned if place == 1 && answer.0 == 20 => return (20, answer.1 + 1),
        Fault::BetweenBlocks if place == 1 && answer.0 == 20 => return (20, answer.1 + 2),
        Fault::BadClassPassed if class == CLASSES as u64 && answer.0 == 14 => return (0, 0),
        Fault::BadHeadPassed if place == 2 && answer.0 == 14 => return (0, 0),
        Fault::TagNotCounted if place == 22 && !refused => clear_tags(control),
        _ => (),
    }
    answer
}

/// The same for the faults that are about strips.
fn after_strip(lent: &mut Lent, fault: Fault, place: u64, answer: Answer) -> Answer {
    let Lent { control, strips, .. } = lent;
    let refused = matches!(answer.0, 1..=11 | 14);
    let slot = if place == 34 && answer.0 == 20 { slot_of(answer.1) } else { None };
    match (fault, slot) {
        (Fault::RefusedWritesStrips, _) if refused => flip(strips, 700),
        (Fault::TakeWritesStrip, Some(slot)) => flip(strips, slot * SLOT as usize),
        (Fault::StepTouchesStrip, _) if place == 2 && !refused => flip_held_strip(control, strips),
        (Fault::StripUnitOff, Some(_)) => return (20, answer.1 + 1),
        (Fault::StripOrderOff, Some(slot)) => {
            let byte = layout::get(control.bytes(), SLOT_BYTES, slot);
            layout::set(control.bytes_mut(), SLOT_BYTES, slot, byte.max(HELD + 1) - 1);
        }
        (Fault::SixteenEarly, Some(_)) => return (16, 0),
        (Fault::SlotPassed, _) if place == 35 && answer.0 == 14 => return (20, 0),
        (Fault::StripsLengthPassed, _) if answer.0 == 2 && strips.len() as u64 != STRIPS => return (0, 0),
        _ => (),
    }
    answer
}

/// The same for the faults that are about leaving.
fn after_leave(control: &mut Memory, fault: Fault, request: Request, place: u64, answer: Answer) -> Answer {
    let begins = match request {
        Request::Leave { task } if answer.0 == 0 => Some(task as usize),
        _ => None,
    };
    let leave = matches!(request, Request::Leave { .. });
    match (fault, begins) {
        (Fault::LeaveWritesCount, Some(task)) => flip(control, COUNT.first + COUNT.width * cache_index(task, 0)),
        (Fault::LeaveUnitKept, Some(task)) => layout::set(control.bytes_mut(), TASK_UNIT, task, 0),
        (Fault::LeaveCountPassed, _) if leave && answer.0 == 14 => return (0, 0),
        (Fault::LeaveBusyPassed, _) if leave && answer.0 == 6 => return (0, 0),
        (Fault::LeaveUnitPassed, _) if matches!(place, 19 | 22 | 32) && answer.0 == 14 => return (0, 0),
        (Fault::LeaveStepWrites, _) if place == 36 && answer.0 == 20 => flip(control, TASK_CLASS.first),
        (Fault::LeaveEndsWithValue, _) if place == 36 && answer.0 == 20 => return (20, 1),
        _ => (),
    }
    answer
}

pub fn before(lent: &Lent, request: Request) -> Before {
    let control = &lent.control;
    let (place, class) = match request {
        Request::Step { task } if task < TASKS as u64 && control.len() == 8192 => {
            let field = |column| layout::get(control.bytes(), column, task as usize);
            (field(TASK_PLACE), field(TASK_CLASS))
        }
        _ => (0, 0),
    };
    Before { place, class, byte: control.bytes().get(SKIPPED).copied().unwrap_or(0) }
}

pub fn flip(memory: &mut Memory, place: usize) {
    if let Some(byte) = memory.bytes_mut().get_mut(place) {
        *byte ^= 1;
    }
}

fn flip_top(control: &mut Memory, cache: usize) {
    flip(control, TOP.first + TOP.width * cache)
}

fn entry_of_no_class(control: &Memory) -> u64 {
    layout::get(control.bytes(), TOP, ENTRY_OF_NO_CLASS)
}

/// Changes a byte of a block in a user's hands, where a link would be.
fn flip_held(control: &Memory, area: &mut Memory) {
    let view = View { control: control.bytes(), area: area.bytes() };
    let marked = (0..area.len() / 8).find(|&unit| view.mark(unit));
    if let Some(unit) = marked {
        flip(area, unit * 8 + 1);
    }
}

/// Changes a byte of a strip in a user's hands.
fn flip_held_strip(control: &Memory, strips: &mut Memory) {
    let in_hand = |slot: &usize| (HELD..BEGUN).contains(&layout::get(control.bytes(), SLOT_BYTES, *slot));
    if let Some(slot) = (0..SLOTS).find(in_hand) {
        flip(strips, slot * SLOT as usize + 9);
    }
}

fn clear_tags(control: &mut Memory) {
    for list in 0..crate::lists::LISTS {
        let word = layout::get(control.bytes(), layout::HEAD, list);
        layout::set(control.bytes_mut(), layout::HEAD, list, word & 0xFFFF_FFFF);
    }
}
