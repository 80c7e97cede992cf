//! The tests of a call in any memory, in their order, read by the documents of the layout: "Start tests 1, 2, 3. Other
//! calls test 1, 4, 2, 5, then 6 or 7, then 8, 9 or 10, 11. 14 comes where the bad value is read, before any write."
//! A start and a beginning are determined by them; of a step only the refusals before its place is looked at, the
//! class, which every step reads, the steps of strips and the last one of leaving.

use crate::classes::{is_first, CLASSES, UNITS_PER_REGION};
use crate::damage::Bytes;
use crate::layout::*;
use crate::leave_steps;
use crate::pieces::{BEGUN, HELD, LAST};
use crate::pool::{self, Place, Request, PLACES};
use crate::strip_steps::{self, order_at, slot_of};
use crate::strips::{FIRST_UNIT, STRIPS};

/// The code that is due, or none for a step on the area that passes the tests.
pub fn code(bytes: &Bytes, request: Request) -> Option<u64> {
    let task = match request {
        Request::Start { tasks } => return Some(start(bytes, tasks)),
        Request::Allocate { task, .. } | Request::Free { task, .. } => task,
        Request::Leave { task } | Request::Step { task } => task,
    };
    let common = common(bytes, task);
    if common != 0 {
        return Some(common);
    }
    let place = get(&bytes.control, TASK_PLACE, task as usize);
    match request {
        _ if place >= PLACES as u64 => Some(14),
        Request::Step { .. } if place == 0 => Some(7),
        Request::Step { .. } if get(&bytes.control, TASK_CLASS, task as usize) >= CLASSES as u64 => Some(14),
        Request::Step { .. } if place == Place::Leave.number() as u64 => Some(20),
        Request::Step { .. } => strip_steps::due(&bytes.control, task as usize, place as usize).map(|due| due.0 .0),
        _ if place != 0 => Some(6),
        Request::Leave { .. } => Some(leave_steps::begun(&bytes.control, task as usize).0),
        Request::Allocate { size: 0, .. } => Some(8),
        Request::Allocate { size, .. } => Some(if size > STRIPS { 9 } else { 0 }),
        Request::Free { unit, .. } if unit >= FIRST_UNIT => Some(free_of_strip(bytes, unit)),
        Request::Free { unit, .. } => Some(free(bytes, unit)),
        Request::Start { .. } => None,
    }
}

fn start(bytes: &Bytes, tasks: u64) -> u64 {
    let area = bytes.area.len();
    if bytes.control.len() != 8192 {
        1
    } else if area == 0 || area % 4096 != 0 || area > 65_536 || bytes.strips != STRIPS as usize {
        2
    } else if tasks == 0 || tasks > 8 {
        3
    } else {
        0
    }
}

/// Tests 1, 4, 2 and 5, with the stored numbers that 4 and 2 read.
pub fn common(bytes: &Bytes, task: u64) -> u64 {
    if bytes.control.len() != 8192 {
        return 1;
    }
    let (tasks, regions) = (get(&bytes.control, TASKS, 0), get(&bytes.control, REGIONS, 0));
    match (tasks, regions) {
        (9.., _) => 14,
        (0, _) => 4,
        (_, 0) => 14,
        _ if regions > pool::REGIONS as u64 => 14,
        _ if bytes.area.len() as u64 != regions * 4096 || bytes.strips != STRIPS as usize => 2,
        _ if task >= tasks => 5,
        _ => 0,
    }
}

/// Tests 10 and 11. The values are read in the order in which each is needed to find the next: the map entry, the
/// descriptor's region, its anchor, its class, the mark.
fn free(bytes: &Bytes, unit: u64) -> u64 {
    let view = View { control: &bytes.control, area: &bytes.area };
    let regions = view.get(REGIONS, 0);
    let region = unit / UNITS_PER_REGION;
    if region >= regions {
        return 10;
    }
    let named = match view.get(MAP, region as usize) {
        0 => return 10,
        65.. => return 14,
        entry => entry as usize - 1,
    };
    let back = view.get(DESCRIPTOR_REGION, named);
    if back != region {
        return if back >= regions { 14 } else { 10 };
    }
    match view.anchor(named) {
        (3, _, _) | (_, 513.., _) | (_, _, 513..) => return 14,
        (0, _, _) => return 10,
        _ => (),
    }
    match view.get(DESCRIPTOR_CLASS, named) as usize {
        CLASSES.. => 14,
        class => block_and_mark(&view, unit, class),
    }
}

/// Tests 10 and 11 of a unit from 8,192 up, by the slot's byte.
fn free_of_strip(bytes: &Bytes, unit: u64) -> u64 {
    let Some(slot) = slot_of(unit) else { return 10 };
    match get(&bytes.control, SLOT_BYTES, slot) {
        0 => 10,
        _ if order_at(&bytes.control, slot).is_none() => 14,
        BEGUN..=LAST => 11,
        _ => 0,
    }
}

fn block_and_mark(view: &View, unit: u64, class: usize) -> u64 {
    if !is_first(class, unit) {
        return 10;
    }
    if view.mark(unit as usize) {
        0
    } else {
        11
    }
}

/// Whether an accepted beginning changed nothing of control but the task's own fields and, for a free, cleared the
/// block's mark or noted in the slot's byte that the strip's free has begun. That of leaving is known to the byte.
pub fn beginning_changed_its_own(before: &[u8], after: &[u8], request: Request) -> bool {
    let (task, unit) = match request {
        Request::Allocate { task, .. } => (task as usize, None),
        Request::Free { task, unit } => (task as usize, Some(unit as usize)),
        Request::Leave { task } => return leave_steps::begun(before, task as usize).1 == after,
        _ => return true,
    };
    let mut due = before.to_vec();
    for column in OF_A_TASK {
        set(&mut due, column, task, get(after, column, task));
    }
    if let Some(slot) = unit.and_then(|unit| slot_of(unit as u64)) {
        let held = get(before, SLOT_BYTES, slot);
        set(&mut due, SLOT_BYTES, slot, held + BEGUN - HELD);
    } else if let Some(unit) = unit {
        let word = get(before, MARKS, unit / 64);
        set(&mut due, MARKS, unit / 64, word & !(1 << (unit % 64)));
    }
    due == after
}
