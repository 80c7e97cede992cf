//! Deliberate faults of the library's numbers of lost exchanges: after a true call the eight numbers or the answer are
//! changed as a broken library would leave them.

use crate::faults::Fault;
use crate::layout::{self, TASK_LOST, TASK_PLACE};
use crate::library::{Lent, Reply};
use crate::losses::{is_told, MOST};
use crate::lost_steps::{is_exchange, numbers, read_of, Numbers};
use crate::pool::{Request, TASKS};
use crate::tamper::TAMPERING;

/// The numbers before the call, where a fault is asked for and the memory has them.
pub fn before(lent: &Lent) -> Option<Numbers> {
    let whole = TAMPERING.get().is_some() && lent.control.len() == 8192;
    whole.then(|| numbers(lent.control.bytes()))
}

fn put(lent: &mut Lent, task: usize, number: u64) {
    layout::set(lent.control.bytes_mut(), TASK_LOST, task, number);
}

/// The call's reply and numbers as the broken library would leave them.
pub fn after(lent: &mut Lent, request: Request, place: u64, before: Option<Numbers>, reply: Reply) -> Reply {
    let (Some(&fault), Some(before)) = (TAMPERING.get(), before) else { return reply };
    match request {
        Request::Start { .. } => {
            if fault == Fault::StartKeepsLost && reply.answer.0 == 0 {
                (0..TASKS).for_each(|task| put(lent, task, before[task]));
            }
            reply
        }
        Request::Allocate { task, .. } | Request::Free { task, .. } | Request::Leave { task } if task < 8 => {
            after_beginning(lent, task as usize, fault, before[task as usize], reply)
        }
        Request::Step { task } if task < 8 => {
            let lost = after_step(lent, task as usize, fault, (place as usize, before[task as usize]), reply);
            Reply { lost, ..reply }
        }
        _ => reply,
    }
}

fn after_beginning(lent: &mut Lent, task: usize, fault: Fault, before: u64, reply: Reply) -> Reply {
    let refused = reply.answer.0 != 0;
    match fault {
        Fault::BeginningKeepsLost if !refused => put(lent, task, before),
        Fault::BeginningTellsLost if !refused => return Reply { lost: before, ..reply },
        Fault::RefusedTellsLost if refused => return Reply { lost: before, ..reply },
        _ => (),
    }
    reply
}

/// The number that the step tells. The place and the task's number are those before it.
fn after_step(lent: &mut Lent, task: usize, fault: Fault, (place, before): (usize, u64), reply: Reply) -> u64 {
    let (code, now) = (reply.answer.0, numbers(lent.control.bytes()));
    let to = layout::get(lent.control.bytes(), TASK_PLACE, task) as usize;
    let lost = code == 0 && is_exchange(place) && to == read_of(place);
    let next = (task + 1) % TASKS;
    match fault {
        Fault::AnchorsNotCounted if lost && matches!(place, 24 | 32) => put(lent, task, before),
        Fault::PushesNotCounted if lost && (13..=22).contains(&place) => put(lent, task, before),
        Fault::CountWraps if lost && before == MOST => put(lent, task, 0),
        Fault::CountsForOthers if lost => put(lent, next, (now[next] + 1).min(MOST)),
        Fault::EndClearsLost if is_told(code) => put(lent, task, 0),
        Fault::UnderWayTellsLost if code == 0 => return now[task],
        Fault::RefusedTellsLost if matches!(code, 1..=11) => return now[task],
        Fault::FourteenTellsLost if code == 14 => return now[task],
        Fault::SixteenTellsNone if code == 16 => return 0,
        Fault::TellsNextTask if is_told(code) => return now[next],
        Fault::LostHighFirst if is_told(code) => return u64::from((now[task] as u32).swap_bytes()),
        _ => (),
    }
    reply.lost
}

/// The same for a report, which tells none.
pub fn after_report(lent: &Lent, reply: Reply) -> Reply {
    match (TAMPERING.get(), before(lent)) {
        (Some(Fault::ReportTellsLost), Some(numbers)) => Reply { lost: numbers[0], ..reply },
        _ => reply,
    }
}
