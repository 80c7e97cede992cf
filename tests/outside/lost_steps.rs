//! Lost exchanges on any bytes of control: which exchange is lost, by the words that stand there, and what a call makes
//! of the eight numbers. "Any value is in range", so this is defined for every content.

use crate::coverage::EXCHANGES;
use crate::layout::*;
use crate::lists::{SPARE_DESCRIPTORS, SPARE_REGIONS};
use crate::losses::{is_told, MOST};
use crate::pool::{self, Answer, Request};

/// The numbers of all tasks.
pub type Numbers = [u64; pool::TASKS];

pub fn numbers(control: &[u8]) -> Numbers {
    std::array::from_fn(|task| get(control, TASK_LOST, task))
}

/// Whether an exchange at this place is lost: the word is another one than the task has noted.
fn is_lost(control: &[u8], task: usize, place: usize) -> bool {
    let field = |column| get(control, column, task);
    let list = match place {
        4 | 22 => field(TASK_CLASS) as usize,
        7 | 13 | 16 => SPARE_DESCRIPTORS,
        10 | 19 => SPARE_REGIONS,
        24 | 32 => return field(TASK_ANCHOR) != get(control, ANCHOR, field(TASK_DESCRIPTOR) as usize),
        _ => return false,
    };
    field(TASK_HEAD) != get(control, HEAD, list)
}

pub fn is_exchange(place: usize) -> bool {
    EXCHANGES.iter().any(|(exchange, _)| *exchange == place)
}

/// Where a lost exchange goes back to: "A lost exchange goes back to the head read"; of an anchor, "lost: read again".
pub fn read_of(place: usize) -> usize {
    match place {
        24 => 23,
        exchange => exchange - 2,
    }
}

/// Whether an accepted step is a lost exchange. An error where the words and the place to which the task went say
/// different things.
pub fn lost(before: &[u8], after: &[u8], task: usize, place: usize) -> Result<bool, String> {
    if !is_exchange(place) {
        return Ok(false);
    }
    let (lost, to) = (is_lost(before, task, place), get(after, TASK_PLACE, task) as usize);
    match lost == (to == read_of(place)) {
        true => Ok(lost),
        false => Err(format!("the exchange of task {task} at place {place} leads to {to}, lost: {lost}")),
    }
}

/// The number that a call has to give, and those of all tasks that it has to leave. The step was a lost exchange or
/// not; a refused call leaves all.
pub fn due(before: &[u8], request: Request, answer: Answer, lost: bool) -> (u64, Numbers) {
    let mut all = numbers(before);
    match (request, answer.0) {
        (Request::Start { .. }, 0) => all = [0; pool::TASKS],
        (Request::Allocate { task, .. } | Request::Free { task, .. } | Request::Leave { task }, 0) => {
            all[task as usize] = 0;
        }
        (Request::Step { task }, code) if lost || is_told(code) => {
            let own = &mut all[task as usize];
            *own = (*own + u64::from(lost)).min(MOST);
            return (if is_told(code) { *own } else { 0 }, all);
        }
        _ => (),
    }
    (0, all)
}
