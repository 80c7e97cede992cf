//! Leaving on any bytes of control: its beginning, its last step, and where the return of a group leads. Where it looks
//! for the next cache, the counts that it reads are tested: 14 above n.

use crate::classes::{per_region, CLASSES};
use crate::layout::{cache_index, get, set, COUNT, GROUP_COUNT, LEAVING};
use crate::layout::{TASK_CLASS, TASK_LOST, TASK_PLACE, TASK_UNIT};
use crate::pool::Place;

/// A count that was read is above n.
struct Above;

/// The first class from this one on whose cache is not empty; none where all are empty.
fn next(control: &[u8], task: usize, first: usize) -> Result<Option<usize>, Above> {
    let count = |class: usize| get(control, COUNT, cache_index(task, class));
    match (first..CLASSES).find(|&class| count(class) > 0) {
        Some(class) if count(class) > per_region(class) => Err(Above),
        found => Ok(found),
    }
}

/// Leaving goes on with this class, or with its last step.
fn go_on(control: &mut [u8], task: usize, next: Option<usize>) {
    let place = if next.is_some() { Place::Group } else { Place::Leave };
    set(control, TASK_PLACE, task, place.number() as u64);
    if let Some(class) = next {
        set(control, TASK_CLASS, task, class as u64);
        set(control, GROUP_COUNT, task, 0);
    }
}

/// The code that is due to an idle task that begins to leave, and the control memory that is.
pub fn begun(control: &[u8], task: usize) -> (u64, Vec<u8>) {
    let mut after = control.to_vec();
    let Ok(next) = next(control, task, 0) else { return (14, after) };
    set(&mut after, TASK_UNIT, task, LEAVING);
    set(&mut after, TASK_LOST, task, 0);
    go_on(&mut after, task, next);
    (0, after)
}

/// What a step that ended the return of a group leaves in the fields of the task that tell where it leads: by the count
/// of its cache, by its unit, and by the counts of the classes above. None where the step had to be 14.
fn led(control: &[u8], task: usize) -> Option<Vec<u8>> {
    let class = get(control, TASK_CLASS, task) as usize;
    let unit = get(control, TASK_UNIT, task);
    let mut after = control.to_vec();
    if get(control, COUNT, cache_index(task, class)) > 0 {
        go_on(&mut after, task, Some(class));
    } else if unit < LEAVING {
        set(&mut after, TASK_PLACE, task, Place::FreeCache.number() as u64);
    } else {
        let next = next(control, task, class + 1).ok().filter(|_| unit == LEAVING)?;
        go_on(&mut after, task, next);
    }
    Some(after)
}

/// Whether an accepted step at this place went on as leaving and free do: the last step of leaving makes the task idle
/// and changes nothing else; an exchange that ended the return of a group leads where it has to.
pub fn went_on(before: &[u8], after: &[u8], task: usize, place: usize) -> bool {
    let to = get(after, TASK_PLACE, task) as usize;
    let ends = [Place::FreeCache, Place::Group, Place::Leave].iter().any(|end| end.number() == to);
    if place == Place::Leave.number() {
        let mut due = before.to_vec();
        set(&mut due, TASK_PLACE, task, Place::Idle.number() as u64);
        return due == after;
    }
    if !matches!(place, 19 | 22 | 32) || !ends {
        return true;
    }
    let same = |due: &[u8]| {
        let told = [TASK_PLACE, TASK_CLASS, GROUP_COUNT, TASK_UNIT];
        told.iter().all(|&column| get(due, column, task) == get(after, column, task))
    };
    led(before, task).is_some_and(|due| same(&due))
}
