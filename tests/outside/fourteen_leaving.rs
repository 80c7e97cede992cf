//! The bad values of leaving, one at a time, and the last good ones beside them: the counts that the search for a cache
//! reads, at the beginning and where the return of a cache ends, and what the task returns for, which is read there.

use crate::classes::{per_region, CLASSES};
use crate::damage::Bytes;
use crate::fourteen_cases::{case, in_range, put, Case, Change};
use crate::layout::*;
use crate::lists::SPARE_REGIONS;
use crate::pool::{Request, PLACES, REGIONS as MOST_REGIONS, TASKS as MOST_TASKS};

/// Leaving begins at the place of an idle task.
const IDLE: &[usize] = &[0];
/// The exchanges with which the return of a group may end.
const EXCHANGES: &[usize] = &[19, 22, 32];
const LAST_STEP: &[usize] = &[36];
/// The state of an anchor that is FULL.
const FULL: u64 = 2;

const fn begins(name: &'static str, change: Change) -> Case {
    Case { begun: |_, task| Some(Request::Leave { task }), ..case(name, IDLE, change) }
}

const fn begins_well(name: &'static str, change: Change) -> Case {
    Case { bad: false, ..begins(name, change) }
}

pub const LEAVE_CASES: &[Case] = &[
    begins("9 tasks, as leaving begins", |bytes, _, _| put(bytes, TASKS, 0, MOST_TASKS as u64 + 1)),
    begins("0 regions, as leaving begins", |bytes, _, _| put(bytes, REGIONS, 0, 0)),
    begins("17 regions, as leaving begins", |bytes, _, _| put(bytes, REGIONS, 0, MOST_REGIONS as u64 + 1)),
    begins("a place past the step list, as leaving begins", |bytes, task, _| put(bytes, TASK_PLACE, task, LAST + 1)),
    begins_well("the last place of the step list, as leaving begins", |bytes, task, _| {
        put(bytes, TASK_PLACE, task, LAST)
    }),
    begins("the first count that is not 0 is above n", |bytes, task, _| first_count(bytes, task, 1)),
    begins("the first count that is not 0 is 65,535", |bytes, task, _| {
        let class = first_cached(bytes, task, 0).unwrap_or(0);
        put_count(bytes, task, class, 65_535)
    }),
    begins("the count of the last class alone is above n", |bytes, task, _| {
        (0..CLASSES - 1).all(|class| put_count(bytes, task, class, 0)) && past_n(bytes, task, CLASSES - 1, 1)
    }),
    begins_well("the first count that is not 0 is n", |bytes, task, _| first_count(bytes, task, 0)),
    begins_well("a count above n behind the first that is not 0", |bytes, task, _| {
        let first = first_cached(bytes, task, 0).unwrap_or(CLASSES);
        first + 1 < CLASSES && past_n(bytes, task, first + 1, 1)
    }),
    begins_well("a count above n of another task", |bytes, task, _| past_n(bytes, (task + 1) % MOST_TASKS, 0, 1)),
    begins_well("any unit and any class before, as leaving begins", |bytes, task, _| {
        put(bytes, TASK_UNIT, task, 65_535) && put(bytes, TASK_CLASS, task, 255)
    }),
    begins_well("any count of an entry of no class, as leaving begins", |bytes, task, _| {
        (0..CLASSES).all(|class| put_count(bytes, task, class, 0)) && put_count(bytes, task, CLASSES, 65_535)
    }),
    case("the cache's own count is above n where a return ends", EXCHANGES, |bytes, task, place| {
        let class = class(bytes, task);
        ends(bytes, task, place) && past_n(bytes, task, class, 1)
    }),
    case("a unit of 16,385 where a cache's return ends", EXCHANGES, returns_for::<16_385>),
    case("a unit of 65,535 where a cache's return ends", EXCHANGES, returns_for::<65_535>),
    in_range("a unit of 16,383 where a cache's return ends", EXCHANGES, returns_for::<16_383>),
    in_range("a unit of 16,384 where a cache's return ends", EXCHANGES, |bytes, task, place| {
        search(bytes, task, place).is_some_and(|_| put(bytes, TASK_UNIT, task, LEAVING))
    }),
    in_range("a unit of 65,535 where blocks of the cache are left", EXCHANGES, |bytes, task, place| {
        let class = class(bytes, task);
        ends(bytes, task, place) && past_n(bytes, task, class, 0) && put(bytes, TASK_UNIT, task, 65_535)
    }),
    in_range("a unit of 65,535 where an exchange is lost", EXCHANGES, |bytes, task, place| {
        !won(bytes, task, place) && put(bytes, TASK_UNIT, task, 65_535)
    }),
    case("the next count that is not 0 is above n where a cache's return ends", EXCHANGES, |bytes, task, place| {
        leaves_on(bytes, task, place).is_some_and(|next| past_n(bytes, task, next, 1))
    }),
    in_range("the next count that is not 0 is n where a cache's return ends", EXCHANGES, |bytes, task, place| {
        leaves_on(bytes, task, place).is_some_and(|next| past_n(bytes, task, next, 0))
    }),
    in_range("a count above n of a class below where a cache's return ends", EXCHANGES, |bytes, task, place| {
        let class = class(bytes, task);
        leaves_on(bytes, task, place).is_some() && class > 0 && past_n(bytes, task, class - 1, 1)
    }),
    in_range("a count above n of a class above where a free's return ends", EXCHANGES, |bytes, task, place| {
        let class = class(bytes, task);
        search(bytes, task, place).is_some() && put(bytes, TASK_UNIT, task, 0) && past_n(bytes, task, class + 1, 1)
    }),
    in_range("any unit at the last step of leaving", LAST_STEP, |bytes, task, _| put(bytes, TASK_UNIT, task, 65_535)),
    in_range("any counts at the last step of leaving", LAST_STEP, |bytes, task, _| {
        (0..CLASSES).all(|class| past_n(bytes, task, class, 1))
    }),
];

/// The last place of the step list.
const LAST: u64 = PLACES as u64 - 1;

fn class(bytes: &Bytes, task: usize) -> usize {
    get(&bytes.control, TASK_CLASS, task) as usize
}

fn count(bytes: &Bytes, task: usize, class: usize) -> u64 {
    get(&bytes.control, COUNT, cache_index(task, class))
}

fn put_count(bytes: &mut Bytes, task: usize, class: usize, count: u64) -> bool {
    put(bytes, COUNT, cache_index(task, class), count)
}

/// A cache of n blocks and so many more.
fn past_n(bytes: &mut Bytes, task: usize, class: usize, more: u64) -> bool {
    put_count(bytes, task, class, per_region(class) + more)
}

fn first_cached(bytes: &Bytes, task: usize, from: usize) -> Option<usize> {
    (from..CLASSES).find(|&class| count(bytes, task, class) > 0)
}

/// The first cache that is not empty, or the first of all, has n blocks and so many more.
fn first_count(bytes: &mut Bytes, task: usize, more: u64) -> bool {
    let class = first_cached(bytes, task, 0).unwrap_or(0);
    past_n(bytes, task, class, more)
}

/// The anchor of the group's descriptor, and whether it is the one that the task noted.
fn anchor_noted(bytes: &Bytes, task: usize) -> (u64, bool) {
    let descriptor = get(&bytes.control, TASK_DESCRIPTOR, task) as usize;
    let word = get(&bytes.control, ANCHOR, descriptor);
    (word, word == get(&bytes.control, TASK_ANCHOR, task))
}

/// Whether the exchange at this place will be won.
fn won(bytes: &Bytes, task: usize, place: usize) -> bool {
    let list = if place == 19 { SPARE_REGIONS } else { class(bytes, task) };
    match place {
        32 => anchor_noted(bytes, task).1,
        _ => get(&bytes.control, HEAD, list) == get(&bytes.control, TASK_HEAD, task),
    }
}

/// Whether the exchange at this place will be won and end the return of a group: nothing of it is left to do.
fn ends(bytes: &Bytes, task: usize, place: usize) -> bool {
    let (word, _) = anchor_noted(bytes, task);
    let whole = (word >> 33) + get(&bytes.control, GROUP_COUNT, task) == per_region(class(bytes, task));
    won(bytes, task, place)
        && match place {
            19 => get(&bytes.control, TASK_STATE, task) != FULL,
            32 => word & 3 != FULL && !whole,
            _ => true,
        }
}

/// Empties the cache of the task's class, where the exchange ends the return of a group, so that what the task returns
/// for is read. Answers the class, where there is one above.
fn search(bytes: &mut Bytes, task: usize, place: usize) -> Option<usize> {
    let class = class(bytes, task);
    let reads = ends(bytes, task, place) && class + 1 < CLASSES && put_count(bytes, task, class, 0);
    reads.then_some(class)
}

fn returns_for<const UNIT: u64>(bytes: &mut Bytes, task: usize, place: usize) -> bool {
    search(bytes, task, place).is_some() && put(bytes, TASK_UNIT, task, UNIT)
}

/// Lets the task leave there. Answers the class with which it goes on, or the last one where all caches are empty.
fn leaves_on(bytes: &mut Bytes, task: usize, place: usize) -> Option<usize> {
    let class = search(bytes, task, place)?;
    put(bytes, TASK_UNIT, task, LEAVING);
    first_cached(bytes, task, class + 1).or(Some(CLASSES - 1))
}
