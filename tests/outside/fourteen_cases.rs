//! The bad values, one at a time, and the last good ones of a table. Each change is made where the step list has the
//! value read at the place named.

use crate::classes::{per_region, tail, units, CLASSES, UNIT, UNITS_PER_REGION};
use crate::damage::Bytes;
use crate::layout::*;
use crate::lists::{SPARE_DESCRIPTORS, SPARE_REGIONS};
use crate::losses::MOST;
use crate::pieces::{BEGUN, HELD};
use crate::pool::{self, Request};
use crate::strips::{unit_of, SLOTS};

pub struct Case {
    pub name: &'static str,
    pub places: &'static [usize],
    /// Changes the value for this task at this place; false where the state has no such value.
    pub change: Change,
    /// Whether 14 is due; if not, any other code is.
    pub bad: bool,
    /// What an idle task begins, found before the change.
    pub begun: fn(&Bytes, u64) -> Option<Request>,
}

pub type Change = fn(&mut Bytes, usize, usize) -> bool;

pub const fn case(name: &'static str, places: &'static [usize], change: Change) -> Case {
    Case { name, places, change, bad: true, begun: free_held }
}

pub const fn in_range(name: &'static str, places: &'static [usize], change: Change) -> Case {
    Case { name, places, change, bad: false, begun: free_held }
}

const HEAD_READS: &[usize] = &[2, 5, 8, 11, 14, 17, 20];
const EXCHANGES: &[usize] = &[4, 7, 10, 13, 16, 19, 22];
/// A free begins at the place of an idle task.
const FREE: &[usize] = &[0];
const ALL: &[usize] = &[
    1, 2, 3, 4, 5, 6, 7, 8, 9, 10, 11, 12, 13, 14, 15, 16, 17, 18, 19, 20, 21, 22, 23, 24, 25, 26, 27, 28, 29, 30, 31,
    32, 33, 34, 35, 36,
];

/// The last place of the step list.
const LAST_PLACE: u64 = pool::PLACES as u64 - 1;

/// The first class past the table.
const PAST: u64 = CLASSES as u64;

pub const CASES: &[Case] = &[
    case("the started number of tasks is 9", ALL, |bytes, _, _| put(bytes, TASKS, 0, 9)),
    case("the started number of regions is 0", ALL, |bytes, _, _| put(bytes, REGIONS, 0, 0)),
    case("the started number of regions is 17", ALL, |bytes, _, _| put(bytes, REGIONS, 0, pool::REGIONS as u64 + 1)),
    case("a place past the step list", ALL, |bytes, task, _| put(bytes, TASK_PLACE, task, LAST_PLACE + 1)),
    in_range("the last place of the step list, as a free begins", FREE, |bytes, task, _| {
        put(bytes, TASK_PLACE, task, LAST_PLACE) && held(bytes).is_some()
    }),
    case("a place past the step list, as a free begins", FREE, |bytes, task, _| {
        put(bytes, TASK_PLACE, task, LAST_PLACE + 1) && held(bytes).is_some()
    }),
    in_range("a number of lost exchanges of 4,294,967,295", ALL, |bytes, task, _| put(bytes, TASK_LOST, task, MOST)),
    in_range("the last class of the table", &[1, 2], task_class::<{ PAST - 1 }>),
    case("the first class past the table", ALL, task_class::<PAST>),
    case("the second class past the table", ALL, task_class::<{ PAST + 1 }>),
    case("the third class past the table", ALL, task_class::<{ PAST + 2 }>),
    case("the fourth class past the table", ALL, task_class::<{ PAST + 3 }>),
    case("a class of 255", ALL, task_class::<255>),
    in_range("a descriptor of the last class of the table", FREE, descriptor_class::<{ PAST - 1 }>),
    case("a descriptor of the first class past the table", FREE, descriptor_class::<PAST>),
    case("a descriptor of the second class past the table", FREE, descriptor_class::<{ PAST + 1 }>),
    case("a descriptor of the third class past the table", FREE, descriptor_class::<{ PAST + 2 }>),
    case("a descriptor of the fourth class past the table", FREE, descriptor_class::<{ PAST + 3 }>),
    case("a descriptor of class 255", FREE, descriptor_class::<255>),
    case("a head's item that there is not", HEAD_READS, |bytes, task, place| bad_head(bytes, task, place)),
    case("a head's item that there is not, at the exchange", EXCHANGES, |bytes, task, place| {
        bad_head(bytes, task, place)
    }),
    case("a next that there is not", &[3, 6, 9], bad_next),
    case("an anchor's state 3", &[23, 24, 30, 32], |bytes, task, place| {
        bad_anchor(bytes, task, place, |word| word | 3)
    }),
    case("an anchor's avail 513", &[23, 24, 30, 32], |bytes, task, place| {
        bad_anchor(bytes, task, place, |word| anchor(word & 3, 513, word >> 33))
    }),
    case("an anchor's count 513", &[23, 24, 30, 32], |bytes, task, place| {
        bad_anchor(bytes, task, place, |word| anchor(word & 3, word >> 2 & 1023, 513))
    }),
    case("a descriptor that there is not", &[12, 15, 21, 23, 24, 26], |bytes, task, _| {
        put(bytes, TASK_DESCRIPTOR, task, 64)
    }),
    case("a region that there is not", &[18, 25, 26, 27, 30, 33], |bytes, task, _| {
        let regions = get(&bytes.control, REGIONS, 0);
        put(bytes, TASK_REGION, task, regions)
    }),
    case("a cache's top that names none", &[1, 29], |bytes, task, _| bad_top(bytes, task, |_| 8192)),
    case("a cache's top that is no block of the class", &[1, 29], |bytes, task, _| {
        units(class(bytes, task)) > 1 && bad_top(bytes, task, |unit| unit + 1)
    }),
    case("a cache's top behind a region's last block", &[1, 29], |bytes, task, _| {
        let class = class(bytes, task);
        let behind = tail(class);
        behind < UNITS_PER_REGION && bad_top(bytes, task, |unit| unit / UNITS_PER_REGION * UNITS_PER_REGION + behind)
    }),
    case("a cache's count above n", &[1, 28, 29], |bytes, task, _| {
        let class = class(bytes, task);
        put(bytes, COUNT, cache_index(task, class), per_region(class) + 1)
    }),
    case("a link below a cache's top that is no block", &[1, 29], bad_cache_link),
    case("a map entry that names none", &[30], |bytes, task, _| {
        let region = get(&bytes.control, TASK_REGION, task) as usize;
        put(bytes, MAP, region, 0)
    }),
    case("a map entry that there is not", &[30], |bytes, task, _| {
        let region = get(&bytes.control, TASK_REGION, task) as usize;
        put(bytes, MAP, region, 65)
    }),
    case("a count that would pass n", &[32], |bytes, task, place| {
        let blocks = per_region(class(bytes, task));
        bad_both(bytes, task, place, anchor(1, 0, blocks))
    }),
    case("an anchor to take a chain from that is FULL", &[23, 24], |bytes, task, place| {
        let blocks = per_region(class(bytes, task));
        bad_both(bytes, task, place, anchor(2, blocks, 0))
    }),
    case("an anchor to take a chain from that is PARTIAL with count 0", &[23, 24], |bytes, task, place| {
        bad_both(bytes, task, place, anchor(1, 0, 0))
    }),
    case("a link n while more blocks are due", &[25], |bytes, task, _| {
        let blocks = per_region(class(bytes, task)) as u32;
        bad_chain_link(bytes, task, blocks)
    }),
    case("a link of 4,294,967,295 while more blocks are due", &[25], |bytes, task, _| {
        bad_chain_link(bytes, task, u32::MAX)
    }),
    case("a block to move or carve past n", &[25, 27], |bytes, task, _| past_n(bytes, task, TASK_INDEX)),
    case("a taken chain of none left", &[25], |bytes, task, _| put(bytes, TASK_LEFT, task, 0)),
    case("a block to free that is no block of the class", &[28], |bytes, task, _| {
        let unit = get(&bytes.control, TASK_UNIT, task);
        let class = class(bytes, task);
        let room = get(&bytes.control, COUNT, cache_index(task, class)) < per_region(class);
        room && units(class) > 1 && put(bytes, TASK_UNIT, task, unit + 1)
    }),
    case("a group's last block past n", &[31], |bytes, task, _| past_n(bytes, task, GROUP_LAST)),
    case("a group's first block past n", &[32], |bytes, task, _| past_n(bytes, task, GROUP_FIRST)),
];

pub fn put(bytes: &mut Bytes, column: Column, index: usize, value: u64) -> bool {
    set(&mut bytes.control, column, index, value);
    true
}

/// Every step reads the class of its request.
fn task_class<const CLASS: u64>(bytes: &mut Bytes, task: usize, _: usize) -> bool {
    put(bytes, TASK_CLASS, task, CLASS)
}

/// The class of the descriptor of a block in a user's hands, which the beginning of its free reads.
fn descriptor_class<const CLASS: u64>(bytes: &mut Bytes, _: usize, _: usize) -> bool {
    let entry = held(bytes).map(|unit| get(&bytes.control, MAP, (unit / UNITS_PER_REGION) as usize) as usize);
    entry.is_some_and(|entry| entry > 0 && put(bytes, DESCRIPTOR_CLASS, entry - 1, CLASS))
}

/// The lowest block in a user's hands.
pub fn held(bytes: &Bytes) -> Option<u64> {
    let view = View { control: &bytes.control, area: &bytes.area };
    (0..bytes.area.len() as u64 / UNIT).find(|&unit| view.mark(unit as usize))
}

/// The free of the lowest block in a user's hands begins.
fn free_held(bytes: &Bytes, task: u64) -> Option<Request> {
    held(bytes).map(|unit| Request::Free { task, unit })
}

/// The highest strip in a user's hands.
pub fn held_strip(bytes: &Bytes) -> Option<u64> {
    let in_hand = |slot: &usize| (HELD..BEGUN).contains(&get(&bytes.control, SLOT_BYTES, *slot));
    (0..SLOTS).rev().find(in_hand).map(unit_of)
}

fn class(bytes: &Bytes, task: usize) -> usize {
    get(&bytes.control, TASK_CLASS, task) as usize
}

fn past_n(bytes: &mut Bytes, task: usize, column: Column) -> bool {
    let blocks = per_region(class(bytes, task));
    put(bytes, column, task, blocks)
}

/// The list of the move that has this place.
fn list(bytes: &Bytes, task: usize, place: usize) -> usize {
    match (place - 2) / 3 {
        0 | 6 => class(bytes, task),
        2 | 5 => SPARE_REGIONS,
        _ => SPARE_DESCRIPTORS,
    }
}

fn bad_head(bytes: &mut Bytes, task: usize, place: usize) -> bool {
    let list = list(bytes, task, place);
    let most = if list == SPARE_REGIONS { get(&bytes.control, REGIONS, 0) } else { 64 };
    let tag = get(&bytes.control, HEAD, list) >> 32 << 32;
    put(bytes, HEAD, list, tag | (most + 1))
}

fn bad_next(bytes: &mut Bytes, task: usize, place: usize) -> bool {
    let item = (get(&bytes.control, TASK_HEAD, task) & 0xFFFF_FFFF) as usize - 1;
    if place == 9 {
        let regions = get(&bytes.control, REGIONS, 0);
        return put(bytes, REGION_NEXT, item, regions + 1);
    }
    put(bytes, DESCRIPTOR_NEXT, item, 65)
}

/// The descriptor whose anchor is read at this place.
fn descriptor(bytes: &Bytes, task: usize, place: usize) -> usize {
    let region = get(&bytes.control, TASK_REGION, task) as usize;
    let named =
        if place >= 30 { get(&bytes.control, MAP, region) } else { get(&bytes.control, TASK_DESCRIPTOR, task) + 1 };
    named as usize - 1
}

fn bad_anchor(bytes: &mut Bytes, task: usize, place: usize, bad: fn(u64) -> u64) -> bool {
    let descriptor = descriptor(bytes, task, place);
    let word = get(&bytes.control, ANCHOR, descriptor);
    put(bytes, ANCHOR, descriptor, bad(word))
}

/// Sets the anchor and, before an exchange, the noted one with it, so that the exchange would be won.
fn bad_both(bytes: &mut Bytes, task: usize, place: usize, word: u64) -> bool {
    let descriptor = descriptor(bytes, task, place);
    put(bytes, ANCHOR, descriptor, word);
    place == 23 || put(bytes, TASK_ANCHOR, task, word)
}

/// Makes the top of the task's cache bad, where it has one that the step takes.
fn bad_top(bytes: &mut Bytes, task: usize, bad: impl Fn(u64) -> u64) -> bool {
    let index = cache_index(task, class(bytes, task));
    let unit = get(&bytes.control, TOP, index);
    get(&bytes.control, COUNT, index) > 0 && put(bytes, TOP, index, bad(unit))
}

/// Makes the link of the cache's top bad, where the step takes the top and there is a block below.
fn bad_cache_link(bytes: &mut Bytes, task: usize, place: usize) -> bool {
    let index = cache_index(task, class(bytes, task));
    let top = get(&bytes.control, TOP, index);
    let same_region = top / UNITS_PER_REGION == get(&bytes.control, TASK_REGION, task);
    let taken = place == 1 || same_region || get(&bytes.control, GROUP_COUNT, task) == 0;
    taken && get(&bytes.control, COUNT, index) > 1 && put_link(bytes, top, 8191 * 2)
}

fn bad_chain_link(bytes: &mut Bytes, task: usize, link: u32) -> bool {
    let region = get(&bytes.control, TASK_REGION, task);
    let unit = region * UNITS_PER_REGION + get(&bytes.control, TASK_INDEX, task) * units(class(bytes, task));
    get(&bytes.control, TASK_LEFT, task) > 1 && put_link(bytes, unit, link)
}

fn put_link(bytes: &mut Bytes, unit: u64, link: u32) -> bool {
    let first = unit as usize * 8;
    bytes.area[first..first + 4].copy_from_slice(&link.to_le_bytes());
    true
}
