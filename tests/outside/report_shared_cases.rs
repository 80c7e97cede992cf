//! The same for the fields that belong to no request: caches, map, descriptors, marks; and all that no report reads.

use crate::classes::{per_region, tail, units, CLASSES, UNITS_PER_REGION};
use crate::damage::Bytes;
use crate::fourteen_cases::put;
use crate::layout::*;
use crate::pool;
use crate::report_cases::{bad, good, moved, ReportCase, IDLE};

pub const SHARED_CASES: &[ReportCase] = &[
    bad("an empty cache with a top", IDLE, |bytes, task, _| empty_top(bytes, task, 0)),
    bad("an empty cache with a top before 8,192", IDLE, |bytes, task, _| empty_top(bytes, task, 8191)),
    bad("an empty cache with a top behind 8,192", IDLE, |bytes, task, _| empty_top(bytes, task, 8193)),
    bad("a count of 1 without a top", IDLE, |bytes, task, _| {
        empty(bytes, task).is_some_and(|class| put(bytes, COUNT, cache_index(task, class), 1))
    }),
    bad("a count above n", IDLE, |bytes, task, _| {
        filled(bytes, task).is_some_and(|class| put(bytes, COUNT, cache_index(task, class), per_region(class) + 1))
    }),
    bad("a count one too small", IDLE, |bytes, task, _| other_count(bytes, task, |count| count - 1)),
    bad("a count one too large", IDLE, |bytes, task, _| other_count(bytes, task, |count| count + 1)),
    bad("a cache's top that names none", IDLE, |bytes, task, _| other_top(bytes, task, |_, _| Some(8192))),
    bad("a cache's top inside a block", IDLE, |bytes, task, _| {
        other_top(bytes, task, |top, class| (units(class) > 1).then_some(top + 1))
    }),
    bad("a cache's top behind a region's last block", IDLE, |bytes, task, _| {
        other_top(bytes, task, |_, class| (tail(class) < UNITS_PER_REGION).then_some(tail(class)))
    }),
    bad("a cache's top past the area", IDLE, |bytes, task, _| {
        let past = get(&bytes.control, REGIONS, 0) * UNITS_PER_REGION;
        filled(bytes, task).is_some_and(|class| put(bytes, TOP, cache_index(task, class), past))
    }),
    bad("a map entry past the descriptors", IDLE, |bytes, _, _| put(bytes, MAP, 0, 65)),
    bad("a map entry of 255", IDLE, |bytes, _, _| put(bytes, MAP, 0, 255)),
    moved("a map entry of the last descriptor", IDLE, |bytes, _, _| put(bytes, MAP, 0, 64)),
    moved("no map entry", IDLE, |bytes, _, _| put(bytes, MAP, 0, 0)),
    good("any map entry past the area", IDLE, |bytes, _, _| {
        let regions = get(&bytes.control, REGIONS, 0) as usize;
        regions < pool::REGIONS && put(bytes, MAP, regions, 255)
    }),
    bad("a descriptor of a region past the area", IDLE, |bytes, _, _| {
        let regions = get(&bytes.control, REGIONS, 0);
        named(bytes).is_some_and(|descriptor| put(bytes, DESCRIPTOR_REGION, descriptor, regions))
    }),
    moved("a descriptor that names another region, with any anchor and class", IDLE, |bytes, _, _| {
        let elsewhere = if get(&bytes.control, REGIONS, 0) > 1 { named_first(bytes) } else { None };
        elsewhere.is_some_and(|descriptor| {
            put(bytes, DESCRIPTOR_REGION, descriptor, 1)
                && get(&bytes.control, MAP, 1) as usize != descriptor + 1
                && put(bytes, ANCHOR, descriptor, u64::MAX)
                && put(bytes, DESCRIPTOR_CLASS, descriptor, 255)
        })
    }),
    moved("any class of an EMPTY descriptor", IDLE, |bytes, _, _| {
        with_anchor(bytes, 0, 512, 512) && of_named(bytes, DESCRIPTOR_CLASS, 255)
    }),
    bad("an EMPTY anchor with an avail of 513", IDLE, |bytes, _, _| with_anchor(bytes, 0, 513, 0)),
    bad("an EMPTY anchor with a count of 513", IDLE, |bytes, _, _| with_anchor(bytes, 0, 0, 513)),
    bad("an anchor's state 3", IDLE, |bytes, _, _| with_anchor(bytes, 3, 0, 0)),
    bad("an anchor's avail 513", IDLE, |bytes, _, _| with_anchor(bytes, 2, 513, 0)),
    good("an anchor's avail 512", IDLE, |bytes, _, _| with_anchor(bytes, 2, 512, 0)),
    good("an open region with a chain of n", IDLE, |bytes, _, _| chain_of(bytes, 0)),
    bad("an open region with a chain of more than n", IDLE, |bytes, _, _| chain_of(bytes, 1)),
    bad("the first class past the table of an open region", IDLE, |bytes, _, _| {
        opened(bytes).is_some() && of_named(bytes, DESCRIPTOR_CLASS, CLASSES as u64)
    }),
    bad("class 255 of an open region", IDLE, |bytes, _, _| {
        opened(bytes).is_some() && of_named(bytes, DESCRIPTOR_CLASS, 255)
    }),
    moved("the last class of an open region", IDLE, |bytes, _, _| {
        with_anchor(bytes, 1, 0, 16) && of_named(bytes, DESCRIPTOR_CLASS, CLASSES as u64 - 1)
    }),
    bad("the last class of an open region with a chain of 17", IDLE, |bytes, _, _| {
        with_anchor(bytes, 1, 0, 17) && of_named(bytes, DESCRIPTOR_CLASS, CLASSES as u64 - 1)
    }),
    good("any marks", IDLE, |bytes, _, _| (0..MARKS.fields).all(|word| put(bytes, MARKS, word, u64::MAX))),
];

fn empty(bytes: &Bytes, task: usize) -> Option<usize> {
    (0..CLASSES).find(|&class| get(&bytes.control, COUNT, cache_index(task, class)) == 0)
}

fn empty_top(bytes: &mut Bytes, task: usize, top: u64) -> bool {
    empty(bytes, task).is_some_and(|class| put(bytes, TOP, cache_index(task, class), top))
}

/// The first class of which the task has cached blocks.
fn filled(bytes: &Bytes, task: usize) -> Option<usize> {
    (0..CLASSES).find(|&class| get(&bytes.control, COUNT, cache_index(task, class)) > 0)
}

fn other_count(bytes: &mut Bytes, task: usize, other: fn(u64) -> u64) -> bool {
    filled(bytes, task).is_some_and(|class| {
        let index = cache_index(task, class);
        let count = get(&bytes.control, COUNT, index);
        put(bytes, COUNT, index, other(count))
    })
}

fn other_top(bytes: &mut Bytes, task: usize, other: fn(u64, usize) -> Option<u64>) -> bool {
    filled(bytes, task).is_some_and(|class| {
        let index = cache_index(task, class);
        let top = other(get(&bytes.control, TOP, index), class);
        top.is_some_and(|top| put(bytes, TOP, index, top))
    })
}

/// The descriptor of the first region that has one and is named back by it.
fn named(bytes: &Bytes) -> Option<usize> {
    let regions = 0..get(&bytes.control, REGIONS, 0) as usize;
    let entries = regions.map(|region| (region, get(&bytes.control, MAP, region) as usize));
    let mut back = entries.filter(|&(_, entry)| entry > 0).map(|(region, entry)| (region, entry - 1));
    back.find(|&(region, descriptor)| get(&bytes.control, DESCRIPTOR_REGION, descriptor) == region as u64)
        .map(|(_, descriptor)| descriptor)
}

/// The same of region 0 alone.
fn named_first(bytes: &Bytes) -> Option<usize> {
    let descriptor = (get(&bytes.control, MAP, 0) as usize).checked_sub(1)?;
    (get(&bytes.control, DESCRIPTOR_REGION, descriptor) == 0).then_some(descriptor)
}

/// That descriptor, if its anchor is not EMPTY.
fn opened(bytes: &Bytes) -> Option<usize> {
    named(bytes).filter(|&descriptor| get(&bytes.control, ANCHOR, descriptor) & 3 != 0)
}

fn of_named(bytes: &mut Bytes, column: Column, value: u64) -> bool {
    named(bytes).is_some_and(|descriptor| put(bytes, column, descriptor, value))
}

fn with_anchor(bytes: &mut Bytes, state: u64, avail: u64, count: u64) -> bool {
    of_named(bytes, ANCHOR, anchor(state, avail, count))
}

fn chain_of(bytes: &mut Bytes, more: u64) -> bool {
    opened(bytes).is_some_and(|descriptor| {
        let n = per_region(get(&bytes.control, DESCRIPTOR_CLASS, descriptor) as usize);
        put(bytes, ANCHOR, descriptor, anchor(1, 0, n + more))
    })
}
