//! The ranges of the fields, by the documents of the layout: "a range holds every value that a run under demand 3's
//! premises stores in the field". What a task noted or has under way is looked at from the place behind its write to
//! that of its last read.

use crate::classes::{is_first, per_region, CLASSES, UNITS_PER_REGION};
use crate::layout::*;
use crate::lists::{LISTS, SPARE_REGIONS};
use crate::pieces;
use crate::pool::{self, DESCRIPTORS, PLACES};
use crate::strip_steps::slot_of;

/// The widest of the fields of an anchor, and its states.
const MOST_BLOCKS: u64 = 512;
const STATES: u64 = 3;

/// Whether every field is in its range.
pub fn in_range(view: &View) -> Result<(), String> {
    let regions = view.get(REGIONS, 0);
    shared(view, regions)?;
    caches(view, regions)?;
    for task in 0..pool::TASKS {
        let place = view.get(TASK_PLACE, task) as usize;
        let wrong = of_task(view, task, place, regions);
        if let Some(column) = wrong {
            return Err(format!("task {task} at place {place}: {column}"));
        }
    }
    Ok(())
}

/// Each of the column's numbers is at most this.
fn at_most(view: &View, name: &str, column: Column, most: u64) -> Result<(), String> {
    match (0..column.fields).find(|&index| view.get(column, index) > most) {
        Some(index) => Err(format!("{name} {index} is {}", view.get(column, index))),
        None => Ok(()),
    }
}

fn shared(view: &View, regions: u64) -> Result<(), String> {
    let (descriptors, classes) = (DESCRIPTORS as u64, CLASSES as u64);
    for list in 0..LISTS {
        if !is_head(view.get(HEAD, list), list == SPARE_REGIONS, regions, 0) {
            return Err(format!("the head of list {list}"));
        }
    }
    if let Some(index) = (0..DESCRIPTORS).find(|&index| !is_anchor(view.get(ANCHOR, index))) {
        return Err(format!("the anchor of descriptor {index}"));
    }
    at_most(view, "the next of descriptor", DESCRIPTOR_NEXT, descriptors)?;
    at_most(view, "the next of region", REGION_NEXT, regions)?;
    at_most(view, "the region of descriptor", DESCRIPTOR_REGION, regions - 1)?;
    at_most(view, "the class of descriptor", DESCRIPTOR_CLASS, classes - 1)?;
    at_most(view, "the map entry of region", MAP, descriptors)?;
    at_most(view, "the byte of slot", SLOT_BYTES, pieces::LAST)?;
    at_most(view, "the place of task", TASK_PLACE, PLACES as u64 - 1)?;
    at_most(view, "the class of task", TASK_CLASS, classes - 1)?;
    at_most(view, "the state that was noted by task", TASK_STATE, STATES - 1)
}

/// A head word's item plus one, from the least on.
fn is_head(word: u64, of_regions: bool, regions: u64, least: u64) -> bool {
    let most = if of_regions { regions } else { DESCRIPTORS as u64 };
    (least..=most).contains(&(word & 0xFFFF_FFFF))
}

fn is_anchor(word: u64) -> bool {
    word & 3 < STATES && word >> 2 & 0x7FFF_FFFF <= MOST_BLOCKS && word >> 33 <= MOST_BLOCKS
}

/// Whether a unit is that of a block of the class, in the area.
fn is_unit(unit: u64, class: usize, regions: u64) -> bool {
    unit < regions * UNITS_PER_REGION && is_first(class, unit)
}

fn caches(view: &View, regions: u64) -> Result<(), String> {
    for task in 0..pool::TASKS {
        for class in 0..CLASSES {
            let index = cache_index(task, class);
            let (top, count) = (view.get(TOP, index), view.get(COUNT, index));
            let fits = if count == 0 { top == pool::ALL_UNITS as u64 } else { is_unit(top, class, regions) };
            if !fits || count > per_region(class) {
                return Err(format!("the cache of task {task} and class {class}: top {top}, count {count}"));
            }
        }
    }
    Ok(())
}

/// The name of a field of the task that is out of its range at this place.
fn of_task(view: &View, task: usize, place: usize, regions: u64) -> Option<&'static str> {
    let get = |column| view.get(column, task);
    let class = get(TASK_CLASS) as usize;
    let blocks = per_region(class);
    let group = get(GROUP_COUNT);
    let pops = place < 11;
    let of_regions = matches!(place, 8..=10 | 17..=19);
    let units = match place {
        28 => is_unit(get(TASK_UNIT), class, regions),
        17..=22 | 29..=33 => get(TASK_UNIT) == LEAVING || is_unit(get(TASK_UNIT), class, regions),
        35 => slot_of(get(TASK_UNIT)).is_some(),
        36 => get(TASK_UNIT) == LEAVING,
        _ => true,
    };
    let noted = !(2..=22).contains(&place) || (place - 2) % 3 == 0;
    let head = noted || is_head(get(TASK_HEAD), of_regions, regions, u64::from(pops));
    let next = if of_regions { regions } else { DESCRIPTORS as u64 };
    let has_group = (30..=32).contains(&place) || place == 29 && group > 0;
    let rows = [
        ("unit", units),
        ("noted head", head),
        ("noted next", !matches!(place, 4 | 7 | 10) || get(TASK_NEXT) <= next),
        ("noted anchor", !matches!(place, 24 | 31 | 32) || is_anchor(get(TASK_ANCHOR))),
        ("descriptor", !matches!(place, 8..=16 | 20..=26 | 31..=33) || get(TASK_DESCRIPTOR) < DESCRIPTORS as u64),
        ("region", !(has_group || matches!(place, 17..=19 | 25..=27 | 33)) || get(TASK_REGION) < regions),
        ("index", !matches!(place, 25 | 27) || get(TASK_INDEX) < blocks),
        ("blocks left", place != 25 || (1..=blocks).contains(&get(TASK_LEFT))),
        ("group's count", !(29..=32).contains(&place) || (u64::from(place > 29)..=blocks).contains(&group)),
        ("group's first", !has_group || get(GROUP_FIRST) < blocks),
        ("group's last", !has_group || get(GROUP_LAST) < blocks),
    ];
    rows.iter().find(|(_, fits)| !fits).map(|(name, _)| *name)
}
