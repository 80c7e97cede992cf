//! Memories made by hand, from those of a fresh pool: regions with descriptors, marks, and tasks with requests.

use crate::classes::{per_region, units, UNITS_PER_REGION};
use crate::damage::Bytes;
use crate::layout::*;

/// The unit of a block.
pub fn unit(class: usize, region: u64, block: u64) -> u64 {
    region * UNITS_PER_REGION + block * units(class)
}

/// The descriptor that a region is given.
pub fn descriptor(region: u64) -> usize {
    60 - region as usize
}

/// Gives the region a descriptor that names it back, with a chain of so many blocks.
pub fn describe(bytes: &mut Bytes, region: u64, class: usize, state: u64, chain: u64) {
    let (control, index) = (&mut bytes.control, descriptor(region));
    set(control, MAP, region as usize, index as u64 + 1);
    set(control, DESCRIPTOR_REGION, index, region);
    set(control, DESCRIPTOR_CLASS, index, class as u64);
    set(control, ANCHOR, index, anchor(state, 0, chain));
}

pub fn mark(bytes: &mut Bytes, unit: u64) {
    let word = get(&bytes.control, MARKS, unit as usize / 64) | 1 << (unit % 64);
    set(&mut bytes.control, MARKS, unit as usize / 64, word);
}

pub fn mark_all(bytes: &mut Bytes, region: u64) {
    (0..UNITS_PER_REGION).for_each(|unit| mark(bytes, region * UNITS_PER_REGION + unit));
}

pub fn unmark(bytes: &mut Bytes, unit: u64) {
    let word = get(&bytes.control, MARKS, unit as usize / 64) & !(1 << (unit % 64));
    set(&mut bytes.control, MARKS, unit as usize / 64, word);
}

pub fn unmark_all(bytes: &mut Bytes, region: u64) {
    let first = (region * UNITS_PER_REGION / 64) as usize;
    (first..first + UNITS_PER_REGION as usize / 64).for_each(|word| set(&mut bytes.control, MARKS, word, 0));
}

fn at(bytes: &mut Bytes, task: usize, place: u64, class: usize, fields: &[(Column, u64)]) {
    for &(column, value) in [(TASK_PLACE, place), (TASK_CLASS, class as u64)].iter().chain(fields) {
        set(&mut bytes.control, column, task, value);
    }
}

/// Lets the task have so many blocks of the region to carve.
pub fn begin_carving(bytes: &mut Bytes, task: usize, (class, region, blocks): (usize, u64, u64)) {
    at(bytes, task, 27, class, &[(TASK_INDEX, per_region(class) - blocks), (TASK_REGION, region)]);
}

pub fn begin_free(bytes: &mut Bytes, task: usize, class: usize, unit: u64) {
    at(bytes, task, 28, class, &[(TASK_UNIT, unit)]);
}

/// Lets the task return a group of so many blocks of the region for this unit, or for leaving.
pub fn begin_group(bytes: &mut Bytes, task: usize, (class, region, blocks): (usize, u64, u64), unit: u64) {
    at(bytes, task, 30, class, &[(GROUP_COUNT, blocks), (TASK_REGION, region), (TASK_UNIT, unit)]);
}

/// Lets the task have the region itself, at one of the places for that, and leave.
pub fn have_region(bytes: &mut Bytes, task: usize, place: u64, region: u64) {
    at(bytes, task, place, 0, &[(TASK_REGION, region), (TASK_UNIT, LEAVING)]);
}

pub fn be_idle(bytes: &mut Bytes, task: usize) {
    at(bytes, task, 0, 0, &[]);
}
