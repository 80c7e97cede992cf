//! Memories whose every field has a value that fits it, and which no run has left.

use crate::classes::{per_region, CLASSES, UNITS_PER_REGION};
use crate::damage::{regions, zeros, Bytes};
use crate::layout::*;
use crate::lists::{SPARE_DESCRIPTORS, SPARE_REGIONS};
use crate::losses::MOST;
use crate::pieces::{BEGUN, HELD};
use crate::pool::{self, Place, PLACES};
use crate::random::Random;
use crate::strips::{unit_of, ORDERS, SLOTS};

/// n and the units of the largest blocks. A count up to this n fits every class, a unit at a multiple of these many.
const LEAST_N: u64 = 16;
const MOST_UNITS: u64 = 32;

fn class(random: &mut Random) -> u64 {
    random.below(CLASSES as u64)
}

/// The first unit of one of the largest blocks.
fn unit(random: &mut Random, regions: u64) -> u64 {
    random.below(regions * UNITS_PER_REGION) / MOST_UNITS * MOST_UNITS
}

/// Every field of a value that fits it, so that steps go far before they meet something that does not.
pub fn fitting(random: &mut Random) -> Bytes {
    let regions = regions(random);
    let mut bytes = zeros(regions);
    let control = &mut bytes.control;
    fit(control, HEAD, random, |random| random.below(65) | random.below(3) << 32);
    set(control, HEAD, SPARE_REGIONS, random.below(regions + 1));
    fit(control, ANCHOR, random, fitting_anchor);
    fit(control, MARKS, random, |random| random.next());
    fit(control, TOP, random, |random| if random.one_in(4) { 8192 } else { unit(random, regions) });
    fit(control, COUNT, random, |random| random.from_to(0, LEAST_N));
    for column in [TASK_INDEX, TASK_LEFT, GROUP_FIRST, GROUP_LAST, GROUP_COUNT] {
        fit(control, column, random, |random| random.from_to(0, LEAST_N));
    }
    fit(control, TASK_UNIT, random, |random| if random.one_in(2) { LEAVING } else { unit(random, regions) });
    fit(control, TASK_LOST, random, |random| if random.one_in(2) { MOST } else { random.next() });
    fit(control, TASK_PLACE, random, |random| random.below(PLACES as u64));
    let often = class(random);
    let class_of = |random: &mut Random| if random.one_in(2) { often } else { class(random) };
    fit(control, TASK_CLASS, random, class_of);
    fit(control, DESCRIPTOR_CLASS, random, class_of);
    fit(control, TASK_NEXT, random, |random| random.below(regions + 1));
    fit(control, TASK_DESCRIPTOR, random, |random| random.below(64));
    fit(control, TASK_STATE, random, |random| random.below(3));
    fit(control, DESCRIPTOR_NEXT, random, |random| random.below(65));
    fit(control, MAP, random, |random| random.below(65));
    for column in [TASK_REGION, REGION_NEXT, DESCRIPTOR_REGION] {
        fit(control, column, random, |random| random.below(regions));
    }
    set(control, TASKS, 0, random.from_to(1, 8));
    set(control, REGIONS, 0, regions);
    note_what_stands(control, random);
    fit_strips(control, random);
    fit_links(&mut bytes.area, random);
    bytes
}

fn fit(control: &mut [u8], column: Column, random: &mut Random, value: impl Fn(&mut Random) -> u64) {
    for index in 0..column.fields {
        set(control, column, index, value(random));
    }
}

fn fitting_anchor(random: &mut Random) -> u64 {
    match random.below(3) {
        0 => anchor(random.below(3), random.from_to(0, LEAST_N), random.from_to(0, LEAST_N)),
        1 => anchor(2, per_region(class(random) as usize), 0),
        _ => anchor(random.below(3), random.below(513), random.below(513)),
    }
}

/// Lets the tasks have noted words that stand in the memory, so that exchanges are won, and the map be named back.
fn note_what_stands(control: &mut [u8], random: &mut Random) {
    for task in 0..8 {
        let list = random.pick(&[get(control, TASK_CLASS, task) as usize, SPARE_DESCRIPTORS, SPARE_REGIONS]);
        let head = get(control, HEAD, list);
        set(control, TASK_HEAD, task, head);
        let descriptor = match random.below(2) {
            0 => get(control, TASK_DESCRIPTOR, task),
            _ => get(control, MAP, get(control, TASK_REGION, task) as usize).saturating_sub(1),
        };
        let word = get(control, ANCHOR, descriptor as usize);
        set(control, TASK_ANCHOR, task, word);
    }
    for region in 0..get(control, REGIONS, 0) {
        let named = get(control, MAP, region as usize);
        if named > 0 && random.one_in(2) {
            set(control, DESCRIPTOR_REGION, named as usize - 1, region);
        }
    }
}

/// Any free nodes, mostly few, strips at places that their lengths divide, and tasks that have such strips to give back
/// or ask for one of an order that there is.
fn fit_strips(control: &mut [u8], random: &mut Random) {
    let dense = random.one_in(3);
    fit(control, FREE_NODES, random, |random| {
        let word = random.next() & random.next() & random.next();
        if dense {
            random.next()
        } else {
            word & random.next() & random.next()
        }
    });
    for slot in 0..SLOTS {
        let most = if slot == 0 { ORDERS as u64 } else { u64::from(slot.trailing_zeros()) + 1 };
        let byte = random.pick(&[0, HELD, BEGUN]);
        set(control, SLOT_BYTES, slot, if byte == 0 { 0 } else { byte + random.below(most) });
    }
    for task in 0..pool::TASKS {
        let slot = random.below(SLOTS as u64) as usize;
        let begun = (slot..SLOTS).find(|&slot| get(control, SLOT_BYTES, slot) >= BEGUN).unwrap_or(slot);
        match get(control, TASK_PLACE, task) as usize {
            place if place == Place::TakeStrip.number() => set(control, TASK_CLASS, task, random.below(ORDERS as u64)),
            place if place == Place::GiveStrip.number() => set(control, TASK_UNIT, task, unit_of(begun)),
            _ => (),
        }
    }
}

fn fit_links(area: &mut [u8], random: &mut Random) {
    let regions = area.len() as u64 / 4096;
    for link in area.chunks_mut(8) {
        let value = match random.below(3) {
            0 => random.from_to(0, LEAST_N),
            1 => unit(random, regions),
            _ => 8192,
        };
        link[..4].copy_from_slice(&(value as u32).to_le_bytes());
    }
}
