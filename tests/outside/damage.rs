//! Memories with arbitrary bytes: of any values, and valid ones that were damaged.

use crate::checks::Checks;
use crate::classes::{per_region, CLASSES};
use crate::coverage::Coverage;
use crate::driver::Driver;
use crate::faults::Fault;
use crate::layout::*;
use crate::lists::SPARE_REGIONS;
use crate::losses::MOST;
use crate::pieces::LAST;
use crate::pool::{self, Place};
use crate::random::Random;
use crate::schedules::Schedule;
use crate::strips::{unit_of, SLOTS, STRIPS};
use crate::styles;

#[derive(Clone)]
pub struct Bytes {
    pub control: Vec<u8>,
    pub area: Vec<u8>,
    /// The length of the strips' memory, whose bytes no call reads.
    pub strips: usize,
}

const SHARED_COLUMNS: [Column; 12] = [
    HEAD,
    ANCHOR,
    MARKS,
    TOP,
    COUNT,
    DESCRIPTOR_NEXT,
    REGION_NEXT,
    DESCRIPTOR_REGION,
    DESCRIPTOR_CLASS,
    MAP,
    FREE_NODES,
    SLOT_BYTES,
];

/// The styles of the runs whose states are damaged.
const STYLES: [&str; 11] = [
    "everything at random",
    "few regions, large blocks",
    "one region, many tasks",
    "all tasks in step",
    "bursts with long stops",
    "returns that collide",
    "strips of every order",
    "small strips until none is left",
    "strips beside blocks",
    "tasks that leave",
    "many classes, then leaving",
];

/// The first byte behind the last column.
const END: u64 = (SLOT_BYTES.first + SLOT_BYTES.fields) as u64;

impl Bytes {
    /// How many regions the area has.
    pub fn regions(&self) -> usize {
        self.area.len() / 4096
    }

    /// The bytes of a run as they are now.
    pub fn of(driver: &Driver) -> Bytes {
        let lent = &driver.lent;
        Bytes { control: lent.control.bytes().to_vec(), area: lent.area.bytes().to_vec(), strips: lent.strips.len() }
    }
}

/// A state in the middle of a run.
pub fn valid(random: &mut Random) -> Bytes {
    let (mut checks, mut coverage) = (Checks::default(), Coverage::default());
    let style = styles::named(random.pick(&STYLES));
    let mut driver = Driver::new(1, random.next(), Fault::None, &mut checks, &mut coverage);
    let mut schedule = Schedule::new(&mut driver, style);
    // A disagreement here is found and counted by the schedules themselves; any state will do.
    let _ = schedule.start();
    let _ = schedule.go_on(random.from_to(1, 3000));
    Bytes::of(&driver)
}

/// Memories of zeros with so many regions.
pub fn zeros(regions: u64) -> Bytes {
    Bytes { control: vec![0; 8192], area: vec![0; regions as usize * 4096], strips: STRIPS as usize }
}

pub fn regions(random: &mut Random) -> u64 {
    random.from_to(1, pool::REGIONS as u64)
}

/// All bytes random, or all zero, or mostly zero.
pub fn any(random: &mut Random) -> Bytes {
    let mut bytes = zeros(regions(random));
    match random.below(3) {
        0 => (),
        1 => random.fill(&mut bytes.control),
        _ => {
            for _ in 0..random.below(400) {
                let place = random.below(END + 80) as usize;
                bytes.control[place] = random.next() as u8;
            }
        }
    }
    if random.one_in(2) {
        random.fill(&mut bytes.area);
    }
    if random.one_in(2) {
        let regions = bytes.area.len() as u64 / 4096;
        set(&mut bytes.control, TASKS, 0, random.from_to(1, 8));
        set(&mut bytes.control, REGIONS, 0, regions);
    }
    bytes
}

/// A number near the limits of some field.
fn edge(random: &mut Random) -> u64 {
    const EDGES: [u64; 21] =
        [0, 1, 2, 3, 7, 8, 9, 16, 17, 36, 37, 63, 64, 65, 512, 513, 8191, 8192, 16384, 16385, u64::MAX];
    match random.below(5) {
        0 => random.pick(&EDGES),
        1 => class_edge(random),
        2 => random.below(80),
        3 => random.below(9000),
        _ => random.next(),
    }
}

/// The last class of the table or one of the first three past it.
fn class_edge(random: &mut Random) -> u64 {
    CLASSES as u64 - 1 + random.below(4)
}

/// Changes one or several bytes or fields.
pub fn damage(bytes: &mut Bytes, random: &mut Random) {
    for _ in 0..random.pick(&[1, 1, 1, 2, 3, 8, 30]) {
        match random.below(9) {
            0 => bytes.control[random.below(END) as usize] = random.next() as u8,
            1 => {
                let place = random.below(bytes.area.len() as u64) as usize;
                bytes.area[place] = random.next() as u8;
            }
            2 => damage_field(bytes, &SHARED_COLUMNS, random),
            3 => damage_field(bytes, &OF_A_TASK, random),
            4 => damage_class(bytes, random),
            5 => damage_strip(bytes, random),
            6 => damage_leaving(bytes, random),
            7 => damage_lost(bytes, random),
            _ => damage_link(bytes, random),
        }
    }
}

fn damage_field(bytes: &mut Bytes, columns: &[Column], random: &mut Random) {
    let column = random.pick(columns);
    let index = random.below(column.fields as u64) as usize;
    let other = random.below(column.fields as u64) as usize;
    let now = get(&bytes.control, column, index);
    let value = match random.below(4) {
        0 => edge(random),
        1 => now.wrapping_add(1),
        2 => now.wrapping_sub(1),
        _ => get(&bytes.control, column, other),
    };
    set(&mut bytes.control, column, index, value);
}

/// Changes the class of a task, or that of the descriptor of a region.
fn damage_class(bytes: &mut Bytes, random: &mut Random) {
    let class = class_edge(random);
    let region = random.below(pool::REGIONS as u64) as usize;
    match get(&bytes.control, MAP, region) as usize {
        entry @ 1..=pool::DESCRIPTORS if random.one_in(2) => {
            set(&mut bytes.control, DESCRIPTOR_CLASS, entry - 1, class)
        }
        _ => set(&mut bytes.control, TASK_CLASS, random.below(pool::TASKS as u64) as usize, class),
    }
}

/// Changes the byte of a slot, or the strip that a task asks for or gives back, or brings a task to the last places or
/// past them.
fn damage_strip(bytes: &mut Bytes, random: &mut Random) {
    let slot = random.below(SLOTS as u64) as usize;
    let task = random.below(pool::TASKS as u64) as usize;
    let begins = (slot..SLOTS).find(|&slot| get(&bytes.control, SLOT_BYTES, slot) != 0).unwrap_or(slot);
    match random.below(5) {
        0 => set(&mut bytes.control, TASK_PLACE, task, Place::TakeStrip.number() as u64 + random.below(4)),
        1 => set(&mut bytes.control, SLOT_BYTES, slot, random.below(LAST + 3)),
        2 => set(&mut bytes.control, SLOT_BYTES, begins, random.below(LAST + 3)),
        3 => set(&mut bytes.control, TASK_CLASS, task, random.below(CLASSES as u64 + 2)),
        _ => set(&mut bytes.control, TASK_UNIT, task, unit_of(begins) + random.pick(&[0, 1, 8, 63, 64])),
    }
}

/// Changes what a task returns for, or a count that the search for a cache may read.
fn damage_leaving(bytes: &mut Bytes, random: &mut Random) {
    let task = random.below(pool::TASKS as u64) as usize;
    let class = random.below(CLASSES as u64) as usize;
    match random.below(3) {
        0 => set(&mut bytes.control, TASK_UNIT, task, LEAVING + random.below(3) - 1),
        1 => set(&mut bytes.control, COUNT, cache_index(task, class), random.below(2)),
        _ => set(&mut bytes.control, COUNT, cache_index(task, class), per_region(class) + random.below(2)),
    }
}

/// Changes a task's number of lost exchanges: near the most, near where a further byte is needed, or any.
fn damage_lost(bytes: &mut Bytes, random: &mut Random) {
    let number = match random.below(3) {
        0 => MOST - random.below(2),
        1 => (1 << (8 * random.from_to(1, 4))) - 1,
        _ => random.next(),
    };
    set(&mut bytes.control, TASK_LOST, random.below(pool::TASKS as u64) as usize, number);
}

fn damage_link(bytes: &mut Bytes, random: &mut Random) {
    let unit = random.below(bytes.area.len() as u64 / 8);
    let value = edge(random);
    set_link(bytes, unit, value);
}

pub fn set_link(bytes: &mut Bytes, unit: u64, link: u64) {
    let first = unit as usize * 8;
    bytes.area[first..first + 4].copy_from_slice(&(link as u32).to_le_bytes());
}

/// Makes the list of the spare regions of these, the first on top, with the tag that it has.
pub fn link_regions(bytes: &mut Bytes, regions: &[usize]) {
    let mut below = 0;
    for &region in regions.iter().rev() {
        set(&mut bytes.control, REGION_NEXT, region, below);
        below = region as u64 + 1;
    }
    let tag = get(&bytes.control, HEAD, SPARE_REGIONS) >> 32;
    set(&mut bytes.control, HEAD, SPARE_REGIONS, tag << 32 | below);
}

/// Makes a cache of these blocks, the last on top.
pub fn link_cache(bytes: &mut Bytes, (task, class): (usize, usize), units: &[u64]) {
    let mut below = pool::ALL_UNITS as u64;
    for &unit in units {
        set_link(bytes, unit, below);
        below = unit;
    }
    set(&mut bytes.control, TOP, cache_index(task, class), below);
    set(&mut bytes.control, COUNT, cache_index(task, class), units.len() as u64);
}
