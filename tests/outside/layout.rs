//! Reading control and area by the documents of the layout. Used to compare structure, to damage states and to count
//! places; the plain pool knows nothing of it.

use crate::classes::{per_region, units, UNIT, UNITS_PER_REGION};
use crate::lists::{LISTS, SPARE_REGIONS};
use crate::pool;
use crate::strips;

/// A column of the control memory: its first byte, the width of a field and how many there are.
#[derive(Clone, Copy, Debug)]
pub struct Column {
    pub first: usize,
    pub width: usize,
    pub fields: usize,
}

const fn column(first: usize, width: usize, fields: usize) -> Column {
    Column { first, width, fields }
}

/// The cache columns have room for this many classes of each task, more than there are.
pub const CACHE_STRIDE: usize = 16;
const CACHES: usize = pool::TASKS * CACHE_STRIDE;

pub const HEAD: Column = column(0, 8, LISTS);
pub const ANCHOR: Column = column(256, 8, 64);
pub const MARKS: Column = column(768, 8, 128);
pub const TASK_HEAD: Column = column(4864, 8, 8);
pub const TASK_ANCHOR: Column = column(4928, 8, 8);
pub const TOP: Column = column(4992, 2, CACHES);
pub const COUNT: Column = column(5248, 2, CACHES);
pub const TASK_UNIT: Column = column(5504, 2, 8);
pub const TASK_INDEX: Column = column(5520, 2, 8);
pub const TASK_LEFT: Column = column(5536, 2, 8);
pub const GROUP_FIRST: Column = column(5552, 2, 8);
pub const GROUP_LAST: Column = column(5568, 2, 8);
pub const GROUP_COUNT: Column = column(5584, 2, 8);
/// The lost exchanges of the task's request, or of its last one. Every value is in range.
pub const TASK_LOST: Column = column(5600, 4, 8);
pub const TASK_PLACE: Column = column(5632, 1, 8);
pub const TASK_CLASS: Column = column(5640, 1, 8);
pub const TASK_NEXT: Column = column(5648, 1, 8);
pub const TASK_DESCRIPTOR: Column = column(5656, 1, 8);
pub const TASK_REGION: Column = column(5664, 1, 8);
pub const TASK_STATE: Column = column(5672, 1, 8);
pub const DESCRIPTOR_NEXT: Column = column(5696, 1, 64);
pub const REGION_NEXT: Column = column(5760, 1, pool::REGIONS);
pub const DESCRIPTOR_REGION: Column = column(5776, 1, 64);
pub const DESCRIPTOR_CLASS: Column = column(5840, 1, 64);
pub const MAP: Column = column(5904, 1, pool::REGIONS);
pub const TASKS: Column = column(5944, 1, 1);
pub const REGIONS: Column = column(5945, 1, 1);
/// A bit for each node of the tree of pieces, and a byte for each slot.
pub const FREE_NODES: Column = column(6016, 8, 4);
pub const SLOT_BYTES: Column = column(6048, 1, strips::SLOTS);

/// What stands in the place of a unit while a task leaves: the first number that is no unit.
pub const LEAVING: u64 = 16_384;

/// The columns that are not of one task alone.
const SHARED: [Column; 14] = [
    HEAD,
    ANCHOR,
    MARKS,
    TOP,
    COUNT,
    DESCRIPTOR_NEXT,
    REGION_NEXT,
    DESCRIPTOR_REGION,
    DESCRIPTOR_CLASS,
    MAP,
    TASKS,
    REGIONS,
    FREE_NODES,
    SLOT_BYTES,
];

/// For each byte of control, whether it belongs to no field.
pub fn outside_fields() -> Vec<bool> {
    let mut outside = vec![true; 8192];
    for column in SHARED.iter().chain(&OF_A_TASK) {
        outside[column.first..column.first + column.width * column.fields].fill(false);
    }
    outside
}

/// The columns with one field for each task.
pub const OF_A_TASK: [Column; 15] = [
    TASK_HEAD,
    TASK_ANCHOR,
    TASK_UNIT,
    TASK_INDEX,
    TASK_LEFT,
    GROUP_FIRST,
    GROUP_LAST,
    GROUP_COUNT,
    TASK_LOST,
    TASK_PLACE,
    TASK_CLASS,
    TASK_NEXT,
    TASK_DESCRIPTOR,
    TASK_REGION,
    TASK_STATE,
];

/// The index of a cache in its two columns.
pub const fn cache_index(task: usize, class: usize) -> usize {
    task * CACHE_STRIDE + class
}

/// Reads a field, low byte first.
pub fn get(control: &[u8], column: Column, index: usize) -> u64 {
    let first = column.first + index * column.width;
    control[first..first + column.width].iter().rev().fold(0, |value, &byte| value << 8 | u64::from(byte))
}

/// Writes a field, low byte first.
pub fn set(control: &mut [u8], column: Column, index: usize, value: u64) {
    let first = column.first + index * column.width;
    control[first..first + column.width].copy_from_slice(&value.to_le_bytes()[..column.width]);
}

/// An anchor as the paper packs it: "state in the low 2 bits (0 EMPTY, 1 PARTIAL, 2 FULL), then avail in 31 bits, then
/// count in 31".
pub fn anchor(state: u64, avail: u64, count: u64) -> u64 {
    state | avail << 2 | count << 33
}

pub struct View<'a> {
    pub control: &'a [u8],
    pub area: &'a [u8],
}

impl View<'_> {
    pub fn get(&self, column: Column, index: usize) -> u64 {
        get(self.control, column, index)
    }

    /// State, avail and count of a descriptor's anchor.
    pub fn anchor(&self, descriptor: usize) -> (u64, u64, u64) {
        let word = self.get(ANCHOR, descriptor);
        (word & 3, word >> 2 & 0x7FFF_FFFF, word >> 33)
    }

    pub fn tag(&self, list: usize) -> u32 {
        (self.get(HEAD, list) >> 32) as u32
    }

    /// A list's items from the top, by the head word and each item's next.
    pub fn list(&self, list: usize) -> Result<Vec<usize>, String> {
        let next = if list == SPARE_REGIONS { REGION_NEXT } else { DESCRIPTOR_NEXT };
        let mut items = Vec::new();
        let mut link = self.get(HEAD, list) & 0xFFFF_FFFF;
        while link != 0 {
            if link > next.fields as u64 || items.len() == next.fields {
                return Err(format!("list {list} does not end: {items:?} then {link}"));
            }
            items.push(link as usize - 1);
            link = self.get(next, link as usize - 1);
        }
        Ok(items)
    }

    /// The descriptor of an open region: "open while that descriptor names it back and its anchor is not EMPTY".
    pub fn open(&self, region: usize) -> Option<usize> {
        let descriptor = (self.get(MAP, region) as usize).checked_sub(1)?;
        let named_back = self.get(DESCRIPTOR_REGION, descriptor) == region as u64;
        (named_back && self.anchor(descriptor).0 != 0).then_some(descriptor)
    }

    /// "A free block's first four bytes, low byte first, hold a link."
    pub fn link(&self, unit: u64) -> Result<u64, String> {
        let first = (unit * UNIT) as usize;
        let bytes = self.area.get(first..first + 4).ok_or(format!("unit {unit} is outside the area"))?;
        Ok(bytes.iter().rev().fold(0, |value, &byte| value << 8 | u64::from(byte)))
    }

    /// This many blocks of a region from the first, by their links, and the link of the last.
    pub fn chain(&self, region: usize, class: usize, first: u64, length: u64) -> Result<(Vec<u64>, u64), String> {
        let mut blocks = Vec::new();
        let mut index = first;
        for _ in 0..length {
            if index >= per_region(class) {
                return Err(format!("region {region}: {blocks:?} is followed by {index}"));
            }
            blocks.push(index);
            index = self.link(region as u64 * UNITS_PER_REGION + index * units(class))?;
        }
        Ok((blocks, index))
    }

    /// A cache's units with the top last. "in a cache, the unit of the block below, with 8,192 at the bottom".
    pub fn cache(&self, task: usize, class: usize) -> Result<Vec<u64>, String> {
        let count = self.get(COUNT, cache_index(task, class));
        let mut unit = self.get(TOP, cache_index(task, class));
        let mut row = Vec::new();
        for _ in 0..count {
            row.push(unit);
            unit = self.link(unit)?;
        }
        if unit != 8192 {
            return Err(format!("the cache of task {task} and class {class} has {unit} at its bottom"));
        }
        row.reverse();
        Ok(row)
    }

    pub fn mark(&self, unit: usize) -> bool {
        self.get(MARKS, unit / 64) >> (unit % 64) & 1 == 1
    }

    /// What a task has in hand outside its cache, as units: a taken chain, blocks still to be carved, a group and the
    /// block being freed.
    pub fn under_way(&self, task: usize) -> Result<Vec<u64>, String> {
        let place = self.get(TASK_PLACE, task);
        let class = self.get(TASK_CLASS, task) as usize;
        let region = self.get(TASK_REGION, task) as usize;
        let index = self.get(TASK_INDEX, task);
        let blocks = match place {
            25 => self.chain(region, class, index, self.get(TASK_LEFT, task))?.0,
            27 => (index..per_region(class)).collect(),
            29..=32 => self.chain(region, class, self.get(GROUP_FIRST, task), self.get(GROUP_COUNT, task))?.0,
            _ => Vec::new(),
        };
        let unit = |block: u64| region as u64 * UNITS_PER_REGION + block * units(class);
        let mut all: Vec<u64> = blocks.into_iter().map(unit).collect();
        let unit = self.get(TASK_UNIT, task);
        if matches!(place, 17..=22 | 28..=33) && unit != LEAVING {
            all.push(unit);
        }
        Ok(all)
    }
}
