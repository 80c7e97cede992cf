//! The fields that every report reads, one at a time, with values just in range and just out of it, and those that it
//! does not read at that place, with any. The expected codes are written down here and not computed.

use crate::classes::{per_region, tail, units, CLASSES, UNITS_PER_REGION};
use crate::damage::Bytes;
use crate::fourteen_cases::{put, Change};
use crate::layout::*;
use crate::report::Report;

pub struct ReportCase {
    pub name: &'static str,
    /// The places of the task whose state it is tried in; 0 also for what belongs to no task.
    pub places: &'static [usize],
    /// Changes the value; false where the state has none such.
    pub change: Change,
    /// What the sheet and the form answer.
    pub code: u64,
    pub keepers: OfKeepers,
}

/// What the keepers answer beside the other reports.
pub enum OfKeepers {
    Same,
    Refused,
    /// The value is the task's region: 14 where the task has a region itself, else the same.
    RegionItself,
    /// A region may have lost its only keeper: 14 or the same, as the reading of the memories says.
    MayLose,
}

/// The places at which a task has a region itself, off every list and not open.
pub const ITSELF: &[usize] = &[17, 18, 19, 26, 33];

impl ReportCase {
    /// The codes that are due at the place.
    pub fn due(&self, report: Report, place: usize) -> Vec<u64> {
        match &self.keepers {
            _ if report != Report::Keepers => vec![self.code],
            OfKeepers::Refused => vec![14],
            OfKeepers::RegionItself if ITSELF.contains(&place) => vec![14],
            OfKeepers::MayLose => vec![14, self.code],
            _ => vec![self.code],
        }
    }
}

pub const fn bad(name: &'static str, places: &'static [usize], change: Change) -> ReportCase {
    ReportCase { name, places, change, code: 14, keepers: OfKeepers::Same }
}

pub const fn good(name: &'static str, places: &'static [usize], change: Change) -> ReportCase {
    ReportCase { name, places, change, code: 20, keepers: OfKeepers::Same }
}

/// In range for every report, but a block or a region leaves its holder.
pub const fn moved(name: &'static str, places: &'static [usize], change: Change) -> ReportCase {
    ReportCase { name, places, change, code: 20, keepers: OfKeepers::MayLose }
}

/// The task's region, which only the keepers read where nothing is under way but a region itself.
const fn region(name: &'static str, places: &'static [usize], change: Change) -> ReportCase {
    ReportCase { name, places, change, code: 20, keepers: OfKeepers::RegionItself }
}

/// An idle task, started or not.
pub const IDLE: &[usize] = &[0];
/// At a request for a block.
const BUSY: &[usize] = &[
    1, 2, 3, 4, 5, 6, 7, 8, 9, 10, 11, 12, 13, 14, 15, 16, 17, 18, 19, 20, 21, 22, 23, 24, 25, 26, 27, 28, 29, 30, 31,
    32, 33,
];
/// An idle task, the request of a strip and the last step of leaving: nothing but the place is read.
const PLACE_ALONE: &[usize] = &[0, 34, 35, 36];
/// Where nothing is under way: an allocation that has no chain and carves nothing, strips, the last step of leaving.
const NOTHING: &[usize] = &[1, 2, 3, 4, 5, 6, 7, 8, 9, 10, 11, 12, 13, 14, 15, 16, 23, 24, 26, 34, 35, 36];
/// Where a group is, and where one may be.
const GROUP: &[usize] = &[30, 31, 32];
const GATHERED: &[usize] = &[29];
const RETURNS: &[usize] = &[17, 18, 19, 20, 21, 22, 29, 30, 31, 32, 33];
/// Where a block is being freed, and no report reads the task's region but for the keepers where it is one itself.
const NO_REGION: &[usize] = &[17, 18, 19, 20, 21, 22, 28, 33];
/// Where blocks of the task's region are under way.
const OF_REGION: &[usize] = &[25, 27, 30, 31, 32];
const CHAIN: &[usize] = &[25];
const CARVED: &[usize] = &[27];
/// Where a block may be being freed, by step 1 of a free or by a return.
const FREES: &[usize] = &[17, 18, 19, 20, 21, 22, 28, 29, 30, 31, 32, 33];
const FREED: &[usize] = &[28];

pub const REQUEST_CASES: &[ReportCase] = &[
    bad("nine tasks", IDLE, |bytes, _, _| put(bytes, TASKS, 0, 9)),
    good("eight tasks", IDLE, |bytes, _, _| put(bytes, TASKS, 0, 8)),
    ReportCase { code: 4, ..good("no task", IDLE, |bytes, _, _| put(bytes, TASKS, 0, 0)) },
    bad("no region", IDLE, |bytes, _, _| put(bytes, REGIONS, 0, 0)),
    bad("seventeen regions", IDLE, |bytes, _, _| put(bytes, REGIONS, 0, 17)),
    ReportCase { code: 2, ..good("another number of regions", IDLE, other_regions) },
    bad("a place past the step list", IDLE, |bytes, task, _| put(bytes, TASK_PLACE, task, 37)),
    bad("place 255", IDLE, |bytes, task, _| put(bytes, TASK_PLACE, task, 255)),
    good("the last place", IDLE, |bytes, task, _| put(bytes, TASK_PLACE, task, 36)),
    good("any class of an idle task, of a strip's and of the last step of leaving", PLACE_ALONE, |bytes, task, _| {
        put(bytes, TASK_CLASS, task, 255)
    }),
    bad("the first class past the table", BUSY, |bytes, task, _| put(bytes, TASK_CLASS, task, CLASSES as u64)),
    bad("class 255", BUSY, |bytes, task, _| put(bytes, TASK_CLASS, task, 255)),
    good("the last class", NOTHING, |bytes, task, _| put(bytes, TASK_CLASS, task, CLASSES as u64 - 1)),
    good("any unit where nothing is under way", NOTHING, |bytes, task, _| put(bytes, TASK_UNIT, task, 65_535)),
    good("any numbers where nothing is under way", NOTHING, |bytes, task, _| {
        [TASK_LEFT, TASK_INDEX, GROUP_COUNT].iter().all(|&column| put(bytes, column, task, 65_535))
    }),
    region("any region where nothing is under way", NOTHING, |bytes, task, _| put(bytes, TASK_REGION, task, 255)),
    bad("a chain of none", CHAIN, |bytes, task, _| put(bytes, TASK_LEFT, task, 0)),
    good("a chain of one", CHAIN, |bytes, task, _| put(bytes, TASK_LEFT, task, 1)),
    good("a chain of n", CHAIN, |bytes, task, _| with_n(bytes, task, TASK_LEFT, 0)),
    bad("a chain of more than n", CHAIN, |bytes, task, _| with_n(bytes, task, TASK_LEFT, 1)),
    good("any index of a chain, which is counted by its number", CHAIN, |bytes, task, _| {
        put(bytes, TASK_INDEX, task, 65_535)
    }),
    good("block 0 to be carved next", CARVED, |bytes, task, _| put(bytes, TASK_INDEX, task, 0)),
    good("the last block to be carved", CARVED, |bytes, task, _| put(bytes, TASK_INDEX, task, n_of(bytes, task) - 1)),
    bad("a block to be carved past the last", CARVED, |bytes, task, _| with_n(bytes, task, TASK_INDEX, 0)),
    bad("a block to be carved far past the last", CARVED, |bytes, task, _| put(bytes, TASK_INDEX, task, 65_535)),
    moved("no group yet", GATHERED, |bytes, task, _| put(bytes, GROUP_COUNT, task, 0)),
    moved("no group yet, of any region", GATHERED, |bytes, task, _| {
        put(bytes, GROUP_COUNT, task, 0) && put(bytes, TASK_REGION, task, 255)
    }),
    bad("a closed group of none", GROUP, |bytes, task, _| put(bytes, GROUP_COUNT, task, 0)),
    good("a group of one", GROUP, |bytes, task, _| put(bytes, GROUP_COUNT, task, 1)),
    good("a group of n", GROUP, |bytes, task, _| with_n(bytes, task, GROUP_COUNT, 0)),
    bad("a group of more than n", GROUP, |bytes, task, _| with_n(bytes, task, GROUP_COUNT, 1)),
    moved("n blocks gathered", GATHERED, |bytes, task, _| {
        in_region(bytes, task, 0) && with_n(bytes, task, GROUP_COUNT, 0)
    }),
    bad("more than n blocks gathered", GATHERED, |bytes, task, _| {
        in_region(bytes, task, 0) && with_n(bytes, task, GROUP_COUNT, 1)
    }),
    bad("a group of a region past the area", OF_REGION, past_area),
    bad("blocks gathered of a region past the area", GATHERED, |bytes, task, place| {
        put(bytes, GROUP_COUNT, task, 1) && past_area(bytes, task, place)
    }),
    moved("a group of the last region", OF_REGION, |bytes, task, _| {
        let last = get(&bytes.control, REGIONS, 0) - 1;
        in_region(bytes, task, last)
    }),
    region("any region where a block alone is under way", NO_REGION, |bytes, task, _| in_region(bytes, task, 255)),
    moved("the first block is being freed", FREES, |bytes, task, _| put(bytes, TASK_UNIT, task, 0)),
    moved("the last block is being freed", FREES, |bytes, task, _| {
        let class = class_of(bytes, task);
        let region = (get(&bytes.control, REGIONS, 0) - 1) * UNITS_PER_REGION;
        put(bytes, TASK_UNIT, task, region + tail(class) - units(class))
    }),
    bad("a unit past the area", FREES, |bytes, task, _| {
        let units = get(&bytes.control, REGIONS, 0) * UNITS_PER_REGION;
        put(bytes, TASK_UNIT, task, units)
    }),
    bad("a unit inside a block", FREES, |bytes, task, _| {
        units(class_of(bytes, task)) > 1 && put(bytes, TASK_UNIT, task, 1)
    }),
    bad("a unit behind a region's last block", &[28, 29], |bytes, task, _| {
        let behind = tail(class_of(bytes, task));
        behind < UNITS_PER_REGION && put(bytes, TASK_UNIT, task, behind)
    }),
    moved("a return of a task that leaves", RETURNS, |bytes, task, _| put(bytes, TASK_UNIT, task, LEAVING)),
    bad("a return for the unit behind leaving", RETURNS, |bytes, task, _| put(bytes, TASK_UNIT, task, LEAVING + 1)),
    bad("a return for the unit before leaving", RETURNS, |bytes, task, _| put(bytes, TASK_UNIT, task, LEAVING - 1)),
    bad("step 1 of a free by a task that leaves", FREED, |bytes, task, _| put(bytes, TASK_UNIT, task, LEAVING)),
];

fn class_of(bytes: &Bytes, task: usize) -> usize {
    get(&bytes.control, TASK_CLASS, task) as usize
}

fn n_of(bytes: &Bytes, task: usize) -> u64 {
    per_region(class_of(bytes, task))
}

fn with_n(bytes: &mut Bytes, task: usize, column: Column, more: u64) -> bool {
    let n = n_of(bytes, task);
    put(bytes, column, task, n + more)
}

fn in_region(bytes: &mut Bytes, task: usize, region: u64) -> bool {
    put(bytes, TASK_REGION, task, region)
}

fn past_area(bytes: &mut Bytes, task: usize, _: usize) -> bool {
    let regions = get(&bytes.control, REGIONS, 0);
    in_region(bytes, task, regions)
}

fn other_regions(bytes: &mut Bytes, _: usize, _: usize) -> bool {
    let regions = get(&bytes.control, REGIONS, 0);
    put(bytes, REGIONS, 0, if regions == 1 { 2 } else { regions - 1 })
}
