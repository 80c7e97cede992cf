//! What kinds of sheets and forms the runs had, counted from the plain pool alone.

use crate::checks::Checks;
use crate::classes::CLASSES;
use crate::coverage::reached;
use crate::pool::{Place, Pool, State, Under, REGIONS, TASKS};
use crate::report::{cache, request, OpenRegion, CHAINS, HANDS, HOLDERS};
use crate::sheet::by_column;
use crate::structure::regions_of;

/// What a pool has that shows on its sheet, or has to be left out of it.
const KINDS: [&str; 9] = [
    "a chain that is moved",
    "blocks that are to be carved",
    "a group of a free",
    "a block being freed, and no group",
    "a group of leaving",
    "a region that has emptied, and whose map entry stands",
    "a region that a request has and has not opened",
    "a strip in hand",
    "all eight tasks at a request",
];

#[derive(Default)]
pub struct SheetCoverage {
    pub sheets: u64,
    kinds: [u64; KINDS.len()],
    /// Sheets by the number of open regions, and open regions by class.
    open: [u64; REGIONS + 1],
    classes: [u64; CLASSES],
}

impl SheetCoverage {
    pub fn count(&mut self, pool: &Pool, strip_in_hand: bool) {
        self.sheets += 1;
        let open: Vec<usize> = (0..regions_of(pool)).filter_map(|region| pool.open(region)).collect();
        self.open[open.len()] += 1;
        for index in open {
            self.classes[pool.descriptors[index].class] += 1;
        }
        let has = |kind: fn(&Pool, usize) -> bool| (0..pool.tasks.len()).any(|task| kind(pool, task));
        let kinds = [
            has(|pool, task| matches!(pool.tasks[task].under, Under::Chain(_))),
            has(|pool, task| matches!(pool.tasks[task].under, Under::Carving(_))),
            has(|pool, task| has_group(pool, task) && !pool.tasks[task].leaving),
            has(|pool, task| frees(pool, task) && !has_group(pool, task)),
            has(|pool, task| has_group(pool, task) && pool.tasks[task].leaving),
            (0..regions_of(pool)).any(|region| is_emptied(pool, region)),
            has(|pool, task| pool.tasks[task].place == Place::WriteDescriptor),
            strip_in_hand,
            pool.tasks.iter().all(|task| task.place != Place::Idle),
        ];
        for (times, has) in self.kinds.iter_mut().zip(kinds) {
            *times += u64::from(has);
        }
    }

    pub fn print(&self) {
        println!("sheets compared: {}; by the number of open regions: {:?}", self.sheets, self.open);
        println!("open regions on the sheets by class: {:?}", self.classes);
    }

    pub fn report(&self, checks: &mut Checks) {
        for (name, times) in KINDS.iter().zip(self.kinds) {
            reached(checks, &format!("a sheet of a pool with {name}"), times);
        }
        let least = |row: &[u64]| row.iter().copied().min().unwrap_or(0);
        reached(checks, "sheets with each number of open regions", least(&self.open));
        reached(checks, "sheets with open regions of each class", least(&self.classes));
    }
}

fn has_group(pool: &Pool, task: usize) -> bool {
    matches!(&pool.tasks[task].under, Under::Group(group) if !group.is_empty())
}

fn frees(pool: &Pool, task: usize) -> bool {
    pool.tasks[task].place.returns() && !pool.tasks[task].leaving
}

fn is_emptied(pool: &Pool, region: usize) -> bool {
    let named = pool.map[region].map(|index| &pool.descriptors[index]);
    named.is_some_and(|descriptor| descriptor.region == region && descriptor.state == State::Empty)
}

/// What a form adds up, by the columns of the sheet.
const ADDED_UP: [&str; 4] = ["blocks in hand", "cached blocks of a task", "blocks of a task's request", "chains"];

#[derive(Default)]
pub struct FormCoverage {
    /// Forms with blocks of the holder, and forms with blocks of several regions in one number of the holder.
    holders: [u64; HOLDERS],
    several: [u64; HOLDERS],
    /// Forms with a number that one byte does not hold, and with one above the blocks of any region.
    two_bytes: u64,
    above_region: u64,
}

impl FormCoverage {
    pub fn count(&mut self, open: &[OpenRegion]) {
        let (mut held, mut several, mut most) = ([false; HOLDERS], [false; HOLDERS], 0);
        for class in 0..CLASSES {
            for holder in 0..HOLDERS {
                let of_class = open.iter().filter(|open| open.class == class).map(|open| open.blocks[holder]);
                held[holder] |= of_class.clone().any(|blocks| blocks > 0);
                several[holder] |= of_class.clone().filter(|&blocks| blocks > 0).count() > 1;
                most = most.max(of_class.sum());
            }
        }
        for holder in 0..HOLDERS {
            self.holders[holder] += u64::from(held[holder]);
            self.several[holder] += u64::from(several[holder]);
        }
        self.two_bytes += u64::from(most > 255);
        self.above_region += u64::from(most > 512);
    }

    pub fn print(&self) {
        println!("forms by holder with blocks: {:?}; with those of several regions: {:?}", self.holders, self.several);
    }

    pub fn report(&self, checks: &mut Checks) {
        reached(checks, "a form with blocks in hand", self.holders[HANDS]);
        for task in 0..TASKS {
            reached(checks, &format!("a form with blocks in the cache of task {task}"), self.holders[cache(task)]);
            reached(checks, &format!("a form with blocks of the request of task {task}"), self.holders[request(task)]);
        }
        reached(checks, "a form with blocks in chains", self.holders[CHAINS]);
        for (name, times) in ADDED_UP.iter().zip(by_column(&self.several)) {
            reached(checks, &format!("a form that adds up {name} of several regions"), times);
        }
        reached(checks, "a form with a number above 255", self.two_bytes);
        reached(checks, "a form with a number above 512", self.above_region);
    }
}
