//! What kinds of keepers the runs had, counted from the plain pool alone: along the runs, and right after the steps
//! that ended with 13.

use crate::checks::Checks;
use crate::coverage::reached;
use crate::keepers::{self, at_request, keeper, CACHED, IN_HAND, REQUEST};
use crate::pool::{Pool, REGIONS, TASKS};
use crate::report::{cache, request, Stock, HANDS};

#[derive(Clone, Copy, PartialEq, Eq, Debug)]
pub enum When {
    AlongRuns,
    After13,
}

const WHEN: [&str; 2] = ["along the runs", "right after a step that ended with 13"];

/// What a region is kept by. A request has blocks of it, or at one of five places the region itself.
const KINDS: [&str; 9] = [
    "a block in hand",
    "a cached block",
    "blocks of a request",
    "a request that is to open it",
    "a request that is to clear its map entry",
    "a request that is to read the head of the spare regions",
    "a request that is to write its next",
    "a request that is to exchange the head of the spare regions",
    "the spare list",
];
/// The places at which a task has a region itself, in the order of the kinds.
const PLACES: [usize; 5] = [26, 33, 17, 18, 19];
const OF_PLACES: usize = 3;
const LIST: usize = OF_PLACES + PLACES.len();

/// What has to be left out where another is named.
const CHOICES: [&str; 7] = [
    "of several blocks in hand the lowest",
    "of a task's cached blocks the lowest, and it is not the top",
    "of two tasks with cached blocks the lower, and the other has the lower unit",
    "of two tasks with requests the lower",
    "a block in hand before a cached one",
    "a cached block before a request",
    "a block in hand before a request",
];

#[derive(Default)]
pub struct KeepersCoverage {
    rows: [u64; WHEN.len()],
    kinds: [[u64; KINDS.len()]; WHEN.len()],
    choices: [[u64; CHOICES.len()]; WHEN.len()],
    /// Rows by the number of regions, and regions by the task that is named.
    regions: [u64; REGIONS + 1],
    tasks: [[u64; TASKS]; WHEN.len()],
}

impl KeepersCoverage {
    pub fn count(&mut self, when: When, pool: &Pool, stock: &Stock) {
        let when = when as usize;
        self.rows[when] += 1;
        self.regions[stock.regions] += 1;
        for region in 0..stock.regions {
            let Some(keeper) = keeper(stock, region) else { continue };
            let kind = match keeper.kind {
                IN_HAND => 0,
                CACHED => 1,
                REQUEST => kind_of_request(pool, stock, region, keeper.task as usize),
                _ => LIST,
            };
            self.kinds[when][kind] += 1;
            if matches!(keeper.kind, CACHED | REQUEST) {
                self.tasks[when][keeper.task as usize] += 1;
            }
            for (times, made) in self.choices[when].iter_mut().zip(choices(pool, stock, region)) {
                *times += u64::from(made);
            }
        }
    }

    pub fn print(&self) {
        for (when, name) in WHEN.iter().enumerate() {
            println!("rows of keepers {name}: {}; regions by kind: {:?}", self.rows[when], self.kinds[when]);
            println!("choices among keepers {name}: {:?}; by task: {:?}", self.choices[when], self.tasks[when]);
        }
        println!("rows of keepers by regions: {:?}", &self.regions[1..]);
    }

    pub fn report(&self, checks: &mut Checks) {
        for (when, name) in WHEN.iter().enumerate() {
            for (kind, times) in KINDS.iter().zip(self.kinds[when]) {
                reached(checks, &format!("{name} a region is kept by {kind}"), times);
            }
            for (choice, times) in CHOICES.iter().zip(self.choices[when]) {
                reached(checks, &format!("{name} a keeper is chosen: {choice}"), times);
            }
            let least = self.tasks[when].iter().copied().min().unwrap_or(0);
            reached(checks, &format!("{name} each task is named"), least);
        }
        let least = self.regions[1..].iter().copied().min().unwrap_or(0);
        reached(checks, "keepers of 1 to 16 regions each", least);
    }
}

/// A request that has the region itself is told by its place, any other by its blocks.
fn kind_of_request(pool: &Pool, stock: &Stock, region: usize, task: usize) -> usize {
    let place = pool.tasks[task].place.number();
    let itself = PLACES.iter().position(|&itself| itself == place && stock.itself[task] == Some(region));
    itself.map_or(2, |index| OF_PLACES + index)
}

fn choices(pool: &Pool, stock: &Stock, region: usize) -> [bool; CHOICES.len()] {
    let requests = (0..TASKS).filter(|&task| at_request(stock, region, task)).count();
    let Some(open) = keepers::open(stock, region) else { return [false; CHOICES.len()] };
    let lowest: Vec<(usize, u64)> =
        (0..TASKS).filter_map(|task| open.lowest[cache(task)].map(|unit| (task, unit))).collect();
    let held = open.blocks[HANDS];
    let cached = !lowest.is_empty();
    let named = lowest.first().filter(|_| held == 0).copied();
    let top = |task: usize| pool.caches[task][open.class].last().copied();
    let running = (0..TASKS).any(|task| open.blocks[request(task)] > 0);
    [
        held > 1,
        named.is_some_and(|(task, unit)| top(task) != Some(unit)),
        named.is_some_and(|(_, unit)| lowest.iter().any(|&(_, other)| other < unit)),
        held == 0 && !cached && requests > 1,
        held > 0 && cached,
        held == 0 && cached && running,
        held > 0 && !cached && running,
    ]
}
