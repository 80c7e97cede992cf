//! Deliberate faults of the keepers: of those that the plain pool names, and of the row that the library has written.

use crate::faults::Fault;
use crate::holders::{in_hand, of_region};
use crate::keepers::{self, at_request, told, Keeper};
use crate::memory::Memory;
use crate::pool::{Pool, TASKS};
use crate::report::{cache, request, OpenRegion, Stock, HANDS};

/// The caches of all tasks among the holders.
const CACHES: std::ops::Range<usize> = cache(0)..request(0);

/// The stock as faulty keepers are found in it.
pub fn faulty(pool: &Pool, stock: &mut Stock) {
    match pool.fault {
        Fault::KeepersItselfSpare => stock.spare.extend(stock.itself.iter_mut().filter_map(Option::take)),
        Fault::KeepersItselfForgotten => stock.itself = [None; TASKS],
        Fault::KeepersHighestRunning => highest_running(stock),
        Fault::KeepersRequestFirst => {
            let kept: Vec<bool> = (0..stock.regions).map(|region| at_some_request(stock, region)).collect();
            stock.open.iter_mut().filter(|open| kept[open.region]).for_each(|open| open.lowest[CACHES].fill(None));
        }
        fault => stock.open.iter_mut().for_each(|open| faulty_region(pool, fault, open)),
    }
}

fn at_some_request(stock: &Stock, region: usize) -> bool {
    (0..TASKS).any(|task| at_request(stock, region, task))
}

/// Leaves each region, of the tasks that have it or blocks of it, the last.
fn highest_running(stock: &mut Stock) {
    for region in 0..stock.regions {
        let Some(last) = (0..TASKS).rev().find(|&task| at_request(stock, region, task)) else { continue };
        for task in 0..last {
            stock.itself[task] = stock.itself[task].filter(|&itself| itself != region);
            let open = stock.open.iter_mut().filter(|open| open.region == region);
            open.for_each(|open| open.blocks[request(task)] = 0);
        }
    }
}

/// The faults of one open region.
fn faulty_region(pool: &Pool, fault: Fault, open: &mut OpenRegion) {
    let highest = |units: &[u64]| units.iter().max().copied();
    let (class, region) = (open.class, open.region);
    match fault {
        Fault::KeepersHighestHand => open.lowest[HANDS] = highest(&in_hand(pool, class, region)),
        Fault::KeepersHighestCached => {
            let of = |task: usize| of_region(&pool.caches[task][class], region);
            (0..TASKS).for_each(|task| open.lowest[cache(task)] = highest(&of(task)));
        }
        Fault::KeepersTopCached => {
            let of = |task: usize| of_region(&pool.caches[task][class], region);
            (0..TASKS).for_each(|task| open.lowest[cache(task)] = of(task).last().copied());
        }
        Fault::KeepersHighestTask => {
            let last = CACHES.rev().find(|&cache| open.lowest[cache].is_some()).unwrap_or(CACHES.start);
            open.lowest[CACHES.start..last].fill(None);
        }
        Fault::KeepersLowestOfAll => {
            let least = open.lowest[CACHES].iter().flatten().min().copied();
            open.lowest[CACHES].iter_mut().filter(|unit| **unit != least).for_each(|unit| *unit = None);
        }
        Fault::KeepersCacheFirst if open.lowest[CACHES].iter().any(Option::is_some) => open.lowest[HANDS] = None,
        _ => (),
    }
}

/// The keepers of the row with other units.
pub fn each_unit(row: &mut Memory, whole: usize, change: fn(u64) -> u64) {
    for region in 0..whole / keepers::place(1) {
        let keeper = told(row.bytes(), region);
        keepers::put(row.bytes_mut(), region, Keeper { unit: change(keeper.unit), ..keeper });
    }
}

/// The unit whose two bytes are those of this one in the other order.
pub fn high_first(unit: u64) -> u64 {
    u64::from((unit as u16).swap_bytes())
}
