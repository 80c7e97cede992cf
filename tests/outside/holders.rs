//! The plain pool's own stock for the reports. It is read from its marks, caches, requests, chains and lists, and not
//! from any byte of the memories.

use crate::classes::{per_region, units, CLASSES, UNITS_PER_REGION};
use crate::faults::Fault;
use crate::lists::{Move, SPARE_REGIONS};
use crate::pool::{Place, Pool, Under, TASKS};
use crate::report::{cache, request, OpenRegion, Report, Stock, CHAINS, HANDS, REPORTS};
use crate::structure::{plain_under_way, regions_of};
use crate::tamper_keepers;

/// One fault in each report.
type OfReports = [Fault; REPORTS.len()];
const FREED_FORGOTTEN: OfReports =
    [Fault::SheetFreedForgotten, Fault::FormFreedForgotten, Fault::KeepersFreedForgotten];
const CARVED_FORGOTTEN: OfReports =
    [Fault::SheetCarvedForgotten, Fault::FormCarvedForgotten, Fault::KeepersCarvedForgotten];

/// The stock of a pool that is started, as the report has it.
pub fn stock(report: Report, pool: &Pool) -> Stock {
    let running: Vec<Vec<u64>> = (0..TASKS).map(|task| under_way(report, pool, task)).collect();
    let mut open = Vec::new();
    for region in 0..regions_of(pool) {
        let Some(index) = shown(report, pool, region) else { continue };
        let class = pool.descriptors[index].class;
        let mut of = OpenRegion::new(class, region);
        of.note(HANDS, &in_hand(pool, class, region));
        for task in 0..TASKS {
            of.note(cache(task), &of_region(&pool.caches[task][class], region));
            if pool.tasks[task].class == class {
                of.note(request(task), &of_region(&running[task], region));
            }
        }
        of.blocks[CHAINS] = pool.descriptors[index].chain.len() as u64;
        open.push(of);
    }
    let itself = std::array::from_fn(|task| itself(pool, task));
    let spare = pool.lists[SPARE_REGIONS].row.iter().copied().collect();
    let mut stock = Stock { regions: regions_of(pool), open, itself, spare };
    faulty(report, pool.fault, &mut stock.open);
    if report == Report::Keepers {
        tamper_keepers::faulty(pool, &mut stock);
    }
    stock
}

/// The row of a pool that is started; none where a region has no keeper.
pub fn row(report: Report, pool: &Pool) -> Option<Vec<u8>> {
    report.row(&stock(report, pool))
}

/// The descriptor by which a region is in the report: one that is not open in the class is not. In a run the keepers
/// would name the same for a region that has emptied: no block of it is anywhere but in its chain.
fn shown(report: Report, pool: &Pool, region: usize) -> Option<usize> {
    match (report, pool.fault) {
        (Report::Sheet, Fault::SheetEmptied) | (Report::Form, Fault::FormEmptied) => {
            pool.map[region].filter(|&index| pool.descriptors[index].region == region)
        }
        _ => pool.open(region),
    }
}

/// The blocks of the region that are in users' hands.
pub fn in_hand(pool: &Pool, class: usize, region: usize) -> Vec<u64> {
    let first = region as u64 * UNITS_PER_REGION;
    let blocks = (0..per_region(class)).map(|block| first + block * units(class));
    blocks.filter(|&unit| pool.marks[unit as usize]).collect()
}

/// Those of the units that are of the region.
pub fn of_region(units: &[u64], region: usize) -> Vec<u64> {
    units.iter().copied().filter(|unit| unit / UNITS_PER_REGION == region as u64).collect()
}

/// "a chain or group under way, a block being freed and blocks still to be carved".
fn under_way(report: Report, pool: &Pool, task: usize) -> Vec<u64> {
    let mut units = plain_under_way(pool, task);
    let own = pool.tasks[task].place.returns() && !pool.tasks[task].leaving;
    let carving = matches!(pool.tasks[task].under, Under::Carving(_));
    if own && pool.fault == FREED_FORGOTTEN[report as usize] {
        units.truncate(units.len() - 1);
    } else if carving && pool.fault == CARVED_FORGOTTEN[report as usize] {
        units.clear();
    }
    units
}

/// The region that the task has popped and not opened yet, or emptied and not pushed back yet: it is off every list,
/// and not open.
fn itself(pool: &Pool, task: usize) -> Option<usize> {
    let place = pool.tasks[task].place;
    let has = matches!(place, Place::WriteDescriptor | Place::ClearMap | Place::List(Move::PushRegion, _));
    has.then_some(pool.tasks[task].region)
}

/// The numbers as a faulty sheet or form has them.
fn faulty(report: Report, fault: Fault, open: &mut Vec<OpenRegion>) {
    if (report, fault) == (Report::Form, Fault::FormFirstRegion) {
        let mut seen = [false; CLASSES];
        open.retain(|open| !std::mem::replace(&mut seen[open.class], true));
    }
    for OpenRegion { blocks, .. } in open {
        match (report, fault) {
            (Report::Sheet, Fault::SheetCachedInHand) => {
                blocks[HANDS] += blocks[cache(0)..request(0)].iter().sum::<u64>();
                blocks[cache(0)..request(0)].fill(0);
            }
            (Report::Sheet, Fault::SheetRunningCached) => {
                (0..TASKS).for_each(|task| blocks[cache(task)] += std::mem::take(&mut blocks[request(task)]));
            }
            (Report::Form, Fault::FormNextTask) => blocks[cache(0)..request(0)].rotate_right(1),
            (Report::Form, Fault::FormSwapped) => blocks[cache(0)..CHAINS].rotate_right(TASKS),
            (Report::Form, Fault::FormNoChains) => blocks[CHAINS] = 0,
            _ => (),
        }
    }
}
