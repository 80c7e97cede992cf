//! The row of the regions' keepers: for each region "the lowest block in hand; a cached block with its task; the task
//! whose running request has blocks of the region, or has the region itself, off every list and not open; or the spare
//! list". "The first of these that applies is named, among equals the lowest task and unit."

use crate::pool::TASKS;
use crate::report::{cache, number, put_numbers, request, OpenRegion, Stock, HANDS};

/// The kinds of keepers, in the order in which they apply.
pub const IN_HAND: u8 = 1;
pub const CACHED: u8 = 2;
pub const REQUEST: u8 = 3;
pub const SPARE: u8 = 4;

#[derive(Clone, Copy, PartialEq, Eq, Debug)]
pub struct Keeper {
    pub kind: u8,
    pub task: u8,
    pub unit: u64,
}

/// "for each region of the area four bytes".
pub const fn place(region: usize) -> usize {
    4 * region
}

pub const fn in_hand(unit: u64) -> Keeper {
    Keeper { kind: IN_HAND, task: 0, unit }
}

pub const fn cached(task: usize, unit: u64) -> Keeper {
    Keeper { kind: CACHED, task: task as u8, unit }
}

pub const fn running(task: usize) -> Keeper {
    Keeper { kind: REQUEST, task: task as u8, unit: 0 }
}

pub const fn spare() -> Keeper {
    Keeper { kind: SPARE, task: 0, unit: 0 }
}

/// "kind, task, unit in two bytes".
pub fn put(row: &mut [u8], region: usize, keeper: Keeper) {
    let four = &mut row[place(region)..place(region + 1)];
    (four[0], four[1]) = (keeper.kind, keeper.task);
    put_numbers(four, 2, &[keeper.unit]);
}

/// The keeper that a row names for a region.
pub fn told(row: &[u8], region: usize) -> Keeper {
    let four = &row[place(region)..place(region + 1)];
    Keeper { kind: four[0], task: four[1], unit: number(four, 2) }
}

pub fn row_of(keepers: &[Keeper]) -> Vec<u8> {
    let mut row = vec![0; place(keepers.len())];
    keepers.iter().enumerate().for_each(|(region, keeper)| put(&mut row, region, *keeper));
    row
}

/// The whole row; none where a region has no keeper.
pub fn row(stock: &Stock) -> Option<Vec<u8>> {
    let keepers: Option<Vec<Keeper>> = (0..stock.regions).map(|region| keeper(stock, region)).collect();
    keepers.map(|keepers| row_of(&keepers))
}

/// The first keeper that applies to the region.
pub fn keeper(stock: &Stock, region: usize) -> Option<Keeper> {
    let open = open(stock, region);
    let by_hand = open.and_then(|open| open.lowest[HANDS]).map(in_hand);
    let unit_of = |task: usize| open.and_then(|open| open.lowest[cache(task)]);
    let by_cache = || (0..TASKS).find_map(|task| unit_of(task).map(|unit| cached(task, unit)));
    let by_request = || (0..TASKS).find(|&task| at_request(stock, region, task)).map(running);
    let by_list = || stock.spare.contains(&region).then(spare);
    by_hand.or_else(by_cache).or_else(by_request).or_else(by_list)
}

/// What is known of a region that is open.
pub fn open(stock: &Stock, region: usize) -> Option<&OpenRegion> {
    stock.open.iter().find(|open| open.region == region)
}

/// Whether the task's request has blocks of the region, if that is open; and of one that is "off every list and not
/// open", whether it has the region itself.
pub fn at_request(stock: &Stock, region: usize, task: usize) -> bool {
    match open(stock, region) {
        Some(open) => open.blocks[request(task)] > 0,
        None => stock.itself[task] == Some(region) && !stock.spare.contains(&region),
    }
}
