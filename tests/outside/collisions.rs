//! Written schedules for collisions that random ones meet too seldom.

use crate::checks::Parted;
use crate::classes::{class_of, per_region, units, UNITS_PER_REGION};
use crate::directed::{allocate, free, start, steps_to_the_end};
use crate::driver::Driver;
use crate::lists::{Move, Phase};
use crate::pool::{Place, Request};

/// The blocks of 256 bytes in a region, and half of them.
const N: usize = 16;
const HALF: usize = N / 2;

/// Steps a task until it stands at this place.
pub fn steps_up_to(driver: &mut Driver, task: u64, place: Place) -> Result<(), Parted> {
    for _ in 0..10_000 {
        if driver.pool.tasks[task as usize].place == place {
            break;
        }
        driver.ask(Request::Step { task })?;
    }
    let stands = driver.pool.tasks[task as usize].place == place;
    driver.checks.hold("directed: the task comes to the place", stands, || format!("{place:?}"))
}

/// Takes all of two regions, gives back the first and begins to free one block of the second: the steps that follow
/// return the first region, which becomes EMPTY and spare.
fn open_two_return_one(driver: &mut Driver, task: u64, size: u64) -> Result<(), Parted> {
    let blocks = per_region(class_of(size));
    let mut units = Vec::new();
    for _ in 0..2 * blocks {
        units.push(allocate(driver, task, size)?.1 .1);
    }
    for unit in &units[..blocks as usize] {
        free(driver, task, *unit)?;
    }
    driver.ask(Request::Free { task, unit: units[blocks as usize] }).map(|_| ())
}

/// A region is taken and comes back while another task stands before its pop of that region, and before its push of
/// another one: both exchanges are lost, though the region that was read is on top again.
pub fn same_region_again(driver: &mut Driver) -> Result<(), Parted> {
    start(driver, 2, 3)?;
    driver.ask(Request::Allocate { task: 0, size: 256 })?;
    steps_up_to(driver, 0, Place::List(Move::PopRegion, Phase::Exchange))?;
    open_two_return_one(driver, 1, 224)?;
    steps_to_the_end(driver, 1)?;
    steps_to_the_end(driver, 0)?;
    start(driver, 2, 4)?;
    open_two_return_one(driver, 0, 256)?;
    steps_up_to(driver, 0, Place::List(Move::PushRegion, Phase::Exchange))?;
    open_two_return_one(driver, 1, 224)?;
    steps_to_the_end(driver, 1)?;
    steps_to_the_end(driver, 0)?;
    driver.compare_structure()
}

/// Allocates this many blocks of 256 bytes; answers their units.
fn take(driver: &mut Driver, task: u64, blocks: usize) -> Result<Vec<u64>, Parted> {
    (0..blocks).map(|_| Ok(allocate(driver, task, 256)?.1 .1)).collect()
}

fn free_each(driver: &mut Driver, task: u64, row: &[u64]) -> Result<(), Parted> {
    for unit in row {
        free(driver, task, *unit)?;
    }
    Ok(())
}

/// Task 0 takes three regions of 256-byte blocks and returns half of regions 0 and 1, so that both are PARTIAL with 8
/// blocks. It has 8 blocks of region 0 in its cache. Answers the blocks of regions 1 and 2 that it still has.
fn two_regions_half_returned(driver: &mut Driver) -> Result<(Vec<u64>, Vec<u64>), Parted> {
    let row = take(driver, 0, 3 * N)?;
    free_each(driver, 0, &row[..HALF])?;
    free_each(driver, 0, &row[N..N + HALF])?;
    free_each(driver, 0, &row[HALF..N])?;
    Ok((row[N + HALF..2 * N].to_vec(), row[2 * N..].to_vec()))
}

/// "Clearing the map after releasing the region, or by the descriptor's region, wipes another opener's entry." A task
/// stands before it clears the map entry of region 1 while the EMPTY descriptor goes by its partial list and the spare
/// list to region 3.
pub fn descriptor_moves_on(driver: &mut Driver) -> Result<(), Parted> {
    start(driver, 2, 5)?;
    let (second, third) = two_regions_half_returned(driver)?;
    free_each(driver, 0, &second)?;
    driver.ask(Request::Free { task: 0, unit: third[0] })?;
    steps_up_to(driver, 0, Place::ClearMap)?;
    let taken = take(driver, 1, HALF + 1)?;
    let named_back = driver.pool.map[1].is_some_and(|index| driver.pool.descriptors[index].region == 1);
    driver.checks.hold("directed: a map entry names a descriptor of another region", !named_back, || {
        format!("{:?}", driver.pool.map)
    })?;
    driver.ask(Request::Free { task: 1, unit: UNITS_PER_REGION })?;
    driver.compare_structure()?;
    steps_to_the_end(driver, 0)?;
    driver.compare_structure()?;
    free_each(driver, 1, &taken)?;
    driver.compare_structure()
}

/// "The exchange is won exactly if all three are as noted": a task stands before its return to region 0 while the chain
/// is taken and a shorter one with the same first block comes in its place.
pub fn same_first_block_again(driver: &mut Driver) -> Result<(), Parted> {
    start(driver, 2, 5)?;
    let (_, third) = two_regions_half_returned(driver)?;
    free_each(driver, 0, &third[..HALF])?;
    driver.ask(Request::Free { task: 0, unit: third[HALF] })?;
    steps_up_to(driver, 0, Place::ReturnGroup)?;
    let same_region = |driver: &Driver| driver.pool.tasks[0].region == 0;
    if !same_region(driver) {
        driver.ask(Request::Step { task: 0 })?;
        steps_up_to(driver, 0, Place::ReturnGroup)?;
    }
    let noted = driver.pool.tasks[0].anchor;
    let first = noted.first.unwrap_or(0) * units(class_of(256));
    let row = take(driver, 1, 2 * N + HALF)?;
    let last = row.len() - 1;
    free_each(driver, 1, &row[N + HALF..last])?;
    free_each(driver, 1, &[first, row[last]])?;
    let chain = &driver.pool.descriptors[driver.pool.tasks[0].descriptor].chain;
    let shorter = same_region(driver) && chain.front().copied() == noted.first && chain.len() != noted.length;
    driver.checks.hold("directed: another chain with the same first block", shorter, || format!("{noted:?}"))?;
    driver.ask(Request::Step { task: 0 })?;
    driver.compare_structure()?;
    steps_to_the_end(driver, 0)?;
    driver.compare_structure()
}
