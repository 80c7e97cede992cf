//! Written schedules for the regions' keepers, most of them right after a request that ended with 13: each kind of
//! keeper, and which of several is named, worked out from the step list.

use crate::checks::Parted;
use crate::directed::{allocate, free, start, steps_to_the_end};
use crate::driver::Driver;
use crate::keepers::{cached, in_hand, row_of, running, spare, Keeper};
use crate::pool::{Request, REGIONS, TASKS};
use crate::report::Report;
use crate::sheet_directed::{allocate_all, step, steps};

/// A task that is asked for another class, and finds no region.
const ASKING: u64 = 3;

/// These keep the regions.
fn shows(driver: &mut Driver, name: &str, keepers: &[Keeper]) -> Result<(), Parted> {
    driver.compare_reports()?;
    let same = driver.written(Report::Keepers) == row_of(keepers);
    driver.checks.hold(&Report::Keepers.check(name), same, || format!("{keepers:?} are due"))
}

/// A request for 8 bytes ends with 13, and then these keep the regions.
fn shows_after_13(driver: &mut Driver, name: &str, keepers: &[Keeper]) -> Result<(), Parted> {
    let (_, end) = allocate(driver, ASKING, 8)?;
    let name = format!("after 13, {name}");
    driver.checks.hold(&Report::Keepers.check(&name), end == (13, 0), || format!("{end:?}"))?;
    shows(driver, &name, keepers)
}

fn leave(driver: &mut Driver, task: u64) -> Result<(), Parted> {
    driver.ask(Request::Leave { task })?;
    steps_to_the_end(driver, task).map(|_| ())
}

fn free_all(driver: &mut Driver, task: u64, units: &[u64]) -> Result<(), Parted> {
    units.iter().try_for_each(|&unit| free(driver, task, unit).map(|_| ()))
}

/// Before a start and of fresh pools, then one region with blocks in hand.
pub fn blocks_in_hand(driver: &mut Driver) -> Result<(), Parted> {
    driver.compare_reports()?;
    for regions in 1..=REGIONS {
        start(driver, TASKS as u64, regions as u64)?;
        shows(driver, "all regions of a fresh pool are spare", &vec![spare(); regions])?;
    }
    start(driver, 4, 1)?;
    allocate_all(driver, 0, 256, 3)?;
    shows_after_13(driver, "the lowest of three blocks in hand", &[in_hand(416)])?;
    free(driver, 1, 416)?;
    shows_after_13(driver, "the lower one in hand, though one below it is cached", &[in_hand(448)])?;
    free(driver, 0, 448)?;
    driver.ask(Request::Free { task: 2, unit: 480 })?;
    shows_after_13(driver, "the lowest task's lowest cached block", &[cached(0, 0)])
}

/// The blocks of one region in the caches of tasks 1 and 2: task 2 has the lower units.
pub fn cached_blocks(driver: &mut Driver) -> Result<(), Parted> {
    start(driver, 4, 1)?;
    let units = allocate_all(driver, 0, 256, 16)?;
    free_all(driver, 2, &[0, 32])?;
    free_all(driver, 1, &[448, 480])?;
    shows_after_13(driver, "blocks in hand before cached ones", &[in_hand(64)])?;
    free_all(driver, 2, &units[2..14])?;
    shows_after_13(driver, "the lower task, though the other has the lower unit", &[cached(1, 448)])?;
    driver.ask(Request::Allocate { task: 1, size: 256 })?;
    shows_after_13(driver, "a request that has no blocks is none", &[cached(1, 448)])?;
    step(driver, 1)?;
    shows_after_13(driver, "the top of the cache has gone to the user", &[in_hand(480)])?;
    free(driver, 2, 480)?;
    leave(driver, 1)?;
    shows_after_13(driver, "the other task's lowest unit, which is not on top", &[cached(2, 0)])
}

/// Another task opens the only region: it has the region itself, then all blocks, then the first one is cached.
pub fn opening(driver: &mut Driver) -> Result<(), Parted> {
    for task in [0, 2, 7] {
        start(driver, 8, 1)?;
        driver.ask(Request::Allocate { task, size: 256 })?;
        for _ in 0..8 {
            shows(driver, "a region is spare until it is popped", &[spare()])?;
            step(driver, task)?;
        }
        shows_after_13(driver, "a region that is popped and not open", &[running(task as usize)])?;
        step(driver, task)?;
        shows_after_13(driver, "all blocks are to be carved", &[running(task as usize)])?;
        for _ in 0..16 {
            step(driver, task)?;
            shows_after_13(driver, "the first block is carved", &[cached(task as usize, 0)])?;
        }
        step(driver, task)?;
        shows_after_13(driver, "one of sixteen blocks is in hand", &[in_hand(480)])?;
    }
    Ok(())
}

/// A task that leaves returns all blocks of a region in a group, and then the region itself.
pub fn on_its_way_back(driver: &mut Driver) -> Result<(), Parted> {
    for task in [1, 5] {
        start(driver, 8, 1)?;
        let unit = allocate(driver, task, 256)?.1 .1;
        free(driver, task, unit)?;
        driver.ask(Request::Leave { task })?;
        for _ in 0..16 {
            shows_after_13(driver, "a cached block before those of a group", &[cached(task as usize, 0)])?;
            step(driver, task)?;
        }
        for place in [29, 30, 31, 32, 33, 17, 18, 19] {
            let stands = driver.pool.tasks[task as usize].place.number();
            let name = format!("a task that leaves, at place {place}");
            driver.checks.hold(&Report::Keepers.check(&name), stands == place, || format!("at {stands}"))?;
            shows_after_13(driver, &name, &[running(task as usize)])?;
            step(driver, task)?;
        }
        for _ in 0..3 {
            shows(driver, "the region that came back is spare", &[spare()])?;
            step(driver, task)?;
        }
    }
    Ok(())
}

/// A region comes back after a request has read the list empty, and before it ends with 13: at each of its three steps.
pub fn back_on_the_list(driver: &mut Driver) -> Result<(), Parted> {
    for read in 6..9 {
        start(driver, 4, 1)?;
        let unit = allocate(driver, 1, 256)?.1 .1;
        free(driver, 1, unit)?;
        driver.ask(Request::Leave { task: 1 })?;
        steps(driver, 1, 23)?;
        driver.ask(Request::Allocate { task: ASKING, size: 8 })?;
        steps(driver, ASKING, read)?;
        shows(driver, "the region is with the task that leaves", &[running(1)])?;
        step(driver, 1)?;
        let (_, end) = steps_to_the_end(driver, ASKING)?;
        let name = "a region that came back after the list was read empty";
        driver.checks.hold(&Report::Keepers.check(name), end == (13, 0), || format!("{end:?}"))?;
        shows(driver, name, &[spare()])?;
    }
    Ok(())
}

/// Requests of two tasks have blocks of the region, and the others are in its chain: the lower task is named.
pub fn two_requests(driver: &mut Driver) -> Result<(), Parted> {
    start(driver, 5, 1)?;
    let units = allocate_all(driver, 0, 256, 16)?;
    free_all(driver, 4, &units[2..])?;
    leave(driver, 4)?;
    driver.ask(Request::Free { task: 2, unit: units[0] })?;
    shows_after_13(driver, "a block in hand before one being freed", &[in_hand(32)])?;
    driver.ask(Request::Free { task: 1, unit: units[1] })?;
    shows_after_13(driver, "the lower of two tasks that free a block", &[running(1)])?;
    step(driver, 1)?;
    shows_after_13(driver, "a cached block before one being freed", &[cached(1, 32)])?;
    driver.ask(Request::Allocate { task: 0, size: 256 })?;
    steps(driver, 0, 6)?;
    shows_after_13(driver, "a cached block before a chain that is moved", &[cached(1, 32)])?;
    driver.ask(Request::Leave { task: 1 })?;
    step(driver, 1)?;
    shows_after_13(driver, "a chain that is moved, a group and a block being freed", &[running(0)])?;
    step(driver, 0)?;
    shows_after_13(driver, "the first block of the chain is moved", &[cached(0, 480)])
}

/// Sixteen regions, each kept in another way; and units that need both bytes.
pub fn sixteen_regions(driver: &mut Driver) -> Result<(), Parted> {
    start(driver, 8, REGIONS as u64)?;
    let units = allocate_all(driver, 0, 256, 16 * REGIONS as u64)?;
    let mut keepers: Vec<Keeper> = (0..REGIONS).map(|region| in_hand(512 * region as u64)).collect();
    shows_after_13(driver, "sixteen regions in hand", &keepers)?;
    for (region, task) in [(0, 7), (5, 2), (9, 1), (15, 6)] {
        let of = &units[16 * region..16 * (region + 1)];
        free_all(driver, task, &of[1..15])?;
        keepers[region] = in_hand(of[0]);
        shows_after_13(driver, "sixteen regions, one with its first and last block in hand", &keepers)?;
        free(driver, task, of[0])?;
        keepers[region] = in_hand(of[15]);
        shows_after_13(driver, "sixteen regions, one with its last block in hand", &keepers)?;
        free(driver, task, of[15])?;
        keepers[region] = cached(task as usize, of[0]);
        shows_after_13(driver, "sixteen regions, one in a cache", &keepers)?;
    }
    driver.ask(Request::Leave { task: 6 })?;
    steps(driver, 6, 16)?;
    keepers[15] = running(6);
    shows_after_13(driver, "sixteen regions, the last in a group", &keepers)?;
    driver.ask(Request::Leave { task: 2 })?;
    steps(driver, 2, 20)?;
    keepers[5] = running(2);
    shows_after_13(driver, "sixteen regions, one with a task itself", &keepers)?;
    leave(driver, 1)?;
    keepers[9] = spare();
    shows(driver, "sixteen regions, one of them spare", &keepers)
}

/// Blocks of 8 bytes: every unit of the area is one, up to 8,191.
pub fn all_units(driver: &mut Driver) -> Result<(), Parted> {
    start(driver, 2, REGIONS as u64)?;
    let units = allocate_all(driver, 0, 8, 512 * REGIONS as u64)?;
    let mut keepers: Vec<Keeper> = (0..REGIONS).map(|region| in_hand(512 * region as u64)).collect();
    for &unit in &units[7680..] {
        keepers[15] = in_hand(unit);
        shows(driver, "each unit of the last region is the lowest in hand", &keepers)?;
        free(driver, 1, unit)?;
    }
    keepers[15] = cached(1, 7680);
    shows(driver, "all units of the last region are cached", &keepers)
}
