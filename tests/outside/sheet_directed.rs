//! Written schedules for the stock sheet: each kind of blocks under way with the numbers worked out from the step list.

use crate::checks::Parted;
use crate::classes::{class_of, per_region, UNITS_PER_REGION};
use crate::directed::{allocate, free, start, steps_to_the_end};
use crate::driver::Driver;
use crate::pool::{Request, REGIONS, TASKS};
use crate::report::Report;
use crate::sheet::{row_of, Four};
use crate::strips::FIRST_UNIT;

/// The sheet shows these numbers and else zeros.
fn shows(driver: &mut Driver, name: &str, numbers: &[(usize, usize, Four)]) -> Result<(), Parted> {
    driver.compare_reports()?;
    let same = driver.written(Report::Sheet) == row_of(numbers);
    driver.checks.hold(&Report::Sheet.check(name), same, || format!("{numbers:?} are due"))
}

pub fn step(driver: &mut Driver, task: u64) -> Result<(), Parted> {
    driver.ask(Request::Step { task }).map(|_| ())
}

pub fn steps(driver: &mut Driver, task: u64, times: u64) -> Result<(), Parted> {
    (0..times).try_for_each(|_| step(driver, task))
}

/// So many blocks of the size; answers their units in rising order.
pub fn allocate_all(driver: &mut Driver, task: u64, size: u64, times: u64) -> Result<Vec<u64>, Parted> {
    let mut units = (0..times).map(|_| Ok(allocate(driver, task, size)?.1 .1)).collect::<Result<Vec<_>, Parted>>()?;
    units.sort();
    Ok(units)
}

/// Before a start, of fresh pools, and one block in hand that another task frees.
pub fn first_block(driver: &mut Driver) -> Result<(), Parted> {
    driver.compare_reports()?;
    for (tasks, regions) in [(1, 1), (TASKS as u64, REGIONS as u64), (2, 3)] {
        start(driver, tasks, regions)?;
        shows(driver, "a fresh pool shows zeros", &[])?;
    }
    let class = class_of(256);
    let unit = allocate(driver, 0, 256)?.1 .1;
    shows(driver, "one block in hand, fifteen cached", &[(class, 0, [1, 15, 0, 0])])?;
    driver.ask(Request::Free { task: 1, unit })?;
    shows(driver, "the block being freed is with the request", &[(class, 0, [0, 15, 1, 0])])?;
    step(driver, 1)?;
    shows(driver, "then it is cached, by whichever task", &[(class, 0, [0, 16, 0, 0])])?;
    allocate(driver, 1, 8)?;
    shows(driver, "two classes", &[(class, 0, [0, 16, 0, 0]), (0, 1, [1, 511, 0, 0])])
}

/// A region is not open before its descriptor is written; from then on all its blocks are with the request, until each
/// is carved.
pub fn carving(driver: &mut Driver) -> Result<(), Parted> {
    for size in [8, 80, 224, 256] {
        let (class, n) = (class_of(size), per_region(class_of(size)));
        start(driver, 2, 2)?;
        driver.ask(Request::Allocate { task: 1, size })?;
        for _ in 0..9 {
            shows(driver, "no region is open before its descriptor is written", &[])?;
            step(driver, 1)?;
        }
        for carved in 0..n {
            let numbers = [(class, 0, [0, carved, n - carved, 0])];
            shows(driver, "blocks to be carved are with the request", &numbers)?;
            step(driver, 1)?;
        }
        shows(driver, "all blocks are carved", &[(class, 0, [0, n, 0, 0])])?;
        steps_to_the_end(driver, 1)?;
        shows(driver, "and one is in hand", &[(class, 0, [1, n - 1, 0, 0])])?;
    }
    Ok(())
}

/// Four of sixteen blocks stay in hand, a leaving task returns the others, and another takes the chain up.
pub fn chain_on_the_way(driver: &mut Driver) -> Result<(), Parted> {
    let class = class_of(256);
    start(driver, 2, 1)?;
    allocate_all(driver, 0, 256, 4)?;
    driver.ask(Request::Leave { task: 0 })?;
    for taken in 0..12 {
        shows(driver, "the group of a leaving task", &[(class, 0, [4, 12 - taken, taken, 0])])?;
        step(driver, 0)?;
    }
    steps(driver, 0, 3)?;
    shows(driver, "until it is exchanged the group is with the request", &[(class, 0, [4, 0, 12, 0])])?;
    step(driver, 0)?;
    shows(driver, "then it is in the chain", &[(class, 0, [4, 0, 0, 12])])?;
    steps_to_the_end(driver, 0)?;
    driver.ask(Request::Allocate { task: 1, size: 256 })?;
    steps(driver, 1, 5)?;
    shows(driver, "a chain is in its region until it is taken", &[(class, 0, [4, 0, 0, 12])])?;
    step(driver, 1)?;
    for moved in 0..12 {
        shows(driver, "a taken chain is with the request", &[(class, 0, [4, moved, 12 - moved, 0])])?;
        step(driver, 1)?;
    }
    shows(driver, "all of it is moved", &[(class, 0, [4, 12, 0, 0])])
}

/// A full cache overflows: its sixteen blocks go back as a group while the freed block, of another region, waits. The
/// region that empties is not open any more, though its map entry still stands.
pub fn group_and_block(driver: &mut Driver) -> Result<(), Parted> {
    let class = class_of(256);
    start(driver, 1, 2)?;
    let units = allocate_all(driver, 0, 256, 32)?;
    for &unit in &units[..16] {
        free(driver, 0, unit)?;
    }
    driver.ask(Request::Free { task: 0, unit: units[16] })?;
    step(driver, 0)?;
    for taken in 0..=16 {
        let numbers = [(class, 0, [0, 16 - taken, taken, 0]), (class, 1, [15, 0, 1, 0])];
        shows(driver, "a group and the block being freed", &numbers)?;
        step(driver, 0)?;
    }
    steps(driver, 0, 3)?;
    for _ in 0..7 {
        shows(driver, "a region that has emptied shows zeros", &[(class, 1, [15, 0, 1, 0])])?;
        step(driver, 0)?;
    }
    shows(driver, "until its free finishes the block is with the request", &[(class, 1, [15, 0, 1, 0])])?;
    step(driver, 0)?;
    shows(driver, "then it is cached", &[(class, 1, [15, 1, 0, 0])])
}

/// A task with three classes leaves: "the first is in its chain, a group of the second under way, the third cached".
pub fn leaving_half_way(driver: &mut Driver) -> Result<(), Parted> {
    let [small, middle, large] = [16, 64, 256].map(class_of);
    start(driver, 2, 3)?;
    let held = allocate(driver, 0, 16)?.1 .1;
    for size in [64, 256] {
        let unit = allocate(driver, 0, size)?.1 .1;
        free(driver, 0, unit)?;
    }
    driver.ask(Request::Leave { task: 0 })?;
    steps(driver, 0, per_region(small) - 1 + 1 + 3 + 3)?;
    for taken in 0..per_region(middle) {
        let of_middle = [0, per_region(middle) - taken, taken, 0];
        let numbers = [(small, 0, [1, 0, 0, 255]), (middle, 1, of_middle), (large, 2, [0, 16, 0, 0])];
        shows(driver, "leaving half way", &numbers)?;
        step(driver, 0)?;
    }
    driver.ask(Request::Free { task: 1, unit: held })?;
    let of_middle = (middle, 1, [0, 0, per_region(middle), 0]);
    let numbers = [(small, 0, [0, 0, 1, 255]), of_middle, (large, 2, [0, 16, 0, 0])];
    shows(driver, "another task frees meanwhile", &numbers)?;
    steps_to_the_end(driver, 0)?;
    shows(driver, "what a task that has left returned", &[(small, 0, [0, 0, 1, 255])])
}

/// Strips are on no sheet: in hand, asked for, given back.
pub fn strips_are_on_no_sheet(driver: &mut Driver) -> Result<(), Parted> {
    start(driver, 3, 1)?;
    allocate(driver, 0, 5000)?;
    shows(driver, "a strip in hand is on no sheet", &[])?;
    driver.ask(Request::Allocate { task: 1, size: 300 })?;
    driver.ask(Request::Free { task: 2, unit: FIRST_UNIT })?;
    shows(driver, "requests for strips are on no sheet", &[])?;
    step(driver, 2)?;
    step(driver, 1)?;
    driver.ask(Request::Leave { task: 0 })?;
    shows(driver, "the last step of leaving is on no sheet", &[])
}

/// Sixteen regions of one class, and all blocks of each in another state: numbers above 255 need both bytes.
pub fn sixteen_regions(driver: &mut Driver) -> Result<(), Parted> {
    start(driver, 2, REGIONS as u64)?;
    let units = allocate_all(driver, 0, 8, 512 * REGIONS as u64)?;
    let of = |region: usize| &units[region * UNITS_PER_REGION as usize..(region + 1) * UNITS_PER_REGION as usize];
    let mut numbers: Vec<(usize, usize, Four)> = (0..REGIONS).map(|region| (0, region, [512, 0, 0, 0])).collect();
    shows(driver, "sixteen regions in hand", &numbers)?;
    for (region, freed) in [(0, 1), (3, 255), (15, 256)] {
        for &unit in &of(region)[..freed] {
            free(driver, 1, unit)?;
        }
        numbers[region].2 = [512 - freed as u64, freed as u64, 0, 0];
        shows(driver, "sixteen regions, some blocks cached", &numbers)?;
    }
    driver.ask(Request::Leave { task: 1 })?;
    steps_to_the_end(driver, 1)?;
    for four in &mut numbers {
        four.2 = [four.2[0], 0, 0, four.2[1]];
    }
    shows(driver, "sixteen regions, some blocks in their chains", &numbers)
}
