//! Written schedules for the form by holder: each kind of holder with the numbers worked out from the step list.

use crate::checks::Parted;
use crate::classes::{class_of, per_region};
use crate::directed::{allocate, free, start, steps_to_the_end};
use crate::driver::Driver;
use crate::form::{row_of, Line};
use crate::pool::{Request, TASKS};
use crate::report::{cache, request, Report, CHAINS, HANDS, HOLDERS};
use crate::sheet_directed::{allocate_all, step, steps};

/// The form shows these numbers, each for a class and a holder, and else zeros.
fn shows(driver: &mut Driver, name: &str, numbers: &[(usize, usize, u64)]) -> Result<(), Parted> {
    driver.compare_reports()?;
    let same = driver.written(Report::Form) == row_of(numbers);
    driver.checks.hold(&Report::Form.check(name), same, || format!("{numbers:?} are due"))
}

/// The same for the line of one class.
fn shows_line(driver: &mut Driver, name: &str, class: usize, line: &Line) -> Result<(), Parted> {
    let numbers: Vec<_> = line.iter().enumerate().map(|(holder, &number)| (class, holder, number)).collect();
    shows(driver, name, &numbers)
}

/// Of a fresh pool, and one block in hand that another task frees.
pub fn first_block(driver: &mut Driver) -> Result<(), Parted> {
    let class = class_of(256);
    start(driver, 2, 3)?;
    shows(driver, "a fresh pool shows zeros", &[])?;
    let unit = allocate(driver, 0, 256)?.1 .1;
    let numbers = [(class, HANDS, 1), (class, cache(0), 15)];
    shows(driver, "one block in hand, fifteen in the cache of task 0", &numbers)?;
    driver.ask(Request::Free { task: 1, unit })?;
    let numbers = [(class, cache(0), 15), (class, request(1), 1)];
    shows(driver, "the block being freed is with the request of task 1", &numbers)?;
    step(driver, 1)?;
    let numbers = [(class, cache(0), 15), (class, cache(1), 1)];
    shows(driver, "then it is in the cache of task 1", &numbers)
}

/// Task 5 takes the blocks of one region and one block of another. Task 4 frees of both, and leaves.
pub fn two_regions(driver: &mut Driver) -> Result<(), Parted> {
    let (class, task) = (class_of(256), 5);
    start(driver, 6, 3)?;
    let units = allocate_all(driver, task, 256, 17)?;
    let mut line = [0; HOLDERS];
    (line[HANDS], line[cache(5)]) = (17, 15);
    shows_line(driver, "blocks in hand of two regions", class, &line)?;
    for unit in [units[0], units[1], units[16]] {
        free(driver, 4, unit)?;
    }
    (line[HANDS], line[cache(4)]) = (14, 3);
    shows_line(driver, "a cache with blocks of two regions, beside that of the next task", class, &line)?;
    driver.ask(Request::Free { task, unit: units[2] })?;
    (line[HANDS], line[request(5)]) = (13, 1);
    shows_line(driver, "a request beside the cache of the same task", class, &line)?;
    step(driver, task)?;
    (line[request(5)], line[cache(5)]) = (0, 16);
    shows_line(driver, "the block goes from the request to the cache", class, &line)?;
    driver.ask(Request::Leave { task: 4 })?;
    steps_to_the_end(driver, 4)?;
    (line[cache(4)], line[CHAINS]) = (0, 3);
    shows_line(driver, "the chains of two regions", class, &line)
}

/// Each task gets a cache of its own length, and then a group of that length while it leaves, all of them in turn.
pub fn each_task(driver: &mut Driver) -> Result<(), Parted> {
    let class = class_of(256);
    start(driver, TASKS as u64, 4)?;
    let units = allocate_all(driver, 0, 256, 64)?;
    let mut line = [0; HOLDERS];
    line[HANDS] = 64;
    for task in 0..TASKS {
        // The blocks of a task are of one region: the first of it for tasks 0 to 3, the last for tasks 4 to 7.
        let first = if task < 4 { 16 * task } else { 16 * (7 - task) + 15 - task };
        for &unit in &units[first..=first + task] {
            free(driver, task as u64, unit)?;
            line[HANDS] -= 1;
            line[cache(task)] += 1;
            shows_line(driver, "each task's cache has its own number", class, &line)?;
        }
    }
    (0..TASKS as u64).try_for_each(|task| driver.ask(Request::Leave { task }).map(|_| ()))?;
    for taken in 0..TASKS {
        for task in taken..TASKS {
            step(driver, task as u64)?;
            line[cache(task)] -= 1;
            line[request(task)] += 1;
            shows_line(driver, "each task's request has its own number", class, &line)?;
        }
    }
    Ok(())
}

/// A task with two classes leaves while another carves blocks of a third: each class has its own line.
pub fn several_classes(driver: &mut Driver) -> Result<(), Parted> {
    let [small, middle, large] = [16, 64, 256].map(class_of);
    start(driver, 2, 3)?;
    allocate(driver, 0, 16)?;
    let unit = allocate(driver, 0, 64)?.1 .1;
    free(driver, 0, unit)?;
    driver.ask(Request::Allocate { task: 1, size: 256 })?;
    steps(driver, 1, 9 + 5)?;
    let of_large = [(large, cache(1), 5), (large, request(1), 11)];
    let cached = [(small, HANDS, 1), (small, cache(0), 255), (middle, cache(0), 64)];
    shows(driver, "three classes, each in its line", &[&cached[..], &of_large].concat())?;
    driver.ask(Request::Leave { task: 0 })?;
    steps(driver, 0, per_region(small) - 1 + 1 + 3 + 3)?;
    for taken in 0..64 {
        let returned = [(small, HANDS, 1), (small, CHAINS, 255)];
        let of_middle = [(middle, cache(0), 64 - taken), (middle, request(0), taken)];
        shows(driver, "three classes, leaving half way", &[&returned[..], &of_middle, &of_large].concat())?;
        step(driver, 0)?;
    }
    Ok(())
}

/// Four regions of 512 blocks: numbers that need both bytes, and some that no region alone has.
pub fn large_numbers(driver: &mut Driver) -> Result<(), Parted> {
    start(driver, 7, 4)?;
    let units = allocate_all(driver, 0, 8, 2048)?;
    shows(driver, "2,048 blocks in hand", &[(0, HANDS, 2048)])?;
    for &unit in &units[..512] {
        free(driver, 6, unit)?;
    }
    shows(driver, "a cache of 512 blocks", &[(0, HANDS, 1536), (0, cache(6), 512)])?;
    driver.ask(Request::Free { task: 6, unit: units[512] })?;
    step(driver, 6)?;
    for taken in 0..512 {
        let numbers = [(0, HANDS, 1535), (0, cache(6), 512 - taken), (0, request(6), 1 + taken)];
        shows(driver, "a group and a block of another region", &numbers)?;
        step(driver, 6)?;
    }
    shows(driver, "a request with 513 blocks", &[(0, HANDS, 1535), (0, request(6), 513)])?;
    steps_to_the_end(driver, 6)?;
    shows(driver, "the region that has emptied counts no more", &[(0, HANDS, 1535), (0, cache(6), 1)])?;
    for (region, freed, chains) in [(2, 400, 401), (3, 300, 701)] {
        for &unit in &units[512 * region..512 * region + freed] {
            free(driver, 6, unit)?;
        }
        driver.ask(Request::Leave { task: 6 })?;
        steps_to_the_end(driver, 6)?;
        shows(driver, "chains of several regions", &[(0, HANDS, 1536 - chains), (0, CHAINS, chains)])?;
    }
    Ok(())
}
