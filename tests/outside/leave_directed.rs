//! Written schedules for leaving: how many steps it takes, the order of the classes, tasks that leave at once, what is
//! refused meanwhile, and the way to 12 that it opens.

use crate::checks::Parted;
use crate::classes::{block, class_of, per_region, CLASSES};
use crate::directed::{allocate, free, start, steps_to_the_end};
use crate::driver::Driver;
use crate::leave_coverage::PLACES_OF_LEAVING;
use crate::pool::{Answer, Place, Request, DESCRIPTORS, REGIONS, TASKS};
use crate::strips::{FIRST_UNIT, SLOT};
use crate::strips_directed::expect;

/// Leaves and answers how many steps that took and the last answer.
pub fn leave(driver: &mut Driver, task: u64) -> Result<(u64, Answer), Parted> {
    driver.ask(Request::Leave { task })?;
    steps_to_the_end(driver, task)
}

/// A block is taken and given back, so that the task's cache has all n of its region. Answers its unit.
fn fill_cache(driver: &mut Driver, task: u64, size: u64) -> Result<u64, Parted> {
    let unit = allocate(driver, task, size)?.1 .1;
    free(driver, task, unit)?;
    Ok(unit)
}

/// "with nothing cached it finishes in its first step"; with fifteen blocks cached fifteen group steps and the closing
/// one, anchor (3), descriptor (3) and the last step; with the sixteenth alone two, anchor (3), map, region (3) and the
/// last step. "The task may begin again afterwards."
pub fn steps_of_leaving(driver: &mut Driver) -> Result<(), Parted> {
    start(driver, 1, 1)?;
    let none = leave(driver, 0)?;
    expect(driver, "with nothing cached leaving finishes in its first step", none, (1, (20, 0)))?;
    let unit = allocate(driver, 0, 256)?.1 .1;
    let most = leave(driver, 0)?;
    expect(driver, "leaving with fifteen of sixteen blocks cached takes 23 steps", most, (23, (20, 0)))?;
    free(driver, 0, unit)?;
    let last = leave(driver, 0)?;
    expect(driver, "leaving with the last block of a region takes 10 steps", last, (10, (20, 0)))?;
    let again = leave(driver, 0)?;
    expect(driver, "leaving again finishes in its first step", again, (1, (20, 0)))?;
    let other = allocate(driver, 0, 8)?;
    expect(driver, "the region that leaving emptied serves another class", other, (522, (20, 511)))?;
    driver.compare_structure()
}

/// "in rising order of class": so many classes are cached, opened in falling order. Leaving returns n blocks and makes
/// eleven steps more for each, and one at the end. The region of the largest class is the last to become spare, and so
/// the first to be opened again.
pub fn classes_in_order(driver: &mut Driver) -> Result<(), Parted> {
    for cached in 0..=CLASSES {
        start(driver, 1, REGIONS as u64)?;
        for class in (0..cached).rev() {
            fill_cache(driver, 0, block(class))?;
        }
        driver.compare_structure()?;
        let due = (0..cached).map(|class| per_region(class) + 11).sum::<u64>() + 1;
        let left = leave(driver, 0)?;
        expect(driver, "each class takes n + 11 steps, and one follows", left, (due, (20, 0)))?;
        driver.compare_structure()?;
        for (region, class) in (0..cached).rev().enumerate() {
            let unit = fill_cache(driver, 0, block(class))?;
            let of_region = (0, (unit / 512, 0));
            expect(driver, "the region returned last is opened first", of_region, (0, (region as u64, 0)))?;
        }
    }
    Ok(())
}

/// Two tasks have eight blocks each of one region and leave in turn, step by step. The second loses its exchange of the
/// anchor, reads again, and empties the region.
pub fn two_at_once(driver: &mut Driver) -> Result<(), Parted> {
    start(driver, 2, 1)?;
    let units: Vec<u64> = (0..8).map(|_| Ok(allocate(driver, 0, 256)?.1 .1)).collect::<Result<_, Parted>>()?;
    for unit in units {
        free(driver, 1, unit)?;
    }
    let mut steps = [0; 2];
    driver.ask(Request::Leave { task: 0 })?;
    driver.ask(Request::Leave { task: 1 })?;
    while driver.pool.tasks.iter().any(|task| task.place != Place::Idle) {
        for task in 0..2 {
            if driver.pool.tasks[task].place != Place::Idle {
                driver.ask(Request::Step { task: task as u64 })?;
                steps[task] += 1;
            }
        }
        driver.compare_structure()?;
    }
    expect(driver, "two leave at once: the steps of each", (steps[0], (steps[1], 0)), (16, (20, 0)))?;
    let other = allocate(driver, 1, 8)?;
    expect(driver, "two leave at once: the region is spare", other, (522, (20, 511)))
}

/// All eight tasks have two blocks of each of two regions, in turn, and leave together, one step each.
pub fn all_at_once(driver: &mut Driver) -> Result<(), Parted> {
    start(driver, TASKS as u64, 2)?;
    let mut units: Vec<u64> = (0..32).map(|_| Ok(allocate(driver, 0, 256)?.1 .1)).collect::<Result<_, Parted>>()?;
    units.sort_by_key(|unit| unit % 512);
    for (number, unit) in units.iter().enumerate() {
        free(driver, (number / 4) as u64, *unit)?;
    }
    for task in 0..TASKS as u64 {
        driver.ask(Request::Leave { task })?;
    }
    while driver.pool.tasks.iter().any(|task| task.place != Place::Idle) {
        for task in (0..TASKS).filter(|&task| task % 3 != 2).chain([2, 5]) {
            if driver.pool.tasks[task].place != Place::Idle {
                driver.ask(Request::Step { task: task as u64 })?;
            }
        }
        driver.compare_structure()?;
    }
    let two = (allocate(driver, 3, 8)?.1 .0, allocate(driver, 5, 16)?.1);
    expect(driver, "after all have left both regions serve other classes", (two.0, (two.1 .0, 0)), (20, (20, 0)))
}

/// A strip is no cached block: the request before leaves nothing that leaving would return, and a strip stays in hand.
pub fn after_a_strip(driver: &mut Driver) -> Result<(), Parted> {
    start(driver, 2, 1)?;
    allocate(driver, 0, SLOT)?;
    let taken = leave(driver, 0)?;
    expect(driver, "leaving after a strip was taken", taken, (1, (20, 0)))?;
    let unit = allocate(driver, 0, 256)?.1 .1;
    free(driver, 0, FIRST_UNIT)?;
    let given = leave(driver, 0)?;
    expect(driver, "leaving after a strip was given back, with fifteen blocks cached", given, (23, (20, 0)))?;
    allocate(driver, 0, SLOT)?;
    free(driver, 1, unit)?;
    let last = leave(driver, 1)?;
    expect(driver, "another task leaves with the last block", last, (10, (20, 0)))?;
    let strip = free(driver, 1, FIRST_UNIT)?;
    expect(driver, "the strip stayed in hand", strip, (1, (20, 0)))?;
    driver.compare_structure()
}

/// "Tests for a request in hand apply as for any other", at each place at which leaving stands; and what it refuses
/// before: no such task, and a request in hand.
pub fn refusals_of_leaving(driver: &mut Driver) -> Result<(), Parted> {
    start(driver, 2, 1)?;
    let unit = fill_cache(driver, 0, 256)?;
    let begun = driver.ask(Request::Leave { task: 2 })?;
    expect(driver, "leaving of no such task", (0, begun), (0, (5, 0)))?;
    driver.ask(Request::Allocate { task: 0, size: 256 })?;
    let busy = driver.ask(Request::Leave { task: 0 })?;
    expect(driver, "leaving while a request is in hand", (0, busy), (0, (6, 0)))?;
    steps_to_the_end(driver, 0)?;
    free(driver, 0, unit)?;
    driver.ask(Request::Leave { task: 0 })?;
    let mut places = Vec::new();
    while driver.pool.tasks[0].place != Place::Idle {
        places.push(driver.pool.tasks[0].place.number());
        let sizes = [0, 8, 300, 65_537].map(|size| Request::Allocate { task: 0, size });
        let units = [0, unit, FIRST_UNIT, 16_384].map(|unit| Request::Free { task: 0, unit });
        for request in sizes.into_iter().chain(units).chain([Request::Leave { task: 0 }]) {
            let answer = driver.ask(request)?;
            expect(driver, "a beginning while the task leaves", (0, answer), (0, (6, 0)))?;
        }
        driver.ask(Request::Step { task: 0 })?;
    }
    let all = PLACES_OF_LEAVING.iter().all(|place| places.contains(place));
    driver.checks.hold("directed: 6 at each place of leaving", all, || format!("{places:?}"))?;
    let idle = driver.ask(Request::Step { task: 0 })?;
    expect(driver, "a step after leaving has finished", (0, idle), (0, (7, 0)))
}

/// The tasks of the way to 12 with one region.
pub const WAITING: u64 = 5;

/// In each of twelve classes all five tasks read the partial list while it is empty; then each opens the region, gives
/// its block back and leaves, and leaves an EMPTY descriptor on that list. Of the 64 descriptors four are left.
pub fn all_but_four_descriptors(driver: &mut Driver) -> Result<(), Parted> {
    start(driver, WAITING, 1)?;
    for class in 1..CLASSES {
        for task in 0..WAITING {
            driver.ask(Request::Allocate { task, size: block(class) })?;
            driver.ask(Request::Step { task })?;
            driver.ask(Request::Step { task })?;
        }
        for task in 0..WAITING {
            let unit = steps_to_the_end(driver, task)?.1 .1;
            free(driver, task, unit)?;
            leave(driver, task)?;
        }
        let empty = (0, (driver.pool.lists[class].row.len() as u64, 0));
        expect(driver, "descriptors that stay on the list of a class", empty, (0, (WAITING, 0)))?;
        driver.compare_structure()?;
    }
    Ok(())
}

/// A way to 12 with one region and five tasks: four of them take the last four descriptors in hand for the thirteenth
/// class.
pub fn no_descriptor_by_leaving(driver: &mut Driver) -> Result<(), Parted> {
    all_but_four_descriptors(driver)?;
    for task in 0..DESCRIPTORS as u64 - WAITING * (CLASSES as u64 - 1) {
        driver.ask(Request::Allocate { task, size: 8 })?;
        for _ in 0..5 {
            driver.ask(Request::Step { task })?;
        }
    }
    let none = allocate(driver, WAITING - 1, 8)?;
    expect(driver, "the region is spare, and no descriptor is", none, (3, (12, 0)))?;
    driver.compare_structure()?;
    let old = allocate(driver, WAITING - 1, block(class_of(256)))?;
    expect(driver, "a class takes its own EMPTY descriptors up again", (0, old.1), (0, (20, 480)))?;
    let end = steps_to_the_end(driver, 0)?;
    expect(driver, "then the region is taken", (0, end.1), (0, (13, 0)))?;
    driver.compare_structure()
}
