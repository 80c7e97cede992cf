//! Schedules that are written down: the paper's examples, and a way to the end with 12.

use crate::checks::Parted;
use crate::classes::{block, class_of, per_region, tail, CLASSES, UNITS_PER_REGION};
use crate::driver::Driver;
use crate::layout;
use crate::lists::{LISTS, MOVES, SPARE_DESCRIPTORS, SPARE_REGIONS};
use crate::pool::{Answer, Call, Request, REGIONS};
use crate::schedules::Schedule;
use crate::strips::STRIPS;
use crate::styles;

/// Steps a task until its request finishes or ends; answers how many steps that took and the last answer.
pub fn steps_to_the_end(driver: &mut Driver, task: u64) -> Result<(u64, Answer), Parted> {
    for steps in 1..100_000 {
        let answer = driver.ask(Request::Step { task })?;
        if answer.0 != 0 {
            return Ok((steps, answer));
        }
    }
    driver.checks.hold("every request comes to an end", false, || "no end after 100,000 steps".to_string())?;
    Err(Parted)
}

pub fn start(driver: &mut Driver, tasks: u64, regions: u64) -> Result<(), Parted> {
    let call = Call { control: 8192, area: regions * 4096, strips: STRIPS, request: Request::Start { tasks } };
    driver.call(call).map(|_| ())
}

/// Allocates and answers the code, the unit and the number of steps.
pub fn allocate(driver: &mut Driver, task: u64, size: u64) -> Result<(u64, Answer), Parted> {
    driver.ask(Request::Allocate { task, size })?;
    steps_to_the_end(driver, task)
}

pub fn free(driver: &mut Driver, task: u64, unit: u64) -> Result<(u64, Answer), Parted> {
    driver.ask(Request::Free { task, unit })?;
    steps_to_the_end(driver, task)
}

/// "first allocation of 256 bytes in a fresh pool: unit 480, at step 26. The same of 8 bytes: unit 511, at step 522."
pub fn first_allocations(driver: &mut Driver) -> Result<(), Parted> {
    for (size, steps, unit) in [(256, 26, 480), (8, 522, 511)] {
        start(driver, 1, 1)?;
        let got = allocate(driver, 0, size)?;
        let name = format!("bench: first allocation of {size} bytes is unit {unit} at step {steps}");
        driver.checks.hold(&name, got == (steps, (20, unit)), || format!("{got:?}"))?;
        driver.compare_structure()?;
    }
    Ok(())
}

/// "One region, all held, another class wanted: 13." What is left over at the end of a region is no block: each unit
/// there is 10.
pub fn bench_refusals(driver: &mut Driver) -> Result<(), Parted> {
    for class in 0..CLASSES {
        start(driver, 1, 1)?;
        for _ in 0..per_region(class) {
            allocate(driver, 0, block(class))?;
        }
        for unit in tail(class)..UNITS_PER_REGION {
            let answer = driver.ask(Request::Free { task: 0, unit })?;
            let name = format!("directed: what is left over behind blocks of {} bytes is 10", block(class));
            driver.checks.hold(&name, answer == (10, 0), || format!("unit {unit}: {answer:?}"))?;
        }
        let end = allocate(driver, 0, block((class + 1) % CLASSES))?.1;
        let name = "bench: one region, all held, another class wanted is 13";
        driver.checks.hold(name, end == (13, 0), || format!("blocks of {} held: {end:?}", block(class)))?;
        driver.compare_structure()?;
    }
    Ok(())
}

/// Every size from 0 to 300: the class is seen by the units that two allocations in a fresh pool answer; above 256 they
/// are strips.
pub fn every_size(driver: &mut Driver) -> Result<(), Parted> {
    for size in 0..=300 {
        start(driver, 1, 1)?;
        let begun = driver.ask(Request::Allocate { task: 0, size })?;
        if begun.0 == 0 {
            steps_to_the_end(driver, 0)?;
            allocate(driver, 0, size)?;
        }
    }
    Ok(())
}

/// In each class: a second region is opened, a full cache is returned in two groups, and another task takes a chain.
pub fn each_class(driver: &mut Driver) -> Result<(), Parted> {
    for class in 0..CLASSES {
        start(driver, 2, 2)?;
        let mut units = Vec::new();
        for _ in 0..per_region(class) + 2 {
            units.push(allocate(driver, 0, block(class))?.1 .1);
        }
        for unit in &units[..3] {
            free(driver, 0, *unit)?;
        }
        driver.compare_structure()?;
        for _ in 0..3 {
            allocate(driver, 1, block(class))?;
        }
        driver.compare_structure()?;
    }
    Ok(())
}

/// A way to 12: fill all regions with one class, free everything, go to the next class. A region whose blocks all come
/// back is spare again, but its descriptor stays on the partial list of its class, where only an allocation of that
/// class takes it. After four classes 54 descriptors stand so and 4 are in use, and the fifth class takes the others.
pub fn no_descriptor(driver: &mut Driver) -> Result<(), Parted> {
    start(driver, 1, REGIONS as u64)?;
    let mut end = (0, 0);
    for size in [256, 224, 192, 160, 128] {
        end = fill(driver, size)?;
        driver.compare_structure()?;
        if end.0 == 12 {
            break;
        }
        free_all(driver)?;
        driver.compare_structure()?;
    }
    driver.checks.hold("directed: five classes in turn end with 12", end == (12, 0), || format!("{end:?}"))?;
    free_all(driver)?;
    // From here on 12 is near, also for several classes at random.
    Schedule::new(driver, styles::named("fill, empty, other class")).go_on(20_000)
}

/// Allocates until a request ends; answers with what.
fn fill(driver: &mut Driver, size: u64) -> Result<Answer, Parted> {
    loop {
        let (_, answer) = allocate(driver, 0, size)?;
        if answer.0 != 20 {
            return Ok(answer);
        }
    }
}

fn free_all(driver: &mut Driver) -> Result<(), Parted> {
    while let Some(held) = driver.held.iter().min_by_key(|held| held.unit).copied() {
        free(driver, 0, held.unit)?;
    }
    Ok(())
}

/// The sham pool that does the first transfer only: a second transfer in each direction is followed block by block.
pub fn transfers_in_turn(driver: &mut Driver) -> Result<(), Parted> {
    start(driver, 2, 2)?;
    let blocks = per_region(class_of(256));
    for _ in 0..4 {
        let mut units = Vec::new();
        for _ in 0..2 * blocks {
            units.push(allocate(driver, 0, 256)?.1 .1);
        }
        for (number, unit) in units.iter().enumerate() {
            free(driver, number as u64 % 2, *unit)?;
            driver.compare_structure()?;
        }
        for _ in 0..blocks {
            allocate(driver, 1, 256)?;
        }
        free_all(driver)?;
        driver.compare_structure()?;
    }
    Ok(())
}

/// "tag 4,294,967,295, won: tag 0": the tags of all lists are set shortly before the wrap, and the runs go on.
pub fn tags_that_wrap(driver: &mut Driver) -> Result<(), Parted> {
    let mut wrapped = [false; LISTS];
    let runs = [
        (5, 3, "few regions, large blocks"),
        (5, 1, "one region, many tasks"),
        (4, 3, "few blocks, quick changes"),
        (2, 8, "fill, empty, other class"),
    ];
    for (tasks, regions, name) in runs {
        start(driver, tasks, regions)?;
        let mut tags = [0u32; LISTS];
        for tag in &mut tags {
            *tag = u32::MAX - driver.random.below(8) as u32;
        }
        set_tags(driver, tags);
        Schedule::new(driver, &styles::without_restarts(styles::named(name))).go_on(12_000)?;
        for (list, row) in driver.pool.lists.iter().enumerate() {
            wrapped[list] |= row.won > 8;
        }
    }
    for (list, what) in
        [(class_of(256), "a partial list"), (SPARE_DESCRIPTORS, "spare descriptors"), (SPARE_REGIONS, "spare regions")]
    {
        let name = format!("directed: the tag of {what} passes 4,294,967,295");
        driver.checks.hold(&name, wrapped[list], || "never".to_string())?;
    }
    Ok(())
}

/// Sets the tags of all lists just after a start, as if the lists had seen that many won exchanges.
fn set_tags(driver: &mut Driver, tags: [u32; LISTS]) {
    for (list, tag) in tags.iter().enumerate() {
        let word = layout::get(driver.lent.control.bytes(), layout::HEAD, list) & 0xFFFF_FFFF;
        layout::set(driver.lent.control.bytes_mut(), layout::HEAD, list, word | u64::from(*tag) << 32);
    }
    driver.control_before.copy_from_slice(driver.lent.control.bytes());
    driver.tags_at_start = tags;
}

/// For each move on a list, stops a task before the exchange until the item that it read is on top again.
pub fn same_item_again(driver: &mut Driver) -> Result<(), Parted> {
    start(driver, 5, 3)?;
    let style = styles::without_restarts(styles::named("stops before an exchange"));
    let mut schedule = Schedule::new(driver, &style);
    for what in MOVES {
        schedule.stop_until_same_item(what, 12_000)?;
    }
    schedule.driver.compare_structure()
}
