//! Written schedules in which a request loses a known number of exchanges, of heads and of anchors, and tells exactly
//! that number. Task 0 loses, task 1 wins meanwhile; where there are more tasks, this is said.

use crate::checks::Parted;
use crate::collisions::steps_up_to;
use crate::directed::{allocate, free, start, steps_to_the_end};
use crate::driver::Driver;
use crate::leave_directed::{all_but_four_descriptors, leave, WAITING};
use crate::lists::{Move, Phase};
use crate::lost_numbers::written_at_12;
use crate::pool::{Event, Place, Request};
use crate::strips::{FIRST_UNIT, LEAST_SIZE, SLOT, STRIPS};

/// Where the exchanges are made.
pub const POP_PARTIAL: Place = Place::List(Move::PopPartial, Phase::Exchange);
pub const POP_DESCRIPTOR: Place = Place::List(Move::PopDescriptor, Phase::Exchange);
pub const POP_REGION: Place = Place::List(Move::PopRegion, Phase::Exchange);
pub const PUSH_EMPTY: Place = Place::List(Move::PushEmpty, Phase::Exchange);
pub const PUSH_BACK: Place = Place::List(Move::PushBack, Phase::Exchange);
pub const PUSH_REGION: Place = Place::List(Move::PushRegion, Phase::Exchange);
pub const PUSH_PARTIAL: Place = Place::List(Move::PushPartial, Phase::Exchange);

/// The number that the last call told.
pub fn told(driver: &mut Driver, name: &str, due: u64) -> Result<(), Parted> {
    let got = driver.told;
    let name = format!("directed: lost exchanges told: {name}");
    driver.checks.hold(&name, got == due, || format!("{got} where {due} are due"))
}

/// Brings a task before its exchange so many times; each time the word is changed before the task tries.
pub fn lose(
    driver: &mut Driver,
    (task, place): (u64, Place),
    times: usize,
    change: impl Fn(&mut Driver, usize) -> Result<(), Parted>,
) -> Result<(), Parted> {
    for time in 0..times {
        steps_up_to(driver, task, place)?;
        change(driver, time)?;
        driver.ask(Request::Step { task })?;
        let lost = matches!(driver.pool.event, Event::Lost | Event::LostSameTop);
        driver.checks.hold("directed: the exchange is lost", lost, || format!("{place:?}"))?;
    }
    Ok(())
}

/// Steps a task to the end of its request, with this code and number.
pub fn ends(driver: &mut Driver, task: u64, name: &str, code: u64, due: u64) -> Result<(), Parted> {
    let (_, answer) = steps_to_the_end(driver, task)?;
    driver
        .checks
        .hold("directed: the request ends with the code", answer.0 == code, || format!("{name}: {answer:?}"))?;
    told(driver, name, due)
}

/// Task 1 takes a block of the size, gives it back and leaves, or its request ends with 13. So it changes the heads
/// that it pops and pushes, loses nothing, and can do it again.
pub fn around(driver: &mut Driver, size: u64) -> Result<(), Parted> {
    const NOTHING: &str = "0 by a task that wins all";
    let (_, (code, unit)) = allocate(driver, 1, size)?;
    told(driver, NOTHING, 0)?;
    if code == 20 {
        gives_back(driver, unit)?;
    }
    told(driver, NOTHING, 0)
}

/// Task 1 gives this block back to its region: its free puts it on the cache, and leaving returns the cache.
pub fn gives_back(driver: &mut Driver, unit: u64) -> Result<(), Parted> {
    free(driver, 1, unit)?;
    leave(driver, 1).map(|_| ())
}

/// Task 0 takes this many blocks of 256 bytes.
fn take(driver: &mut Driver, blocks: usize) -> Result<Vec<u64>, Parted> {
    (0..blocks).map(|_| Ok(allocate(driver, 0, 256)?.1 .1)).collect()
}

/// A pool of one region, which task 1 has.
pub fn no_region_left(driver: &mut Driver, tasks: u64) -> Result<(), Parted> {
    start(driver, tasks, 1)?;
    allocate(driver, 1, 8).map(|_| ())
}

/// Task 0 asks for a block where no region is left. It loses its pop of a descriptor so many times.
fn in_vain(driver: &mut Driver, times: usize) -> Result<(), Parted> {
    driver.ask(Request::Allocate { task: 0, size: 256 })?;
    lose(driver, (0, POP_DESCRIPTOR), times, |driver, _| around(driver, 16))?;
    ends(driver, 0, "those of one pop, at 13", 13, times as u64)
}

/// A request ends with 13 after five lost pops and three lost pushes. The next one begins anew; and one that loses more
/// than a byte holds.
pub fn ends_with_13(driver: &mut Driver) -> Result<(), Parted> {
    no_region_left(driver, 2)?;
    driver.ask(Request::Allocate { task: 0, size: 256 })?;
    lose(driver, (0, POP_DESCRIPTOR), 5, |driver, _| around(driver, 16))?;
    lose(driver, (0, PUSH_BACK), 3, |driver, _| around(driver, 16))?;
    ends(driver, 0, "five of a pop and three of a push, at 13", 13, 8)?;
    in_vain(driver, 0)?;
    in_vain(driver, 300)?;
    in_vain(driver, 1)?;
    driver.compare_structure()
}

/// A request finishes that has opened a region: it loses two pops of a descriptor and four of a region.
pub fn opens_a_region(driver: &mut Driver) -> Result<(), Parted> {
    start(driver, 2, 2)?;
    driver.ask(Request::Allocate { task: 0, size: 256 })?;
    lose(driver, (0, POP_DESCRIPTOR), 2, |driver, _| around(driver, 128))?;
    lose(driver, (0, POP_REGION), 4, |driver, _| around(driver, 128))?;
    ends(driver, 0, "two of descriptors and four of regions", 20, 6)?;
    driver.ask(Request::Allocate { task: 0, size: 256 })?;
    ends(driver, 0, "0 by a block from the cache", 20, 0)?;
    driver.compare_structure()
}

/// A request finishes that has taken a chain: it loses three pops of the partial list, and two exchanges of the anchor.
pub fn takes_a_chain(driver: &mut Driver) -> Result<(), Parted> {
    start(driver, 2, 1)?;
    let units = take(driver, 4)?;
    leave(driver, 0)?;
    driver.ask(Request::Allocate { task: 0, size: 256 })?;
    lose(driver, (0, POP_PARTIAL), 3, |driver, _| around(driver, 256))?;
    lose(driver, (0, Place::TakeChain), 2, |driver, time| gives_back(driver, units[time]))?;
    ends(driver, 0, "three of a partial list and two of an anchor", 20, 5)?;
    driver.compare_structure()
}

/// A task leaves and empties its region: it loses two pushes of the region and three of the descriptor. Then it takes
/// the EMPTY descriptor up again and loses four pushes of it to the spare ones.
pub fn leaves_a_region(driver: &mut Driver) -> Result<(), Parted> {
    start(driver, 2, 3)?;
    let unit = take(driver, 1)?[0];
    free(driver, 0, unit)?;
    driver.ask(Request::Leave { task: 0 })?;
    lose(driver, (0, PUSH_REGION), 2, |driver, _| around(driver, 128))?;
    lose(driver, (0, PUSH_PARTIAL), 3, |driver, _| around(driver, 256))?;
    ends(driver, 0, "two of a region and three of a descriptor, by leaving", 20, 5)?;
    driver.ask(Request::Allocate { task: 0, size: 256 })?;
    lose(driver, (0, PUSH_EMPTY), 4, |driver, _| around(driver, 128))?;
    ends(driver, 0, "four of an EMPTY descriptor", 20, 4)?;
    driver.compare_structure()
}

/// A free returns eight blocks of each of two regions. It loses the anchor of the one three times and that of the other
/// twice. Then the task leaves with the block that was freed, and loses the anchor four times.
pub fn returns_to_regions(driver: &mut Driver) -> Result<(), Parted> {
    start(driver, 2, 3)?;
    let row = take(driver, 32)?;
    for unit in row[16..24].iter().chain(&row[..8]) {
        free(driver, 0, *unit)?;
    }
    driver.ask(Request::Free { task: 0, unit: row[24] })?;
    lose(driver, (0, Place::ReturnGroup), 3, |driver, time| gives_back(driver, row[8 + time]))?;
    driver.ask(Request::Step { task: 0 })?;
    steps_up_to(driver, 0, Place::Group)?;
    lose(driver, (0, Place::ReturnGroup), 2, |driver, time| gives_back(driver, row[25 + time]))?;
    ends(driver, 0, "three and two of anchors, by a free", 20, 5)?;
    driver.ask(Request::Leave { task: 0 })?;
    lose(driver, (0, Place::ReturnGroup), 4, |driver, time| gives_back(driver, row[27 + time]))?;
    ends(driver, 0, "four of an anchor, by leaving", 20, 4)?;
    driver.compare_structure()
}

/// Four tasks take the last four descriptors from under the fifth, whose request then ends with 12.
pub fn ends_with_12(driver: &mut Driver) -> Result<(), Parted> {
    all_but_four_descriptors(driver)?;
    let last = WAITING - 1;
    driver.ask(Request::Allocate { task: last, size: 8 })?;
    lose(driver, (last, POP_DESCRIPTOR), 4, |driver, time| {
        let task = time as u64;
        driver.ask(Request::Allocate { task, size: 8 })?;
        steps_up_to(driver, task, Place::List(Move::PopRegion, Phase::Head))
    })?;
    ends(driver, last, "four of a pop, at 12", 12, 4)?;
    driver.ask(Request::Allocate { task: last, size: 8 })?;
    ends(driver, last, "0 by a request that reads an empty list, at 12", 12, 0)?;
    ends(driver, 0, "0 by a task that opens the region", 20, 0)?;
    written_at_12(driver, last)?;
    driver.compare_structure()
}

/// Strips exchange nothing: taken, given back or not to be had, they tell 0, also behind a request that lost some.
pub fn strips_tell_none(driver: &mut Driver) -> Result<(), Parted> {
    no_region_left(driver, 2)?;
    for size in [LEAST_SIZE, 8 * SLOT, STRIPS] {
        in_vain(driver, 2)?;
        driver.ask(Request::Allocate { task: 0, size })?;
        ends(driver, 0, "0 by a strip that is taken", 20, 0)?;
        in_vain(driver, 3)?;
        driver.ask(Request::Allocate { task: 0, size: STRIPS })?;
        ends(driver, 0, "0 by a strip that is not to be had, at 16", 16, 0)?;
        in_vain(driver, 1)?;
        driver.ask(Request::Free { task: 0, unit: FIRST_UNIT })?;
        ends(driver, 0, "0 by a strip that is given back", 20, 0)?;
        driver.compare_structure()?;
    }
    Ok(())
}

/// Three tasks pop a descriptor, lose so many times, and stand before the exchange again while the others go on: so
/// each loses once more in the end. What one loses is not told by another. Refused beginnings clear nothing, and a
/// start clears all.
pub fn each_its_own(driver: &mut Driver) -> Result<(), Parted> {
    const LOSERS: [(u64, usize); 3] = [(0, 1), (2, 4), (3, 2)];
    no_region_left(driver, 4)?;
    for run in 0..2 {
        for (task, times) in LOSERS {
            driver.ask(Request::Allocate { task, size: 256 })?;
            lose(driver, (task, POP_DESCRIPTOR), times, |driver, _| around(driver, 16))?;
            steps_up_to(driver, task, POP_DESCRIPTOR)?;
            refused_beginnings(driver, task)?;
        }
        if run == 0 {
            no_region_left(driver, 4)?;
            let stands = driver.numbers_stand();
            driver.checks.agree("directed: a start clears the numbers of lost exchanges", stands)?;
        }
    }
    for (task, times) in LOSERS {
        ends(driver, task, "each task's own, beside those of others", 13, times as u64 + 1)?;
    }
    driver.compare_structure()
}

/// Beginnings that 6 refuses, and one that tells of no task.
fn refused_beginnings(driver: &mut Driver, task: u64) -> Result<(), Parted> {
    let own = [Request::Allocate { task, size: 0 }, Request::Free { task, unit: FIRST_UNIT }, Request::Leave { task }];
    for request in own.into_iter().chain([Request::Allocate { task: 4, size: 8 }]) {
        let answer = driver.ask(request)?;
        driver.checks.hold("directed: the beginning is refused", answer.0 != 0, || format!("{request:?}"))?;
        told(driver, "0 by a refused beginning", 0)?;
    }
    Ok(())
}
