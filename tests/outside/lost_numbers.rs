//! Written schedules in which the test writes the numbers of lost exchanges between two calls. Most of these numbers no
//! run would reach in years, but what a call does with them is defined for each: it tells them, or adds one, "or is
//! 4,294,967,295 where there were more".

use crate::checks::Parted;
use crate::collisions::steps_up_to;
use crate::directed::{allocate, free, start};
use crate::driver::Driver;
use crate::leave_directed::leave;
use crate::lists::{Move, Phase};
use crate::losses::MOST;
use crate::lost_directed::{around, ends, gives_back, lose, no_region_left, told, POP_DESCRIPTOR, PUSH_BACK};
use crate::pool::{Place, Request, TASKS};
use crate::strips::{FIRST_UNIT, SLOT, STRIPS};

/// Numbers of each length, with other bytes at each place.
const NUMBERS: [u64; 7] = [0, 1, 255, 0x0102_0304, 0x8000_0000, MOST - 1, MOST];
/// Numbers to which one or two are added: where a further byte is needed, in the middle, and at the end.
const BEFORE: [u64; 9] = [0xFE, 0xFF, 0xFFFF, 0xFF_FFFF, 0x7FFF_FFFE, 0x7FFF_FFFF, MOST - 2, MOST - 1, MOST];

/// Writes this number for the task and others for all other tasks.
fn write(driver: &mut Driver, task: u64, number: u64) {
    for other in 0..TASKS {
        driver.set_lost(other, number.wrapping_add(77 * (1 + other as u64)) % (MOST + 1));
    }
    driver.set_lost(task as usize, number);
}

/// Writes the number before the last step of a request, which then has to tell it.
fn last_step(driver: &mut Driver, task: u64, number: u64, (name, code): (&str, u64)) -> Result<(), Parted> {
    write(driver, task, number);
    ends(driver, task, &format!("the number written before the last step: {name}"), code, number)
}

/// The same with a beginning before.
fn begin_and_end(driver: &mut Driver, request: Request, number: u64, end: (&str, u64)) -> Result<(), Parted> {
    let task = match request {
        Request::Allocate { task, .. } | Request::Free { task, .. } | Request::Leave { task } => task,
        _ => unreachable!("a beginning"),
    };
    write(driver, task, number);
    driver.ask(request)?;
    told(driver, "0 by a beginning, whatever the number was", 0)?;
    last_step(driver, task, number, end)
}

/// Every kind of end but 12, with each of the numbers. One task has all strips, and the region, when the other asks.
pub fn written_at_the_end(driver: &mut Driver) -> Result<(), Parted> {
    start(driver, 2, 1)?;
    let unit = allocate(driver, 0, 256)?.1 .1;
    free(driver, 0, unit)?;
    for number in NUMBERS {
        begin_and_end(driver, Request::Allocate { task: 0, size: 256 }, number, ("an allocation", 20))?;
        begin_and_end(driver, Request::Free { task: 0, unit }, number, ("a free", 20))?;
        begin_and_end(driver, Request::Leave { task: 1 }, number, ("leaving", 20))?;
        begin_and_end(driver, Request::Allocate { task: 0, size: STRIPS }, number, ("a strip taken", 20))?;
        begin_and_end(driver, Request::Allocate { task: 1, size: SLOT }, number, ("no strip", 16))?;
        begin_and_end(driver, Request::Free { task: 0, unit: FIRST_UNIT }, number, ("a strip given back", 20))?;
        driver.ask(Request::Allocate { task: 1, size: 16 })?;
        steps_up_to(driver, 1, PUSH_BACK)?;
        last_step(driver, 1, number, ("no region", 13))?;
        driver.compare_structure()?;
    }
    Ok(())
}

/// The same for 12, where no descriptor is left.
pub fn written_at_12(driver: &mut Driver, task: u64) -> Result<(), Parted> {
    for number in NUMBERS {
        driver.ask(Request::Allocate { task, size: 8 })?;
        steps_up_to(driver, task, Place::List(Move::PopDescriptor, Phase::Head))?;
        last_step(driver, task, number, ("no descriptor", 12))?;
    }
    Ok(())
}

/// A head is lost twice behind each of the numbers: up to 4,294,967,295 and not beyond.
pub fn heads_up_to_the_most(driver: &mut Driver) -> Result<(), Parted> {
    no_region_left(driver, 2)?;
    for number in BEFORE {
        for times in 0..3 {
            driver.ask(Request::Allocate { task: 0, size: 256 })?;
            steps_up_to(driver, 0, POP_DESCRIPTOR)?;
            write(driver, 0, number);
            lose(driver, (0, POP_DESCRIPTOR), times, |driver, _| around(driver, 16))?;
            driver.compare_structure()?;
            ends(driver, 0, "a head's, up to 4,294,967,295", 13, (number + times as u64).min(MOST))?;
        }
    }
    Ok(())
}

/// The same for an anchor, by leaving and by an allocation.
pub fn anchors_up_to_the_most(driver: &mut Driver) -> Result<(), Parted> {
    for number in BEFORE {
        for place in [Place::ReturnGroup, Place::TakeChain] {
            start(driver, 2, 1)?;
            let units: Vec<u64> = (0..5).map(|_| Ok(allocate(driver, 0, 256)?.1 .1)).collect::<Result<_, Parted>>()?;
            leave(driver, 0)?;
            if place == Place::TakeChain {
                driver.ask(Request::Allocate { task: 0, size: 256 })?;
            } else {
                free(driver, 0, units[4])?;
                driver.ask(Request::Leave { task: 0 })?;
            }
            steps_up_to(driver, 0, place)?;
            write(driver, 0, number);
            lose(driver, (0, place), 2, |driver, time| gives_back(driver, units[time]))?;
            ends(driver, 0, "an anchor's, up to 4,294,967,295", 20, (number + 2).min(MOST))?;
            driver.compare_structure()?;
        }
    }
    Ok(())
}
