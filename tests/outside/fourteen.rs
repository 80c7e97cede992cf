//! The paper's sentence on 14, clause by clause: in a state in the middle of a run one value that the next call has to
//! read is made bad, and the call has to answer 14 and leave every byte as it is. The call is a step of a task, or the
//! beginning of a free or of leaving by one that is idle. Beside them stand the last values that are in range, which
//! are not 14.
//!
//! "14 a value read for this call is outside its field's range, or names none, or no block of the class, where one is
//! due; a count would pass n; an anchor to take a chain from is FULL, or PARTIAL with count 0; or a link is outside 0
//! to n − 1 while more blocks are due."

use crate::checks::Checks;
use crate::coverage::Coverage;
use crate::damage::Bytes;
use crate::driver::Driver;
use crate::faults::Fault;
use crate::fourteen_cases::{Case, CASES};
use crate::fourteen_leaving::LEAVE_CASES;
use crate::fourteen_strips::STRIP_CASES;
use crate::layout::View;
use crate::library::{self, Lent};
use crate::memory::Side;
use crate::pool::Request;
use crate::ranges;
use crate::report_fourteen;
use crate::schedules::Schedule;
use crate::styles;
use std::collections::BTreeMap;

/// How often each case was tried at each place.
pub type Tried = BTreeMap<(&'static str, usize), u64>;
const AT_MOST: u64 = 12;
const STYLES: [&str; 8] = [
    "few regions, large blocks",
    "few blocks, quick changes",
    "fill, empty, other class",
    "one region, many tasks",
    "small blocks, long chains",
    "strips of every order",
    "tasks that leave",
    "all leave in step",
];

/// All cases: those of blocks, then those of strips and of leaving.
fn cases() -> impl Iterator<Item = &'static Case> {
    CASES.iter().chain(STRIP_CASES).chain(LEAVE_CASES)
}

/// Runs schedules and tries each case in states where it applies.
pub fn round(seed: u64, checks: &mut Checks, tried: &mut Tried, reports: &mut report_fourteen::Tried) {
    for (number, name) in STYLES.iter().enumerate() {
        let (mut own_checks, mut coverage) = (Checks::default(), Coverage::default());
        let seed = seed.wrapping_mul(31).wrapping_add(number as u64);
        let mut driver = Driver::new(1, seed, Fault::None, &mut own_checks, &mut coverage);
        let style = styles::named(name);
        let mut schedule = Schedule::new(&mut driver, style);
        // A disagreement here is found and counted by the schedules themselves. It ends the schedule: the cases are
        // about states that a run can have.
        let _ = schedule.start();
        for _ in 0..700 {
            if schedule.some(8).is_err() || !is_whole(schedule.driver) {
                break;
            }
            try_all(schedule.driver, checks, tried);
            report_fourteen::state(schedule.driver, checks, reports);
        }
    }
}

/// Whether each field is in its range before one of them is made bad.
fn is_whole(driver: &Driver) -> bool {
    let view = View { control: driver.lent.control.bytes(), area: driver.lent.area.bytes() };
    ranges::in_range(&view).is_ok()
}

/// Tries the cases that belong to the place of each task.
fn try_all(driver: &Driver, checks: &mut Checks, tried: &mut Tried) {
    let bytes = Bytes::of(driver);
    for task in 0..driver.pool.started_tasks as usize {
        let place = driver.pool.tasks[task].place.number();
        for case in cases().filter(|case| case.places.contains(&place)) {
            let times = tried.entry((case.name, place)).or_default();
            if *times < AT_MOST {
                *times += u64::from(try_one(case, bytes.clone(), task, place, checks));
            }
        }
    }
}

/// Whether the state has the value of the case. Then it is changed, and the call is made.
fn try_one(case: &Case, mut bytes: Bytes, task: usize, place: usize, checks: &mut Checks) -> bool {
    let begun = if place == 0 { (case.begun)(&bytes, task as u64) } else { None };
    if !(case.change)(&mut bytes, task, place) {
        return false;
    }
    let request = begun.unwrap_or(Request::Step { task: task as u64 });
    let mut lent = Lent::closed(&bytes.control, &bytes.area, bytes.strips, Side::EndsAtGuard);
    let reply = library::call(&mut lent, request);
    let name = format!("{}: {}", if case.bad { "14" } else { "not 14" }, case.name);
    let as_due = if case.bad { reply.is((14, 0)) } else { reply.answer.0 != 14 };
    let _ = checks.hold(&name, as_due, || format!("at place {place}: {reply:?}"));
    let same = lent.control.bytes() == bytes.control && lent.area.bytes() == bytes.area;
    let _ =
        checks.hold("14: no byte changes", same || reply.answer.0 != 14, || format!("{} at place {place}", case.name));
    true
}

/// Each case has to have been tried at each of its places.
pub fn report(tried: &Tried, checks: &mut Checks) {
    let missing: Vec<String> = cases()
        .flat_map(|case| case.places.iter().map(move |place| (case.name, *place)))
        .filter(|key| tried.get(key).copied().unwrap_or(0) == 0)
        .map(|(name, place)| format!("{name} at {place}"))
        .collect();
    let _ = checks.hold("covered: 14 for each clause at each of its places", missing.is_empty(), || missing.join("; "));
    println!("14 by clause: {} clauses, {} states", cases().count(), tried.values().sum::<u64>());
}
