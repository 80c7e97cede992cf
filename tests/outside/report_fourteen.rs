//! Tries the cases of the reports in states in the middle of a run, and fills everything that no report reads with
//! noise.

use crate::checks::Checks;
use crate::classes::CLASSES;
use crate::coverage::reached;
use crate::damage::{link_regions, Bytes};
use crate::driver::Driver;
use crate::layout::*;
use crate::lists::SPARE_REGIONS;
use crate::pool;
use crate::random::Random;
use crate::report::{whole, Report, REPORTS};
use crate::report_cases::{ReportCase, REQUEST_CASES};
use crate::report_keepers_cases::KEEPERS_CASES;
use crate::report_shared_cases::SHARED_CASES;
use crate::report_trial;
use std::collections::BTreeMap;

/// How often each case was tried at each place.
pub type Tried = BTreeMap<(&'static str, usize), u64>;
const AT_MOST: u64 = 8;
/// One in this many states is tried with noise.
const NOISE: u64 = 40;
/// Most states have several idle tasks. The cases of one are tried in one of this many, so that they are of all kinds.
const IDLE: u64 = 20;

const UNREAD: &str = "what it does not read may be anything";

/// The columns of which no report reads anything, but for the list of the spare regions, which the keepers read.
const UNREAD_COLUMNS: [Column; 13] = [
    HEAD,
    TASK_HEAD,
    TASK_ANCHOR,
    GROUP_FIRST,
    GROUP_LAST,
    TASK_LOST,
    TASK_NEXT,
    TASK_DESCRIPTOR,
    TASK_STATE,
    DESCRIPTOR_NEXT,
    REGION_NEXT,
    FREE_NODES,
    SLOT_BYTES,
];

fn cases() -> impl Iterator<Item = &'static ReportCase> {
    REQUEST_CASES.iter().chain(SHARED_CASES).chain(KEEPERS_CASES)
}

/// What is tried in a state in the middle of a run.
pub fn state(driver: &mut Driver, checks: &mut Checks, tried: &mut Tried) {
    try_all(driver, checks, tried);
    if driver.random.one_in(NOISE) {
        with_noise(driver, checks);
    }
}

/// Tries the cases that belong to the place of each task, also of those that are not started.
fn try_all(driver: &mut Driver, checks: &mut Checks, tried: &mut Tried) {
    for task in 0..pool::TASKS {
        let place = driver.pool.tasks[task].place.number();
        if place == 0 && !driver.random.one_in(IDLE) {
            continue;
        }
        for case in cases().filter(|case| case.places.contains(&place)) {
            let times = tried.entry((case.name, place)).or_default();
            if *times < AT_MOST {
                let mut changed = Bytes::of(driver);
                if (case.change)(&mut changed, task, place) {
                    *times += 1;
                    try_one(case, &changed, place, &mut driver.random, checks);
                }
            }
        }
    }
}

/// With rows that just suffice, or that are short by one byte: what would be given is 23 then, and no other code.
fn try_one(case: &ReportCase, bytes: &Bytes, place: usize, random: &mut Random, checks: &mut Checks) {
    let short = random.one_in(4);
    let lengths = whole(bytes.regions()).map(|whole| whole - usize::from(short));
    // What a call of any memories has to keep is checked there; here it is the code that is written down.
    let Ok(all) = report_trial::all(bytes, lengths, random, checks) else { return };
    for (&report, (code, _)) in REPORTS.iter().zip(all) {
        let due = case.due(report, place);
        let told: Vec<String> = due.iter().map(u64::to_string).collect();
        let name = format!("{}, {}: {}", report.name(), told.join(" or "), case.name);
        let told = if short && code == 23 { 20 } else { code };
        let held = due.contains(&told) && !(short && code == 20);
        let _ = checks.hold(&name, held, || format!("at place {place}: {code}"));
    }
}

/// The reports of a state, and those of the state with noise in all that they do not read.
fn with_noise(driver: &mut Driver, checks: &mut Checks) {
    let bytes = Bytes::of(driver);
    for report in REPORTS {
        let noisy = noise(report, driver, bytes.clone());
        let length = report.bytes(bytes.regions());
        let mut call = |bytes| report_trial::call(report, bytes, length, &mut driver.random, checks);
        let (Ok(plain), Ok(noisy)) = (call(&bytes), call(&noisy)) else { return };
        let _ = checks.hold(&report.check(UNREAD), plain == noisy, || format!("{} and {}", plain.0, noisy.0));
    }
}

fn noise(report: Report, driver: &mut Driver, mut bytes: Bytes) -> Bytes {
    let random = &mut driver.random;
    let outside = outside_fields();
    for (byte, _) in bytes.control.iter_mut().zip(outside).filter(|(_, outside)| *outside) {
        *byte = random.next() as u8;
    }
    for column in UNREAD_COLUMNS {
        let first = column.first;
        random.fill(&mut bytes.control[first..first + column.width * column.fields]);
    }
    if report == Report::Keepers {
        let spare: Vec<usize> = driver.pool.lists[SPARE_REGIONS].row.iter().copied().collect();
        link_regions(&mut bytes, &spare);
    }
    for (task, class) in (0..pool::TASKS).flat_map(|task| (CLASSES..CACHE_STRIDE).map(move |class| (task, class))) {
        set(&mut bytes.control, TOP, cache_index(task, class), random.next());
        set(&mut bytes.control, COUNT, cache_index(task, class), random.next());
    }
    // Of the area only the links of cached blocks are read, their first four bytes.
    let mut links = vec![false; bytes.area.len()];
    for unit in driver.pool.caches.iter().flatten().flatten() {
        links[*unit as usize * 8..*unit as usize * 8 + 4].fill(true);
    }
    for (byte, _) in bytes.area.iter_mut().zip(links).filter(|(_, link)| !*link) {
        *byte = random.next() as u8;
    }
    bytes
}

/// Each case has to have been tried at each of its places.
pub fn report(tried: &Tried, checks: &mut Checks) {
    let all = cases().flat_map(|case| case.places.iter().map(move |place| (case.name, *place)));
    let missing: Vec<String> = all
        .filter(|key| tried.get(key).copied().unwrap_or(0) == 0)
        .map(|(name, place)| format!("{name} at {place}"))
        .collect();
    println!("reports by field: {} cases, {} states", cases().count(), tried.values().sum::<u64>());
    let name = "covered: reports with each field in and out of its range, at each of its places";
    let _ = checks.hold(name, missing.is_empty(), || missing.join("; "));
    reached(checks, "reports by field", tried.values().sum());
}
