//! The reports of arbitrary bytes: any at all, ones in which every field fits, and those of a run, whole or damaged;
//! with rows of any length.

use crate::arbitrary::odd_lengths;
use crate::checks::Checks;
use crate::classes::{per_region, units, CLASSES, UNITS_PER_REGION};
use crate::damage::{self, link_cache, link_regions, Bytes};
use crate::fitting;
use crate::layout::*;
use crate::pool::{self, ALL_UNITS};
use crate::random::Random;
use crate::report::{whole, REPORTS};
use crate::report_trial;

const TRIALS: u64 = 800;

/// How often each report answered each code, by what the memories were.
#[derive(Default)]
pub struct Counts {
    codes: [[[u64; 24]; SOURCES.len()]; REPORTS.len()],
}

const SOURCES: [&str; 4] = ["any bytes", "bytes that fit", "bytes of a run", "bytes of a run, damaged"];
/// The codes that have to occur for each of them.
const CODES: [&[usize]; SOURCES.len()] = [&[1, 2, 4, 14], &[1, 2, 20, 23], &[1, 2, 20, 23], &[1, 2, 14, 20, 23]];

impl Counts {
    pub fn print(&self) {
        for (report, sources) in REPORTS.iter().zip(&self.codes) {
            for (name, codes) in SOURCES.iter().zip(sources) {
                let told: Vec<String> =
                    (0..24).filter(|&code| codes[code] > 0).map(|code| format!("{code} x {}", codes[code])).collect();
                println!("{}, of {name}, by code: {}", report.name(), told.join(", "));
            }
        }
    }

    pub fn report(&self, checks: &mut Checks) {
        for (report, sources) in REPORTS.iter().zip(&self.codes) {
            for (source, codes) in CODES.iter().enumerate() {
                let all = codes.iter().all(|&code| sources[source][code] > 0);
                let name = format!("covered: {}, each code for {}", report.name(), SOURCES[source]);
                let _ = checks.hold(&name, all, || "see the counts".to_string());
            }
        }
    }
}

pub fn round(seed: u64, checks: &mut Checks, counts: &mut Counts) {
    let mut random = Random::new(seed ^ 0x05EE_7000);
    let mut valid = damage::valid(&mut random);
    for trial in 0..TRIALS {
        if trial % 50 == 0 {
            valid = damage::valid(&mut random);
        }
        let source = random.below(SOURCES.len() as u64) as usize;
        let mut bytes = match source {
            0 => damage::any(&mut random),
            1 => fitting(&mut random),
            _ => valid.clone(),
        };
        if source == 3 {
            damage::damage(&mut bytes, &mut random);
        }
        odd_lengths(&mut bytes, &mut random);
        let lengths = whole(bytes.regions()).map(|whole| any_length(whole, &mut random));
        let Ok(all) = report_trial::all(&bytes, lengths, &mut random, checks) else { continue };
        for (sources, (code, _)) in counts.codes.iter_mut().zip(all) {
            sources[source][code as usize] += 1;
        }
    }
}

/// The length of a row of which the report takes so many bytes.
fn any_length(whole: usize, random: &mut Random) -> usize {
    let less = |bytes| whole.saturating_sub(bytes);
    random.pick(&[0, 1, 7, 8, less(8), less(1), whole, whole, whole, whole + 1, 4096, 8192])
}

/// Memories that no run has left and whose reports are mostly given: every field that is read has a value that fits it,
/// the caches are rows of blocks, each block in one of them, and the list of the spare regions ends.
fn fitting(random: &mut Random) -> Bytes {
    let mut bytes = fitting::fitting(random);
    let regions = get(&bytes.control, REGIONS, 0);
    let mut used = vec![false; ALL_UNITS];
    for task in 0..pool::TASKS {
        for class in 0..CLASSES {
            let most = if random.one_in(4) { per_region(class) } else { 0 };
            let count = random.from_to(0, most);
            link_cache(&mut bytes, (task, class), &unused(&mut used, class, count, regions, random));
        }
        let left = random.from_to(1, 16);
        for column in [TASK_LEFT, GROUP_COUNT] {
            set(&mut bytes.control, column, task, left);
        }
        set(&mut bytes.control, TASK_INDEX, task, left - 1);
        fit_unit(&mut bytes, task, regions, random);
    }
    for descriptor in 0..pool::DESCRIPTORS {
        let class = get(&bytes.control, DESCRIPTOR_CLASS, descriptor) as usize;
        let word = anchor(random.below(3), random.below(513), random.from_to(0, per_region(class)));
        set(&mut bytes.control, ANCHOR, descriptor, word);
    }
    link_any_regions(&mut bytes, random);
    bytes
}

/// Puts the regions on the list of the spare ones in any order, all of them or some.
fn link_any_regions(bytes: &mut Bytes, random: &mut Random) {
    let mut regions: Vec<usize> = (0..bytes.regions()).collect();
    for last in (1..regions.len()).rev() {
        regions.swap(last, random.below(last as u64 + 1) as usize);
    }
    if random.one_in(2) {
        regions.truncate(random.below(regions.len() as u64 + 1) as usize);
    }
    link_regions(bytes, &regions);
}

/// Gives the task a block of its class to free, or lets it leave.
fn fit_unit(bytes: &mut Bytes, task: usize, regions: u64, random: &mut Random) {
    let class = get(&bytes.control, TASK_CLASS, task) as usize;
    let frees = get(&bytes.control, TASK_PLACE, task) == 28 || random.one_in(2);
    let unit = if frees { any_block(class, regions, random) } else { LEAVING };
    set(&mut bytes.control, TASK_UNIT, task, unit);
}

fn any_block(class: usize, regions: u64, random: &mut Random) -> u64 {
    random.below(regions) * UNITS_PER_REGION + random.below(per_region(class)) * units(class)
}

/// Up to so many blocks that no other cache has.
fn unused(used: &mut [bool], class: usize, count: u64, regions: u64, random: &mut Random) -> Vec<u64> {
    let blocks = (0..count).map(|_| any_block(class, regions, random));
    blocks.filter(|&unit| !std::mem::replace(&mut used[unit as usize], true)).collect()
}
