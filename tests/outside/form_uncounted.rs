//! Memories that no run has left: a block counts in no number of the form, and keeps no region, where its region is not
//! open in the class. The numbers and the keepers are written down.

use crate::checks::{Checks, Parted};
use crate::classes::UNITS_PER_REGION;
use crate::damage::{link_cache, Bytes};
use crate::form::row_of;
use crate::keepers::{self, in_hand, spare, Keeper};
use crate::layout::*;
use crate::made::{begin_carving, begin_free, begin_group, describe, descriptor, mark, mark_all, unit};
use crate::random::Random;
use crate::report::{cache, request, Report, CHAINS, HANDS};
use crate::report_refusals::fresh;
use crate::report_trial;

/// Two classes: regions 0 and 2 are open in the large one, region 1 in the other. Region 3 has a descriptor that is
/// EMPTY, region 4 one that names another region, region 5 none.
const LARGE: usize = 12;
const OTHER: usize = 11;
const EMPTIED: u64 = 3;
const NOT_NAMED: u64 = 4;
const UNMAPPED: u64 = 5;

const COUNTED: [(usize, usize, u64); 8] = [
    (LARGE, HANDS, 6),
    (LARGE, cache(5), 3),
    (LARGE, request(7), 5),
    (LARGE, CHAINS, 8),
    (OTHER, HANDS, 2),
    (OTHER, cache(4), 1),
    (OTHER, request(3), 1),
    (OTHER, CHAINS, 2),
];

/// All regions stand on the list of the spare ones, too.
const KEPT_BY: [Keeper; 6] = [in_hand(32), in_hand(512), in_hand(1024), spare(), spare(), spare()];

type Change = fn(&mut Bytes);
const UNCOUNTED: [(&str, Change); 11] = [
    ("a cached block of a region that is open in another class", |bytes| cached_too(bytes, 1)),
    ("a cached block of a region that has emptied", |bytes| cached_too(bytes, EMPTIED)),
    ("a cached block of a region whose descriptor names another", |bytes| cached_too(bytes, NOT_NAMED)),
    ("a cached block of a region without a descriptor", |bytes| cached_too(bytes, UNMAPPED)),
    ("marks of a region that has emptied", |bytes| mark_all(bytes, EMPTIED)),
    ("marks of a region whose descriptor names another", |bytes| mark_all(bytes, NOT_NAMED)),
    ("marks of a region without a descriptor", |bytes| mark_all(bytes, UNMAPPED)),
    ("a mark that is the first of a block of another class alone", |bytes| mark(bytes, unit(OTHER, 0, 1))),
    ("blocks to be carved in a region that is open in another class", |bytes| carve(bytes, 1)),
    ("blocks to be carved in a region that has emptied", |bytes| carve(bytes, EMPTIED)),
    ("a block being freed of a region that is open in another class", |bytes| {
        begin_free(bytes, 2, LARGE, unit(LARGE, 1, 2))
    }),
];

pub fn round(seed: u64, checks: &mut Checks) {
    let mut random = Random::new(seed ^ 0x0F0A_11ED);
    let mut shows = |name: &str, bytes: &Bytes, numbers: &[_], kept_by: &[Keeper]| {
        let _ = shows(name, bytes, numbers, kept_by, &mut random, checks);
    };
    shows("regions that are open in the class are added up", &made(), &COUNTED, &KEPT_BY);
    for (name, change) in UNCOUNTED {
        let mut bytes = made();
        change(&mut bytes);
        shows(&format!("counted nowhere: {name}"), &bytes, &COUNTED, &KEPT_BY);
    }
    let mut bytes = made();
    mark_all(&mut bytes, EMPTIED);
    cached_too(&mut bytes, EMPTIED);
    carve(&mut bytes, EMPTIED);
    describe(&mut bytes, EMPTIED, LARGE, 1, 7);
    let opened = [(LARGE, HANDS, 22), (LARGE, cache(5), 4), (LARGE, request(6), 10), (LARGE, CHAINS, 15)];
    let numbers = [&COUNTED[..], &opened].concat();
    let mut kept_by = KEPT_BY;
    kept_by[EMPTIED as usize] = in_hand(EMPTIED * UNITS_PER_REGION);
    shows("blocks of the same region are counted where it is open", &bytes, &numbers, &kept_by);
}

/// The form has these numbers, of two for a class and holder the last, and else zeros; and these keep the regions.
fn shows(
    name: &str,
    bytes: &Bytes,
    numbers: &[(usize, usize, u64)],
    kept_by: &[Keeper],
    random: &mut Random,
    checks: &mut Checks,
) -> Result<(), Parted> {
    let [_, (_, form), (_, keepers)] = report_trial::all_whole(bytes, random, checks)?;
    checks.hold(&Report::Form.check(name), form == row_of(numbers), || format!("{numbers:?} are due"))?;
    let same = keepers == keepers::row_of(kept_by);
    checks.hold(&Report::Keepers.check(name), same, || format!("{kept_by:?} are due"))
}

fn made() -> Bytes {
    let mut bytes = fresh(6);
    describe(&mut bytes, 0, LARGE, 1, 3);
    describe(&mut bytes, 1, OTHER, 1, 2);
    describe(&mut bytes, 2, LARGE, 2, 5);
    describe(&mut bytes, EMPTIED, LARGE, 0, 7);
    describe(&mut bytes, NOT_NAMED, LARGE, 1, 4);
    set(&mut bytes.control, DESCRIPTOR_REGION, descriptor(NOT_NAMED), UNMAPPED);
    for (region, block) in [(0, 1), (0, 2), (2, 0), (2, 5), (2, 7), (2, 15)] {
        mark(&mut bytes, unit(LARGE, region, block));
    }
    mark(&mut bytes, unit(OTHER, 1, 0));
    mark(&mut bytes, unit(OTHER, 1, 17));
    link_cache(&mut bytes, (5, LARGE), &cached());
    link_cache(&mut bytes, (4, OTHER), &[unit(OTHER, 1, 3)]);
    begin_free(&mut bytes, 3, OTHER, unit(OTHER, 1, 4));
    // Task 7 returns four blocks of region 2 and frees one of region 0.
    begin_group(&mut bytes, 7, (LARGE, 2, 4), unit(LARGE, 0, 8));
    bytes
}

/// The cache of task 5 in the large class: blocks of two open regions.
fn cached() -> [u64; 3] {
    [unit(LARGE, 0, 4), unit(LARGE, 2, 1), unit(LARGE, 2, 2)]
}

/// Puts a block of another region under them.
fn cached_too(bytes: &mut Bytes, region: u64) {
    link_cache(bytes, (5, LARGE), &[&[unit(LARGE, region, 1)][..], &cached()].concat());
}

/// Lets task 6 have ten blocks of the region to carve.
fn carve(bytes: &mut Bytes, region: u64) {
    begin_carving(bytes, 6, (LARGE, region, 10));
}
