//! What only the keepers read, each value by itself: the items of the list of the spare regions, and the region that a
//! task has itself. Every region has a block in hand, so that no other value decides between 20 and 14.

use crate::damage::{link_regions, Bytes};
use crate::keepers::{in_hand, Keeper};
use crate::keepers_made::{Trial, LARGE};
use crate::layout::*;
use crate::lists::SPARE_REGIONS;
use crate::made::{describe, have_region, mark, unit};
use crate::pool;
use crate::report_cases::ITSELF;
use crate::report_refusals::fresh;

/// Where a task's region is read for its blocks, and where its unit has to be that of a block.
const OF_BLOCKS: [usize; 6] = [25, 27, 28, 30, 31, 32];

pub fn round(trial: &mut Trial) {
    lists(trial);
    regions_itself(trial);
}

/// Every region is kept by a block in hand, so that the list alone decides: each item, and where it ends.
fn lists(trial: &mut Trial) {
    for regions in [1, 2, 3, 15, 16] {
        let due: Vec<Keeper> = (0..regions).map(|region| in_hand(512 * region)).collect();
        let all: Vec<usize> = (0..regions as usize).rev().collect();
        for length in 0..=all.len() {
            let mut bytes = all_in_hand(regions);
            link_regions(&mut bytes, &all[..length]);
            trial.told("a list that ends, of any length", &bytes, Some(&due));
            for item in [regions + 1, 16, 17, 255].into_iter().filter(|&item| item > regions) {
                let mut bad = bytes.clone();
                set_item(&mut bad, &all[..length], item);
                trial.told("a list's last item is followed by one past the regions", &bad, None);
            }
            for &again in &all[..length] {
                let mut bad = bytes.clone();
                set_item(&mut bad, &all[..length], again as u64 + 1);
                trial.told("a list does not end", &bad, None);
            }
        }
        for item in [256, 257, 65_537, 1 << 31, 0xFFFF_FFFF] {
            let mut bytes = all_in_hand(regions);
            set_item(&mut bytes, &[], item);
            trial.told("a head's item of more than a byte", &bytes, None);
        }
    }
}

/// The same for the region of a task: at the places for a region itself it is tested, and elsewhere it may be any.
fn regions_itself(trial: &mut Trial) {
    let due: Vec<Keeper> = (0..3).map(|region| in_hand(512 * region)).collect();
    for task in 0..pool::TASKS {
        for &place in ITSELF {
            for region in [0, 2, 3, 16, 255] {
                let mut bytes = all_in_hand(3);
                have_region(&mut bytes, task, place as u64, region);
                let name = format!("a task's region is tested at place {place}");
                trial.told(&name, &bytes, (region < 3).then_some(&due));
            }
        }
        for place in (0..pool::PLACES).filter(|place| !ITSELF.contains(place) && !OF_BLOCKS.contains(place)) {
            let mut bytes = all_in_hand(3);
            have_region(&mut bytes, task, place as u64, 255);
            trial.told(&format!("a task's region may be any at place {place}"), &bytes, Some(&due));
        }
    }
}

/// Every region is open with its first block in hand, and no region is on the list.
fn all_in_hand(regions: u64) -> Bytes {
    let mut bytes = fresh(regions);
    for region in 0..regions {
        describe(&mut bytes, region, LARGE, 2, 0);
        mark(&mut bytes, unit(LARGE, region, 0));
    }
    link_regions(&mut bytes, &[]);
    bytes
}

/// Sets what follows on the last item of a list, or on its head where it has none.
fn set_item(bytes: &mut Bytes, list: &[usize], item: u64) {
    match list.last() {
        Some(&last) => set(&mut bytes.control, REGION_NEXT, last, item),
        None => set(&mut bytes.control, HEAD, SPARE_REGIONS, item),
    }
}
