//! The same for what only the keepers read: the region that a task has itself, and the list of the spare regions. The
//! sheet and the form are given each time. Where a region loses its only keeper the answer is 14, too.

use crate::damage::{link_regions, Bytes};
use crate::fourteen_cases::{put, Change};
use crate::layout::*;
use crate::lists::SPARE_REGIONS;
use crate::report_cases::{good, OfKeepers, ReportCase, IDLE, ITSELF};

const fn refused(name: &'static str, places: &'static [usize], change: Change) -> ReportCase {
    ReportCase { keepers: OfKeepers::Refused, ..good(name, places, change) }
}

/// Where a return has emptied a region and not pushed it yet.
const EMPTIED: &[usize] = &[17, 18, 19, 33];
const OPENS: &[usize] = &[26];
const ALL_ITEMS: u64 = 0xFFFF_FFFF;

pub const KEEPERS_CASES: &[ReportCase] = &[
    refused("a region itself just past the area", ITSELF, |bytes, task, _| {
        let past = regions(bytes);
        in_region(bytes, task, past)
    }),
    refused("a region itself of 255", ITSELF, |bytes, task, _| in_region(bytes, task, 255)),
    refused("another region itself", ITSELF, |bytes, task, _| {
        let other = (get(&bytes.control, TASK_REGION, task) + 1) % regions(bytes);
        regions(bytes) > 1 && in_region(bytes, task, other)
    }),
    refused("an idle task in place of one that has a region itself", ITSELF, |bytes, task, _| at(bytes, task, 0)),
    refused("a task behind the push of a region", EMPTIED, |bytes, task, _| at(bytes, task, 20)),
    refused("a task behind the push of a region, at the exchange", EMPTIED, |bytes, task, _| at(bytes, task, 22)),
    refused("a task before the pop of a region", OPENS, |bytes, task, _| at(bytes, task, 10)),
    refused("a task that reads an anchor in place of one that has a region", OPENS, |bytes, task, _| {
        at(bytes, task, 23)
    }),
    good("the first region itself, of an idle task", IDLE, |bytes, task, _| opens(bytes, task, 0)),
    good("the last region itself, of an idle task", IDLE, |bytes, task, _| {
        let last = regions(bytes) - 1;
        opens(bytes, task, last)
    }),
    refused("a region past the area itself, of an idle task", IDLE, |bytes, task, _| {
        let past = regions(bytes);
        opens(bytes, task, past)
    }),
    good("any region of a task that carves nothing yet and has none itself", IDLE, |bytes, task, _| {
        opens(bytes, task, 255) && at(bytes, task, 10)
    }),
    refused("a head's item just past the regions, where none is spare", IDLE, |bytes, _, _| {
        let past = regions(bytes) + 1;
        spare(bytes).is_empty() && with_head(bytes, past)
    }),
    refused("a head's item of 256", IDLE, |bytes, _, _| with_head(bytes, 256)),
    refused("a head's item of 65,537", IDLE, |bytes, _, _| with_head(bytes, 65_537)),
    refused("a head's item of 4,294,967,295", IDLE, |bytes, _, _| with_head(bytes, ALL_ITEMS)),
    good("any tag of the head", IDLE, |bytes, _, _| {
        let word = get(&bytes.control, HEAD, SPARE_REGIONS) ^ ALL_ITEMS << 32;
        put(bytes, HEAD, SPARE_REGIONS, word)
    }),
    refused("a list without its items", IDLE, |bytes, _, _| !spare(bytes).is_empty() && with_head(bytes, 0)),
    refused("a list without its top", IDLE, |bytes, _, _| {
        let spare = spare(bytes);
        !spare.is_empty() && relinked(bytes, &spare[1..])
    }),
    refused("a list without its last item", IDLE, |bytes, _, _| {
        let spare = spare(bytes);
        !spare.is_empty() && relinked(bytes, &spare[..spare.len() - 1])
    }),
    refused("a list that is cut behind its top", IDLE, |bytes, _, _| {
        spare(bytes).len() > 1 && with_next(bytes, |_| 0, 0)
    }),
    refused("the top's next just past the regions", IDLE, |bytes, _, _| {
        let past = regions(bytes) + 1;
        with_next(bytes, |_| 0, past)
    }),
    refused("the last item's next just past the regions, where not all are spare", IDLE, |bytes, _, _| {
        let past = regions(bytes) + 1;
        some_spare(bytes) && with_next(bytes, |items| items - 1, past)
    }),
    refused("the last item's next of 255, where not all are spare", IDLE, |bytes, _, _| {
        some_spare(bytes) && with_next(bytes, |items| items - 1, 255)
    }),
    refused("a next in the middle just past the regions", IDLE, |bytes, _, _| {
        let past = regions(bytes) + 1;
        spare(bytes).len() > 2 && with_next(bytes, |items| items / 2, past)
    }),
    refused("a last item that is followed by itself", IDLE, |bytes, _, _| {
        let last = spare(bytes).last().map_or(0, |&region| region as u64 + 1);
        with_next(bytes, |items| items - 1, last)
    }),
    refused("a last item that is followed by the top", IDLE, |bytes, _, _| {
        let top = spare(bytes).first().map_or(0, |&region| region as u64 + 1);
        with_next(bytes, |items| items - 1, top)
    }),
    refused("a top that is followed by itself", IDLE, |bytes, _, _| {
        let top = spare(bytes).first().map_or(0, |&region| region as u64 + 1);
        with_next(bytes, |_| 0, top)
    }),
    good("any next of the regions that are off the list", IDLE, |bytes, _, _| {
        let spare = spare(bytes);
        (0..REGION_NEXT.fields)
            .filter(|region| !spare.contains(region))
            .all(|region| put(bytes, REGION_NEXT, region, 255))
    }),
    good("a list with a further region on top", IDLE, |bytes, _, _| {
        let spare = spare(bytes);
        let off = (0..regions(bytes) as usize).find(|region| !spare.contains(region));
        off.is_some_and(|region| relinked(bytes, &[&[region][..], &spare].concat()))
    }),
    good("a list of all regions", IDLE, |bytes, _, _| {
        let all: Vec<usize> = (0..regions(bytes) as usize).collect();
        relinked(bytes, &all)
    }),
    refused("a list of all regions and the first once more", IDLE, |bytes, _, _| {
        let all: Vec<usize> = (0..regions(bytes) as usize).collect();
        relinked(bytes, &all) && with_next(bytes, |items| items - 1, 1)
    }),
];

fn regions(bytes: &Bytes) -> u64 {
    get(&bytes.control, REGIONS, 0)
}

fn in_region(bytes: &mut Bytes, task: usize, region: u64) -> bool {
    put(bytes, TASK_REGION, task, region)
}

fn at(bytes: &mut Bytes, task: usize, place: u64) -> bool {
    put(bytes, TASK_PLACE, task, place)
}

/// Lets a task stand before the step that opens this region.
fn opens(bytes: &mut Bytes, task: usize, region: u64) -> bool {
    at(bytes, task, 26) && put(bytes, TASK_CLASS, task, 0) && in_region(bytes, task, region)
}

/// The list of the spare regions as it stands.
fn spare(bytes: &Bytes) -> Vec<usize> {
    View { control: &bytes.control, area: &bytes.area }.list(SPARE_REGIONS).unwrap_or_default()
}

/// Whether some regions are off the list.
fn some_spare(bytes: &Bytes) -> bool {
    spare(bytes).len() < bytes.regions()
}

fn with_head(bytes: &mut Bytes, item: u64) -> bool {
    let tag = get(&bytes.control, HEAD, SPARE_REGIONS) >> 32;
    put(bytes, HEAD, SPARE_REGIONS, tag << 32 | item)
}

fn relinked(bytes: &mut Bytes, spare: &[usize]) -> bool {
    link_regions(bytes, spare);
    true
}

/// Gives one of the list's items another next.
fn with_next(bytes: &mut Bytes, item: fn(usize) -> usize, next: u64) -> bool {
    let spare = spare(bytes);
    !spare.is_empty() && put(bytes, REGION_NEXT, spare[item(spare.len())], next)
}
