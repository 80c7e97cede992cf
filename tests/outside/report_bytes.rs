//! The reports of any memories, read by the documents of the layout: the code that is due, and the row where it is 20.
//! The tests are 1, 4 and 2, as of other calls; then 14 where a value that is read is out of its range, or a region has
//! no keeper; then 23.

use crate::classes::{is_first, per_region, units, CLASSES, UNITS_PER_REGION};
use crate::damage::Bytes;
use crate::expected;
use crate::holders::of_region;
use crate::layout::*;
use crate::lists::SPARE_REGIONS;
use crate::pool::{self, ALL_UNITS, DESCRIPTORS, PLACES};
use crate::report::{cache, request, OpenRegion, Report, Stock, CHAINS, HANDS};

/// A value that was read is out of its range.
pub struct Outside;

/// How many blocks of each class and region a task's request has.
type Counts = [[u64; pool::REGIONS]; CLASSES];

/// The code that is due for a row of this length, and the bytes that it then has at its beginning.
pub fn due(report: Report, bytes: &Bytes, length: usize) -> (u64, Vec<u8>) {
    // A started pool has a task 0, so that the test of the task passes.
    let code = expected::common(bytes, 0);
    if code != 0 {
        return (code, Vec::new());
    }
    let row = read(report, bytes).ok().and_then(|stock| report.row(&stock));
    match row {
        None => (14, Vec::new()),
        Some(row) if length < row.len() => (23, Vec::new()),
        Some(row) => (20, row),
    }
}

fn fits(held: bool) -> Result<(), Outside> {
    held.then_some(()).ok_or(Outside)
}

/// The stock, where every value that the report reads is in its range.
fn read(report: Report, bytes: &Bytes) -> Result<Stock, Outside> {
    let view = View { control: &bytes.control, area: &bytes.area };
    let regions = view.get(REGIONS, 0);
    let (mut cached, mut running) = (Vec::new(), [[[0; pool::REGIONS]; CLASSES]; pool::TASKS]);
    for (task, running) in running.iter_mut().enumerate() {
        let caches = (0..CLASSES).map(|class| read_cache(&view, regions, task, class));
        cached.push(caches.collect::<Result<Vec<_>, Outside>>()?);
        read_request(&view, regions, task, running)?;
    }
    let mut open = Vec::new();
    for region in 0..regions as usize {
        let Some((class, chain)) = read_region(&view, regions, region)? else { continue };
        let mut of = OpenRegion::new(class, region);
        of.note(HANDS, &in_hand(&view, class, region));
        for task in 0..pool::TASKS {
            of.note(cache(task), &of_region(&cached[task][class], region));
            of.blocks[request(task)] = running[task][class][region];
        }
        of.blocks[CHAINS] = chain;
        open.push(of);
    }
    let mut stock = Stock { regions: regions as usize, open, itself: [None; pool::TASKS], spare: Vec::new() };
    if report == Report::Keepers {
        read_regions_not_open(&view, &mut stock)?;
    }
    Ok(stock)
}

/// What the keepers read beside: the region of a task that has one itself, and the list of the spare regions.
fn read_regions_not_open(view: &View, stock: &mut Stock) -> Result<(), Outside> {
    for task in 0..pool::TASKS {
        if matches!(view.get(TASK_PLACE, task), 17..=19 | 26 | 33) {
            let region = view.get(TASK_REGION, task) as usize;
            fits(region < stock.regions)?;
            stock.itself[task] = Some(region);
        }
    }
    let mut item = (view.get(HEAD, SPARE_REGIONS) & 0xFFFF_FFFF) as usize;
    while item != 0 {
        fits(item <= stock.regions && stock.spare.len() < stock.regions)?;
        stock.spare.push(item - 1);
        item = view.get(REGION_NEXT, item - 1) as usize;
    }
    Ok(())
}

/// The first units of the class's blocks whose marks are set.
pub fn in_hand(view: &View, class: usize, region: usize) -> Vec<u64> {
    let first = region as u64 * UNITS_PER_REGION;
    let blocks = (0..per_region(class)).map(|block| first + block * units(class));
    blocks.filter(|&unit| view.mark(unit as usize)).collect()
}

/// A unit of a block of the class in the area.
fn block(class: usize, regions: u64, unit: u64) -> Result<usize, Outside> {
    fits(unit < regions * UNITS_PER_REGION && is_first(class, unit))?;
    Ok((unit / UNITS_PER_REGION) as usize)
}

/// The count, the top and every link down to 8,192.
fn read_cache(view: &View, regions: u64, task: usize, class: usize) -> Result<Vec<u64>, Outside> {
    let count = view.get(COUNT, cache_index(task, class));
    fits(count <= per_region(class))?;
    let mut cached = Vec::new();
    let mut unit = view.get(TOP, cache_index(task, class));
    for _ in 0..count {
        block(class, regions, unit)?;
        cached.push(unit);
        unit = view.link(unit).map_err(|_| Outside)?;
    }
    fits(unit == ALL_UNITS as u64)?;
    Ok(cached)
}

/// By the place: the class, the number of blocks under way and their region, and the block being freed. Of an idle
/// task, of the request for a strip and of the last step of leaving nothing else is read.
fn read_request(view: &View, regions: u64, task: usize, running: &mut Counts) -> Result<(), Outside> {
    let get = |column| view.get(column, task);
    let place = get(TASK_PLACE) as usize;
    fits(place < PLACES)?;
    if matches!(place, 0 | 34..=36) {
        return Ok(());
    }
    fits(get(TASK_CLASS) < CLASSES as u64)?;
    let class = get(TASK_CLASS) as usize;
    let n = per_region(class);
    let (least, blocks) = match place {
        25 => (1, get(TASK_LEFT)),
        27 => (1, n.saturating_sub(get(TASK_INDEX))),
        29 => (0, get(GROUP_COUNT)),
        30..=32 => (1, get(GROUP_COUNT)),
        _ => (0, 0),
    };
    fits((least..=n).contains(&blocks))?;
    if blocks > 0 {
        fits(get(TASK_REGION) < regions)?;
        running[class][get(TASK_REGION) as usize] += blocks;
    }
    let unit = get(TASK_UNIT);
    if place == 28 || matches!(place, 17..=22 | 29..=33) && unit != LEAVING {
        running[class][block(class, regions, unit)?] += 1;
    }
    Ok(())
}

/// The class of an open region and the length of its chain.
fn read_region(view: &View, regions: u64, region: usize) -> Result<Option<(usize, u64)>, Outside> {
    let entry = view.get(MAP, region) as usize;
    fits(entry <= DESCRIPTORS)?;
    let Some(descriptor) = entry.checked_sub(1) else { return Ok(None) };
    let back = view.get(DESCRIPTOR_REGION, descriptor);
    fits(back < regions)?;
    if back != region as u64 {
        return Ok(None);
    }
    let (state, avail, count) = view.anchor(descriptor);
    fits(state <= 2 && avail <= 512 && count <= 512)?;
    if state == 0 {
        return Ok(None);
    }
    let class = view.get(DESCRIPTOR_CLASS, descriptor) as usize;
    fits(class < CLASSES && count <= per_region(class))?;
    Ok(Some((class, count)))
}
