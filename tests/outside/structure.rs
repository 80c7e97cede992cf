//! The comparison of structure: "Compared are each list's items from the top, which regions are open and in which
//! class, and, for these, the chain in order and each block's holder."

use crate::classes::{per_region, units, CLASSES, REGION, UNITS_PER_REGION};
use crate::faults::Fault;
use crate::layout::{cache_index, outside_fields, View, CACHE_STRIDE, COUNT, TOP};
use crate::layout::{DESCRIPTOR_CLASS, LEAVING, MAP, REGIONS, TASKS, TASK_CLASS, TASK_PLACE, TASK_UNIT};
use crate::lists::LISTS;
use crate::pool::{self, Place, Pool, Under, ALL_UNITS};
use std::sync::LazyLock;

/// A block's holder: "a user's hands, a task or its region's chain, and it stands there once".
#[derive(Clone, Copy, PartialEq, Eq, Debug)]
enum Holder {
    Nobody,
    User,
    Task(usize),
    Chain,
}

pub fn regions_of(pool: &Pool) -> usize {
    (pool.area_length / REGION) as usize
}

/// Each list's items from the top.
pub fn lists(pool: &Pool, view: &View) -> Result<(), String> {
    for list in 0..LISTS {
        let items = view.list(list)?;
        if !pool.lists[list].row.iter().eq(items.iter()) {
            return Err(format!("list {list}: the plain pool has {:?}, the memory {items:?}", pool.lists[list].row));
        }
    }
    Ok(())
}

/// "Each won exchange adds one to the tag, and after 4,294,967,295 comes 0." The tags at the start are 0 unless the
/// test set others.
pub fn tags(pool: &Pool, view: &View, at_start: &[u32; LISTS]) -> Result<(), String> {
    for list in 0..LISTS {
        let due = at_start[list].wrapping_add(pool.lists[list].won as u32);
        if view.tag(list) != due {
            return Err(format!("list {list}: tag {} where {due} is due", view.tag(list)));
        }
    }
    Ok(())
}

/// Which regions are open and in which class.
pub fn open_regions(pool: &Pool, view: &View) -> Result<(), String> {
    for region in 0..regions_of(pool) {
        let plain = pool.open(region).map(|index| pool.descriptors[index].class);
        let memory = view.open(region).map(|index| view.get(DESCRIPTOR_CLASS, index) as usize);
        if plain != memory {
            return Err(format!("region {region}: open in {plain:?} in the plain pool, in {memory:?} in the memory"));
        }
    }
    Ok(())
}

/// "A map entry for each region names its descriptor, or none": also of regions that are not open, where no answer
/// shows it.
pub fn map(pool: &Pool, view: &View) -> Result<(), String> {
    for region in 0..regions_of(pool) {
        let memory = (view.get(MAP, region) as usize).checked_sub(1);
        if pool.map[region] != memory {
            return Err(format!(
                "region {region}: entry {:?} in the plain pool, {memory:?} in the memory",
                pool.map[region]
            ));
        }
    }
    Ok(())
}

/// The chain of each open region, in order, "with n at the end".
pub fn chains(pool: &Pool, view: &View) -> Result<(), String> {
    for region in 0..regions_of(pool) {
        let (Some(plain), Some(index)) = (pool.open(region), view.open(region)) else { continue };
        let class = pool.descriptors[plain].class;
        let (state, avail, count) = view.anchor(index);
        let (blocks, end) = view.chain(region, class, avail, count)?;
        let expected = &pool.descriptors[plain].chain;
        if !expected.iter().eq(blocks.iter()) || end != per_region(class) {
            return Err(format!("region {region}: chain {expected:?} against {blocks:?}, then {end}"));
        }
        if state != pool.descriptors[plain].state as u64 {
            return Err(format!("region {region}: state {:?} against {state}", pool.descriptors[plain].state));
        }
    }
    Ok(())
}

/// The caches as rows.
pub fn caches(pool: &Pool, view: &View) -> Result<(), String> {
    for task in 0..pool.started_tasks as usize {
        for class in 0..CLASSES {
            let (plain, memory) = (&pool.caches[task][class], view.cache(task, class)?);
            if *plain != memory {
                return Err(format!("cache of task {task}, class {class}: {plain:?} against {memory:?}"));
            }
        }
    }
    Ok(())
}

/// Each task's place, and the started numbers.
pub fn places(pool: &Pool, view: &View) -> Result<(), String> {
    let started = (view.get(TASKS, 0), view.get(REGIONS, 0));
    if started != (pool.started_tasks, regions_of(pool) as u64) {
        return Err(format!("the memory is started with {started:?}"));
    }
    for (task, plain) in pool.tasks.iter().enumerate() {
        let place = view.get(TASK_PLACE, task);
        if place != plain.place.number() as u64 {
            return Err(format!("task {task}: at {:?} in the plain pool, at {place} in the memory", plain.place));
        }
    }
    Ok(())
}

/// What a task returns blocks for, a block of its own to be freed or leaving, and the class at which it is.
pub fn returns(pool: &Pool, view: &View) -> Result<(), String> {
    for (task, plain) in pool.tasks.iter().enumerate() {
        let class = plain.place.returns().then_some(plain.class as u64);
        let due = if plain.leaving { LEAVING } else { plain.unit };
        let (unit, of_class) = (view.get(TASK_UNIT, task), view.get(TASK_CLASS, task));
        if class.is_some_and(|class| (unit, of_class) != (due, class)) || plain.place == Place::Leave && unit != due {
            return Err(format!("task {task} at {:?}: unit {unit}, class {of_class} where {due} is due", plain.place));
        }
    }
    Ok(())
}

/// The documents of the layout: the bytes that belong to no field are "zero from the start on".
pub fn gaps(view: &View) -> Result<(), String> {
    static OUTSIDE: LazyLock<Vec<bool>> = LazyLock::new(outside_fields);
    match view.control.iter().zip(OUTSIDE.iter()).position(|(&byte, &outside)| outside && byte != 0) {
        Some(byte) => Err(format!("byte {byte} of control is {}", view.control[byte])),
        None => Ok(()),
    }
}

/// The entries of the cache columns that no class has are as a start left them: an empty cache.
pub fn entries_of_no_class(view: &View) -> Result<(), String> {
    for task in 0..pool::TASKS {
        for class in CLASSES..CACHE_STRIDE {
            let index = cache_index(task, class);
            let (top, count) = (view.get(TOP, index), view.get(COUNT, index));
            if (top, count) != (ALL_UNITS as u64, 0) {
                return Err(format!("entry {index}: top {top}, count {count}"));
            }
        }
    }
    Ok(())
}

/// "One mark per unit is set while the block starting there is in a user's hands."
pub fn marks(pool: &Pool, view: &View) -> Result<(), String> {
    match (0..ALL_UNITS).find(|&unit| pool.marks[unit] != view.mark(unit)) {
        Some(unit) => Err(format!("the mark of unit {unit}: {} in the plain pool", pool.marks[unit])),
        None => Ok(()),
    }
}

/// Each block's holder, for the blocks of open regions.
pub fn holders(pool: &Pool, view: &View) -> Result<(), String> {
    let plain = plain_holders(pool)?;
    let memory = memory_holders(pool, view)?;
    for region in 0..regions_of(pool) {
        let Some(index) = pool.open(region) else { continue };
        let class = pool.descriptors[index].class;
        for block in 0..per_region(class) {
            let unit = (region as u64 * UNITS_PER_REGION + block * units(class)) as usize;
            if plain[unit] != memory[unit] || plain[unit] == Holder::Nobody {
                return Err(format!("unit {unit}: held by {:?} in one, {:?} in the other", plain[unit], memory[unit]));
            }
        }
    }
    Ok(())
}

/// Notes a holder; a block that has one already stands in two places.
fn place(holders: &mut [Holder], unit: u64, holder: Holder) -> Result<(), String> {
    let before = std::mem::replace(&mut holders[unit as usize], holder);
    if before == Holder::Nobody {
        return Ok(());
    }
    Err(format!("unit {unit} is held by {before:?} and by {holder:?}"))
}

fn plain_holders(pool: &Pool) -> Result<Vec<Holder>, String> {
    let mut holders = vec![Holder::Nobody; ALL_UNITS];
    for unit in (0..ALL_UNITS).filter(|&unit| pool.marks[unit]) {
        place(&mut holders, unit as u64, Holder::User)?;
    }
    for task in 0..pool.started_tasks as usize {
        let cached = pool.caches[task].iter().flatten().copied();
        for unit in cached.chain(plain_under_way(pool, task)) {
            place(&mut holders, unit, Holder::Task(task))?;
        }
    }
    for region in 0..regions_of(pool) {
        let Some(index) = pool.open(region) else { continue };
        let descriptor = &pool.descriptors[index];
        for block in &descriptor.chain {
            let unit = region as u64 * UNITS_PER_REGION + block * units(descriptor.class);
            place(&mut holders, unit, Holder::Chain)?;
        }
    }
    Ok(holders)
}

/// "a chain or group under way, a block being freed and blocks still to be carved count with their task's cache". A
/// task that leaves frees no block of its own.
pub fn plain_under_way(pool: &Pool, task: usize) -> Vec<u64> {
    let state = &pool.tasks[task];
    let unit = |block: u64| state.region as u64 * UNITS_PER_REGION + block * units(state.class);
    let mut all: Vec<u64> = match &state.under {
        Under::Nothing => Vec::new(),
        Under::Chain(blocks) | Under::Group(blocks) => blocks.iter().map(|&block| unit(block)).collect(),
        Under::Carving(next) => (*next..per_region(state.class)).map(unit).collect(),
    };
    if state.place.returns() && (!state.leaving || pool.fault == Fault::LeaveHolds) {
        all.push(state.unit);
    }
    all
}

fn memory_holders(pool: &Pool, view: &View) -> Result<Vec<Holder>, String> {
    let mut holders = vec![Holder::Nobody; ALL_UNITS];
    for unit in (0..ALL_UNITS).filter(|&unit| view.mark(unit)) {
        place(&mut holders, unit as u64, Holder::User)?;
    }
    for task in 0..pool.started_tasks as usize {
        for class in 0..CLASSES {
            for unit in view.cache(task, class)? {
                place(&mut holders, unit, Holder::Task(task))?;
            }
        }
        for unit in view.under_way(task)? {
            place(&mut holders, unit, Holder::Task(task))?;
        }
    }
    for region in 0..regions_of(pool) {
        let Some(index) = view.open(region) else { continue };
        let class = view.get(DESCRIPTOR_CLASS, index) as usize;
        let (_, avail, count) = view.anchor(index);
        for block in view.chain(region, class, avail, count)?.0 {
            place(&mut holders, region as u64 * UNITS_PER_REGION + block * units(class), Holder::Chain)?;
        }
    }
    Ok(holders)
}
