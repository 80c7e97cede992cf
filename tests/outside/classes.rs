//! The table of classes, computed from the paper's series and not copied from its table.
//!
//! 002's series is "a power of two, and that plus a quarter, a half, three quarters". 8 is a class, and "classes above
//! 8 are those members of the series that are multiples of 16, thirteen classes in all".

use std::sync::LazyLock;

/// A region has this many bytes, and a unit 8 of them.
pub const REGION: u64 = 4096;
pub const UNIT: u64 = 8;
pub const UNITS_PER_REGION: u64 = REGION / UNIT;
/// How many classes there are. Lists, caches and counts go by it.
pub const CLASSES: usize = 13;
/// "every block of 16 bytes or more to start at a multiple of 16".
const ALIGNMENT: u64 = 16;
/// The largest size that is served, and the largest block.
const LARGEST: u64 = 256;
/// "The quarter limit on waste then holds from size 49 to 256", and it fails at 36.
const QUARTER_FROM: u64 = 49;
const QUARTER_FAILS: u64 = 36;

static BLOCKS: LazyLock<Vec<u64>> = LazyLock::new(series);

/// 8, and the members of the series that are multiples of 16, up to the largest, rising.
fn series() -> Vec<u64> {
    let mut members = Vec::new();
    for exponent in 2..=8 {
        let power = 1u64 << exponent;
        for quarters in 0..4 {
            let quarter_bytes = power * quarters;
            let member = power + quarter_bytes / 4;
            let class = member == 8 || member % ALIGNMENT == 0;
            if quarter_bytes % 4 == 0 && class && member <= LARGEST {
                members.push(member);
            }
        }
    }
    members
}

/// The bytes of a block of the class.
pub fn block(class: usize) -> u64 {
    BLOCKS[class]
}

/// The units of a block of the class.
pub fn units(class: usize) -> u64 {
    block(class) / UNIT
}

/// The paper's n: how many blocks a region has in the class.
pub fn per_region(class: usize) -> u64 {
    REGION / block(class)
}

/// The first unit behind the last block of a region of the class, counted from the region's first.
pub fn tail(class: usize) -> u64 {
    per_region(class) * units(class)
}

/// The smallest class whose block holds the size, for sizes from 1 to 256.
pub fn class_of(size: u64) -> usize {
    (0..CLASSES).find(|&class| block(class) >= size).expect("a size from 1 to 256")
}

/// Whether a unit is the first of a block of the class.
pub fn is_first(class: usize, unit: u64) -> bool {
    let offset = unit % UNITS_PER_REGION;
    offset % units(class) == 0 && offset < tail(class)
}

/// Whether a block of the class that starts at the unit is aligned in the area as the request wants it.
pub fn is_aligned(class: usize, unit: u64) -> bool {
    block(class) < ALIGNMENT || unit * UNIT % ALIGNMENT == 0
}

/// Compares the computed series with the two rows of the table, as the request leaves them, and with what the papers
/// say about sizes, waste and alignment.
pub fn agrees_with_the_paper() -> Result<(), String> {
    let blocks: [u64; CLASSES] = [8, 16, 32, 48, 64, 80, 96, 112, 128, 160, 192, 224, 256];
    let counts: [u64; CLASSES] = [512, 256, 128, 85, 64, 51, 42, 36, 32, 25, 21, 18, 16];
    if BLOCKS.as_slice() != blocks {
        return Err(format!("the series gives {:?}", *BLOCKS));
    }
    for class in 0..CLASSES {
        if per_region(class) != counts[class] {
            return Err(format!("class {class} has {} blocks in a region", per_region(class)));
        }
        let blocks_aligned = (0..per_region(class)).all(|index| is_aligned(class, index * units(class)));
        if !blocks_aligned || !is_aligned(class, UNITS_PER_REGION) {
            return Err(format!("class {class} has blocks that are not aligned"));
        }
    }
    sizes_agree()
}

/// The class of each size, the limit on waste and the bench table's sizes.
fn sizes_agree() -> Result<(), String> {
    let little_waste = |size: u64| 4 * (block(class_of(size)) - size) < block(class_of(size));
    for size in 1..=LARGEST {
        let chosen = class_of(size);
        let fits = block(chosen) >= size;
        let smallest = chosen == 0 || block(chosen - 1) < size;
        if !(fits && smallest && (size < QUARTER_FROM || little_waste(size))) {
            return Err(format!("size {size} goes to a block of {}", block(chosen)));
        }
    }
    if little_waste(QUARTER_FAILS) {
        return Err(format!("the limit on waste holds at {QUARTER_FAILS}"));
    }
    let bench = [(1, 8), (9, 16), (17, 32), (65, 80), (256, 256)];
    match bench.iter().find(|(size, bytes)| block(class_of(*size)) != *bytes) {
        Some((size, _)) => Err(format!("the bench table's size {size}")),
        None => Ok(()),
    }
}
