//! The row of the stock sheet: "For each class and region the sheet gives blocks in hand, in caches, with running
//! requests (what document 01, in comparing, adds to the cache), and in the chain."

use crate::classes::CLASSES;
use crate::pool::REGIONS;
use crate::report::{cache, number, put_numbers, request, OpenRegion, CHAINS, HANDS, HOLDERS};

/// In hand, in caches, with running requests, in the chain.
pub type Four = [u64; 4];

/// Four numbers of two bytes for each class and region.
pub const BYTES: usize = 8 * CLASSES * REGIONS;

/// "the four numbers of class c and region r at byte 8 × (16 × c + r)".
pub const fn place(class: usize, region: usize) -> usize {
    8 * (REGIONS * class + region)
}

/// The four numbers of a class and region.
pub fn four(row: &[u8], class: usize, region: usize) -> Four {
    std::array::from_fn(|column| number(row, place(class, region) + 2 * column))
}

pub fn put(row: &mut [u8], class: usize, region: usize, numbers: Four) {
    put_numbers(row, place(class, region), &numbers);
}

/// A row of zeros with these numbers.
pub fn row_of(numbers: &[(usize, usize, Four)]) -> Vec<u8> {
    let mut row = vec![0; BYTES];
    for &(class, region, four) in numbers {
        put(&mut row, class, region, four);
    }
    row
}

/// The holders' numbers, those of the tasks added up.
pub fn by_column(blocks: &[u64; HOLDERS]) -> Four {
    let of_tasks = |first: usize| blocks[first..first + 8].iter().sum();
    [blocks[HANDS], of_tasks(cache(0)), of_tasks(request(0)), blocks[CHAINS]]
}

/// The whole sheet: "A region that is not open in the class shows four zeros."
pub fn row(open: &[OpenRegion]) -> Vec<u8> {
    let numbers: Vec<_> = open.iter().map(|open| (open.class, open.region, by_column(&open.blocks))).collect();
    row_of(&numbers)
}

/// The four numbers of a class, added up over its regions.
pub fn columns(row: &[u8], class: usize) -> Four {
    added_up((0..REGIONS).map(|region| four(row, class, region)))
}

/// The four numbers of a region in the class in which it is open.
pub fn of_region(row: &[u8], region: usize) -> Four {
    added_up((0..CLASSES).map(|class| four(row, class, region)))
}

fn added_up(fours: impl Iterator<Item = Four>) -> Four {
    fours.fold([0; 4], |sums, four| std::array::from_fn(|column| sums[column] + four[column]))
}
