//! The row of the form by holder: "for each class, one number for the marks, then one for each task's caches, then one
//! for each task's request, then one for the chains of open regions".

use crate::classes::CLASSES;
use crate::report::{number, put_numbers, OpenRegion, HOLDERS};
use crate::sheet::{by_column, Four};

/// The numbers of a class, by holder.
pub type Line = [u64; HOLDERS];

/// A line for each class.
pub const BYTES: usize = place(CLASSES);

/// "class c at byte 36 × c".
pub const fn place(class: usize) -> usize {
    36 * class
}

pub fn line(row: &[u8], class: usize) -> Line {
    std::array::from_fn(|holder| number(row, place(class) + 2 * holder))
}

pub fn put(row: &mut [u8], class: usize, line: Line) {
    put_numbers(row, place(class), &line);
}

/// A row of zeros with these numbers, each for a class and a holder.
pub fn row_of(numbers: &[(usize, usize, u64)]) -> Vec<u8> {
    let mut row = vec![0; BYTES];
    for &(class, holder, number) in numbers {
        put_numbers(&mut row, place(class) + 2 * holder, &[number]);
    }
    row
}

/// The whole form: the numbers of all regions that are open in the class, added up.
pub fn row(open: &[OpenRegion]) -> Vec<u8> {
    let mut lines = [[0; HOLDERS]; CLASSES];
    for open in open {
        for (sum, blocks) in lines[open.class].iter_mut().zip(open.blocks) {
            *sum += blocks;
        }
    }
    let mut row = vec![0; BYTES];
    lines.iter().enumerate().for_each(|(class, line)| put(&mut row, class, *line));
    row
}

/// The numbers of a class, added up as the sheet's columns are.
pub fn columns(row: &[u8], class: usize) -> Four {
    by_column(&line(row, class))
}
