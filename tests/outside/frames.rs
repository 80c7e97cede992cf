//! What a step may change in control, by its place: its own task's fields, and of what the tasks share only what the
//! step list has written at that place, one field of each; of the tree of pieces any.

use crate::layout::*;

/// The shared columns that a step at this place writes.
fn written_at(place: usize) -> &'static [Column] {
    match place {
        1 => &[TOP, COUNT, MARKS],
        4 | 7 | 10 | 13 | 16 | 19 | 22 => &[HEAD],
        12 | 15 | 21 => &[DESCRIPTOR_NEXT],
        18 => &[REGION_NEXT],
        24 | 32 => &[ANCHOR],
        25 | 27 | 28 | 29 => &[TOP, COUNT],
        26 => &[ANCHOR, DESCRIPTOR_REGION, DESCRIPTOR_CLASS, MAP],
        33 => &[MAP],
        34 | 35 => &[SLOT_BYTES],
        _ => &[],
    }
}

/// Whether a step of the task at this place changed nothing else of control.
pub fn step_changed_its_own(before: &[u8], after: &[u8], task: usize, place: usize) -> bool {
    let mut due = before.to_vec();
    for column in OF_A_TASK {
        set(&mut due, column, task, get(after, column, task));
    }
    for word in 0..if matches!(place, 34 | 35) { FREE_NODES.fields } else { 0 } {
        set(&mut due, FREE_NODES, word, get(after, FREE_NODES, word));
    }
    written_at(place).iter().all(|&column| carry_over(&mut due, before, after, column)) && due == after
}

/// Takes the changed field of a column over; false where more than one changed.
fn carry_over(due: &mut [u8], before: &[u8], after: &[u8], column: Column) -> bool {
    let changed = |index: &usize| get(before, column, *index) != get(after, column, *index);
    let all: Vec<usize> = (0..column.fields).filter(changed).collect();
    if let Some(&index) = all.first() {
        set(due, column, index, get(after, column, index));
    }
    all.len() <= 1
}
