//! The two steps of strips on any bytes of control: "what a step does with them is defined for every value". Every
//! value of the tree's words is in range; a slot's byte is not above 16, and the strip's length divides the slot.

use crate::layout::{get, set, FREE_NODES, SLOT_BYTES, TASK_CLASS, TASK_UNIT};
use crate::pieces::{stretch_of, BEGUN, HELD, LAST, NODES};
use crate::pool::{Answer, Place};
use crate::strips::{FIRST_UNIT, LAST_UNIT, ORDERS, UNITS_PER_SLOT};

/// The answer that is due, and the control memory with the tree and the slots that are due. None at other places.
pub fn due(control: &[u8], task: usize, place: usize) -> Option<(Answer, Vec<u8>)> {
    let mut after = control.to_vec();
    let answer = if place == Place::TakeStrip.number() {
        take(&mut after, get(control, TASK_CLASS, task))
    } else if place == Place::GiveStrip.number() {
        give(&mut after, get(control, TASK_UNIT, task))
    } else {
        return None;
    };
    Some((answer, after))
}

/// The slot that a unit names as a strip's first.
pub fn slot_of(unit: u64) -> Option<usize> {
    let inside = (FIRST_UNIT..=LAST_UNIT).contains(&unit) && unit % UNITS_PER_SLOT == 0;
    inside.then(|| ((unit - FIRST_UNIT) / UNITS_PER_SLOT) as usize)
}

/// The order of the strip that begins at a slot, by its byte; none where the byte is above 16 or 0, or where the
/// strip's length does not divide the slot.
pub fn order_at(control: &[u8], slot: usize) -> Option<usize> {
    let byte = get(control, SLOT_BYTES, slot);
    let order = (byte.checked_sub(HELD)? % ORDERS as u64) as usize;
    (byte <= LAST && slot % (1 << order) == 0).then_some(order)
}

/// Whether the tree and the slots are the same in both.
pub fn same_pieces(one: &[u8], other: &[u8]) -> bool {
    let fields = FREE_NODES.first..SLOT_BYTES.first + SLOT_BYTES.fields;
    one[fields.clone()] == other[fields]
}

fn is_set(control: &[u8], node: usize) -> bool {
    get(control, FREE_NODES, node / 64) >> (node % 64) & 1 == 1
}

fn put(control: &mut [u8], node: usize, free: bool) {
    let word = get(control, FREE_NODES, node / 64);
    let bit = 1 << (node % 64);
    set(control, FREE_NODES, node / 64, if free { word | bit } else { word & !bit });
}

/// Of the orders from the wanted one up the first that has a free node, and of its nodes the lowest. It is halved,
/// lower half first, down to the wanted order.
fn take(control: &mut [u8], wanted: u64) -> Answer {
    if wanted >= ORDERS as u64 {
        return (14, 0);
    }
    let wanted = wanted as usize;
    let free = (1..NODES).filter(|&node| is_set(control, node) && stretch_of(node).1 >= wanted);
    let Some(mut node) = free.min_by_key(|&node| (stretch_of(node).1, node)) else { return (16, 0) };
    put(control, node, false);
    while stretch_of(node).1 > wanted {
        put(control, 2 * node + 1, true);
        node *= 2;
    }
    let slot = stretch_of(node).0;
    set(control, SLOT_BYTES, slot, HELD + wanted as u64);
    (20, FIRST_UNIT + UNITS_PER_SLOT * slot as u64)
}

/// The strip's node goes up as long as the other half is free, which is free no longer; where it stays it is free.
fn give(control: &mut [u8], unit: u64) -> Answer {
    let Some(slot) = slot_of(unit) else { return (14, 0) };
    let begun = get(control, SLOT_BYTES, slot) >= BEGUN;
    let Some(order) = order_at(control, slot).filter(|_| begun) else { return (14, 0) };
    set(control, SLOT_BYTES, slot, 0);
    let mut node = (1..NODES).find(|&node| stretch_of(node) == (slot, order)).expect("an aligned stretch has a node");
    while node > 1 && is_set(control, node ^ 1) {
        put(control, node ^ 1, false);
        node /= 2;
    }
    put(control, node, true);
    (20, 0)
}
