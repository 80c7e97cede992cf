//! The bad values of strips, one at a time, and the last good ones beside them: the order that a task asks for, the
//! unit that it gives back, and the byte of a slot, which the beginning of a free reads, too.

use crate::damage::Bytes;
use crate::fourteen_cases::{case, held_strip, in_range, put, Case, Change};
use crate::layout::*;
use crate::pieces::{BEGUN, HELD, LAST};
use crate::pool::Request;
use crate::strip_steps::{order_at, slot_of};
use crate::strips::{ORDERS, SLOTS};

const TAKE: &[usize] = &[34];
const GIVE: &[usize] = &[35];
/// The free of a strip in hand begins at the place of an idle task.
const FREE: &[usize] = &[0];

const fn of_strip(name: &'static str, change: Change) -> Case {
    Case { begun: free_strip, ..case(name, FREE, change) }
}

pub const STRIP_CASES: &[Case] = &[
    in_range("a strip of order 0 is asked for", TAKE, asked::<0>),
    in_range("a strip of order 7 is asked for", TAKE, asked::<7>),
    case("a strip of order 8 is asked for", TAKE, asked::<8>),
    case("a strip of order 12 is asked for", TAKE, asked::<12>),
    in_range("any free nodes while a strip is asked for", TAKE, |bytes, _, _| any_nodes(bytes)),
    in_range("no free node while a strip is asked for", TAKE, |bytes, _, _| no_nodes(bytes)),
    in_range("any free nodes while a strip is given back", GIVE, |bytes, _, _| any_nodes(bytes)),
    in_range("the last class of the table while a strip is given back", GIVE, asked::<12>),
    case("a strip to give back at a small block's unit", GIVE, |bytes, task, _| given_at(bytes, task, |_| 0)),
    case("a strip to give back at unit 8,191", GIVE, |bytes, task, _| given_at(bytes, task, |_| 8191)),
    case("a strip to give back at unit 8,128", GIVE, |bytes, task, _| given_at(bytes, task, |_| 8128)),
    case("a strip to give back at unit 16,384", GIVE, |bytes, task, _| given_at(bytes, task, |_| 16_384)),
    case("a strip to give back at unit 65,535", GIVE, |bytes, task, _| given_at(bytes, task, |_| 65_535)),
    case("a strip to give back at the unit behind its first", GIVE, |bytes, task, _| {
        given_at(bytes, task, |unit| unit + 1)
    }),
    case("a strip to give back half a slot further", GIVE, |bytes, task, _| given_at(bytes, task, |unit| unit + 32)),
    case("a strip to give back where none begins", GIVE, |bytes, task, _| slot_byte(bytes, task, |_| 0)),
    case("a strip to give back whose free has not begun", GIVE, |bytes, task, _| {
        slot_byte(bytes, task, |byte| byte - (BEGUN - HELD))
    }),
    case("a byte of 17 where a strip is given back", GIVE, |bytes, task, _| slot_byte(bytes, task, |_| LAST + 1)),
    case("a byte of 255 where a strip is given back", GIVE, |bytes, task, _| slot_byte(bytes, task, |_| 255)),
    case("a strip to give back whose length does not divide its slot", GIVE, |bytes, task, _| {
        let slot = slot_of(get(&bytes.control, TASK_UNIT, task));
        slot.is_some_and(|slot| longer(bytes, slot, BEGUN))
    }),
    in_range("a shorter strip to give back", GIVE, |bytes, task, _| slot_byte(bytes, task, |_| BEGUN)),
    of_strip("a byte of 17 where a free begins", |bytes, _, _| held_byte(bytes, LAST + 1)),
    of_strip("a byte of 24 where a free begins", |bytes, _, _| held_byte(bytes, 24)),
    of_strip("a byte of 255 where a free begins", |bytes, _, _| held_byte(bytes, 255)),
    of_strip("a strip to free whose length does not divide its slot", |bytes, _, _| {
        held_strip(bytes).and_then(slot_of).is_some_and(|slot| longer(bytes, slot, HELD))
    }),
    of_strip("a strip being freed whose length does not divide its slot", |bytes, _, _| {
        held_strip(bytes).and_then(slot_of).is_some_and(|slot| longer(bytes, slot, BEGUN))
    }),
    Case { bad: false, ..of_strip("a free begins where no strip does", |bytes, _, _| held_byte(bytes, 0)) },
    Case { bad: false, ..of_strip("a free begins where one has begun", |bytes, _, _| held_byte(bytes, BEGUN)) },
    Case { bad: false, ..of_strip("a free begins of a shorter strip", |bytes, _, _| held_byte(bytes, HELD)) },
];

/// The free of the highest strip in hand begins.
fn free_strip(bytes: &Bytes, task: u64) -> Option<Request> {
    held_strip(bytes).map(|unit| Request::Free { task, unit })
}

/// The order that a task asks for stands in the field of its class.
fn asked<const ORDER: u64>(bytes: &mut Bytes, task: usize, _: usize) -> bool {
    put(bytes, TASK_CLASS, task, ORDER)
}

fn any_nodes(bytes: &mut Bytes) -> bool {
    (0..FREE_NODES.fields).all(|word| put(bytes, FREE_NODES, word, u64::MAX))
}

fn no_nodes(bytes: &mut Bytes) -> bool {
    (0..FREE_NODES.fields).all(|word| put(bytes, FREE_NODES, word, 0))
}

fn given_at(bytes: &mut Bytes, task: usize, other: fn(u64) -> u64) -> bool {
    let unit = get(&bytes.control, TASK_UNIT, task);
    put(bytes, TASK_UNIT, task, other(unit))
}

/// Another byte at the slot that a task gives back.
fn slot_byte(bytes: &mut Bytes, task: usize, other: fn(u64) -> u64) -> bool {
    let Some(slot) = slot_of(get(&bytes.control, TASK_UNIT, task)) else { return false };
    let byte = get(&bytes.control, SLOT_BYTES, slot);
    put(bytes, SLOT_BYTES, slot, other(byte))
}

/// Another byte at the slot of the highest strip in hand.
fn held_byte(bytes: &mut Bytes, byte: u64) -> bool {
    held_strip(bytes).and_then(slot_of).is_some_and(|slot| put(bytes, SLOT_BYTES, slot, byte))
}

/// The shortest order whose length does not divide the slot, where there is one.
fn longer(bytes: &mut Bytes, slot: usize, first: u64) -> bool {
    let order = (0..ORDERS).find(|&order| slot % (1 << order) != 0);
    order.is_some_and(|order| put(bytes, SLOT_BYTES, slot, first + order as u64))
        && slot < SLOTS
        && order_at(&bytes.control, slot).is_none()
}
