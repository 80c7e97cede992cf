//! The pieces of the strips' memory as control has them: a tree of 255 nodes in heap order, 1 the whole and 2 i and 2 i
//! + 1 the halves of i, with a bit for each that is a free piece; and a byte for each slot, 0 where no strip begins, 1
//! + k for a strip of order k in hand, 9 + k for one whose free has begun. Who frees it, its task's place and unit say.

use crate::layout::{View, FREE_NODES, SLOT_BYTES, TASK_CLASS, TASK_PLACE, TASK_UNIT};
use crate::pool::{self, Place, Pool};
use crate::strips::{unit_of, Piece, State, SLOTS, WHOLE};
use std::sync::LazyLock;

/// The nodes are numbered from 1 up to below this.
pub const NODES: usize = 2 * SLOTS;
/// The bytes of a strip in hand are 1 to 8, those of one whose free has begun 9 to 16.
pub const HELD: u64 = 1;
pub const BEGUN: u64 = 9;
pub const LAST: u64 = 16;

/// The first slot and the order of each node, from the whole down; node 0, which there is not, has no slots at all.
static STRETCHES: LazyLock<Vec<(usize, usize)>> = LazyLock::new(|| {
    let mut stretches = vec![(SLOTS, WHOLE), (0, WHOLE)];
    for node in 2..NODES {
        let (place, order) = stretches[node / 2];
        let half = order - 1;
        stretches.push((if node % 2 == 0 { place } else { place + (1 << half) }, half));
    }
    stretches
});

pub fn stretch_of(node: usize) -> (usize, usize) {
    STRETCHES[node]
}

/// The order that a slot's byte gives its strip, and whether its free has begun.
fn strip(byte: u64) -> Option<(usize, bool)> {
    match byte {
        HELD..BEGUN => Some(((byte - HELD) as usize, false)),
        BEGUN..=LAST => Some(((byte - BEGUN) as usize, true)),
        _ => None,
    }
}

/// The task that has this slot's strip to give back; there has to be one.
fn freed_by(view: &View, place: usize) -> Result<usize, String> {
    let gives = |task: &usize| {
        let stands = view.get(TASK_PLACE, *task) == Place::GiveStrip.number() as u64;
        stands && view.get(TASK_UNIT, *task) == unit_of(place)
    };
    let tasks: Vec<usize> = (0..pool::TASKS).filter(gives).collect();
    match tasks.as_slice() {
        [task] => Ok(*task),
        _ => Err(format!("the free of slot {place} has begun, by tasks {tasks:?}")),
    }
}

/// All free pieces and strips, by place.
pub fn read(view: &View) -> Result<Vec<Piece>, String> {
    let mut pieces = Vec::new();
    for word in 0..FREE_NODES.fields {
        let bits = view.get(FREE_NODES, word);
        for node in (0..64).filter(|bit| bits >> bit & 1 == 1).map(|bit| 64 * word + bit) {
            let (place, order) = stretch_of(node);
            pieces.push(Piece { place, order, state: State::Free });
        }
    }
    for place in 0..SLOTS {
        let byte = view.get(SLOT_BYTES, place);
        let state = match strip(byte) {
            None if byte == 0 => continue,
            None => return Err(format!("slot {place} has {byte}")),
            Some((_, true)) => State::Begun(freed_by(view, place)?),
            Some(_) => State::Held,
        };
        let order = strip(byte).map_or(0, |(order, _)| order);
        pieces.push(Piece { place, order, state });
    }
    pieces.sort_by_key(|piece| piece.place);
    Ok(pieces)
}

/// "each unit of that area is in exactly one strip or free piece, and both are compared": the pieces in order, each
/// with its order, its state and the task that frees it.
pub fn agree(pool: &Pool, memory: &[Piece]) -> Result<(), String> {
    let plain = &pool.strips.pieces;
    match (0..plain.len().max(memory.len())).find(|&index| plain.get(index) != memory.get(index)) {
        Some(index) => Err(format!("piece {index}: {:?} in the plain pool, {:?}", plain.get(index), memory.get(index))),
        None => Ok(()),
    }
}

/// Each slot is in exactly one strip or free piece, and a piece lies at a multiple of its own length.
pub fn once(memory: &[Piece]) -> Result<(), String> {
    let mut owners = [0; SLOTS];
    for piece in memory {
        if piece.place % piece.slots() != 0 || piece.place + piece.slots() > SLOTS {
            return Err(format!("{piece:?} is not aligned"));
        }
        owners[piece.place..piece.place + piece.slots()].iter_mut().for_each(|owners| *owners += 1);
    }
    match owners.iter().position(|&owners| owners != 1) {
        Some(slot) => Err(format!("slot {slot} is in {} pieces", owners[slot])),
        None => Ok(()),
    }
}

/// "Freed halves join whenever both are free": no two free pieces of one order are the halves of a larger one.
pub fn joined(memory: &[Piece]) -> Result<(), String> {
    let halves = |pair: &&[Piece]| {
        let (one, other) = (pair[0], pair[1]);
        let both = one.state == State::Free && other.state == State::Free && one.order == other.order;
        both && one.place % (2 * one.slots()) == 0
    };
    match memory.windows(2).find(halves) {
        Some(pair) => Err(format!("both halves are free: {pair:?}")),
        None => Ok(()),
    }
}

/// What each task asks for: the order of a strip to take, the unit of one to give.
pub fn requests(pool: &Pool, view: &View) -> Result<(), String> {
    for (task, plain) in pool.tasks.iter().enumerate() {
        let (due, memory) = match plain.place {
            Place::TakeStrip => (plain.order as u64, view.get(TASK_CLASS, task)),
            Place::GiveStrip => (plain.unit, view.get(TASK_UNIT, task)),
            _ => continue,
        };
        if due != memory {
            return Err(format!("task {task} at {:?}: {due} in the plain pool, {memory} in the memory", plain.place));
        }
    }
    Ok(())
}
