//! The strips of the plain pool: a row of pieces from place 0 up, halved and joined by looking through the row.
//!
//! "A second lent area of 65,536 bytes holds them, as a buddy system". "A size is rounded up to a power of two, at
//! least 512." A slot is 512 bytes; a piece of order k has 2^k slots and lies at a multiple of its own length.

use crate::faults::Fault;
use crate::pool::{Answer, Event, Place, Pool};

/// "a second area of another length is 2".
pub const STRIPS: u64 = 65_536;
/// The smallest strip, and how many of it there are.
pub const SLOT: u64 = 512;
pub const SLOTS: usize = (STRIPS / SLOT) as usize;
/// The orders go from 0, one slot, to that of the whole.
pub const WHOLE: usize = 7;
pub const ORDERS: usize = WHOLE + 1;
/// "Its units run from 8,192 to 16,383."
pub const FIRST_UNIT: u64 = 8192;
pub const LAST_UNIT: u64 = 16_383;
pub const UNITS_PER_SLOT: u64 = SLOT / 8;
/// "The printer wants blocks of 257 to 65,536 bytes."
pub const LEAST_SIZE: u64 = 257;

/// What a piece is: free, a strip in a user's hands, or a strip whose free this task has begun.
#[derive(Clone, Copy, PartialEq, Eq, Debug)]
pub enum State {
    Free,
    Held,
    Begun(usize),
}

/// A piece: its first slot, its order and its state.
#[derive(Clone, Copy, PartialEq, Eq, Debug)]
pub struct Piece {
    pub place: usize,
    pub order: usize,
    pub state: State,
}

impl Piece {
    pub fn slots(&self) -> usize {
        1 << self.order
    }
}

/// The pieces in the order of their places. Together they are the whole memory.
#[derive(Clone, PartialEq, Eq, Debug)]
pub struct Strips {
    pub pieces: Vec<Piece>,
}

/// The order of the smallest strip that holds the size.
pub fn order_of(size: u64) -> usize {
    (0..ORDERS).find(|&order| SLOT << order >= size).expect("a size up to 65,536")
}

/// The unit by which a strip is named.
pub fn unit_of(place: usize) -> u64 {
    FIRST_UNIT + UNITS_PER_SLOT * place as u64
}

impl Strips {
    /// "A start leaves it one free piece."
    pub fn new() -> Strips {
        Strips { pieces: vec![Piece { place: 0, order: WHOLE, state: State::Free }] }
    }

    /// The piece that begins at this unit.
    pub fn at(&self, unit: u64) -> Option<&Piece> {
        self.pieces.iter().find(|piece| unit_of(piece.place) == unit)
    }

    /// The piece that a request of this order takes: "starting from the smallest sufficient piece, at the lowest place
    /// among equals".
    fn sufficient(&self, order: usize, fault: Fault) -> Option<usize> {
        let fits = |index: &usize| self.pieces[*index].state == State::Free && self.pieces[*index].order >= order;
        let all = (0..self.pieces.len()).filter(fits);
        match fault {
            Fault::StripHighest => all.min_by_key(|&index| (self.pieces[index].order, SLOTS - index)),
            Fault::StripLargest => all.max_by_key(|&index| (self.pieces[index].order, SLOTS - index)),
            Fault::StripLowest => all.min_by_key(|&index| index),
            _ => all.min_by_key(|&index| (self.pieces[index].order, index)),
        }
    }

    /// "A free piece is halved again and again until it fits, lower half first". Answers the strip's place and how
    /// often the piece was halved.
    fn take(&mut self, order: usize, fault: Fault) -> Option<(usize, usize)> {
        let mut index = self.sufficient(order, fault)?;
        let halvings = self.pieces[index].order - order;
        for _ in 0..halvings {
            self.pieces[index].order -= 1;
            let half = self.pieces[index];
            self.pieces.insert(index + 1, Piece { place: half.place + half.slots(), ..half });
            index += usize::from(fault == Fault::StripUpperFirst);
        }
        self.pieces[index].state = State::Held;
        Some((self.pieces[index].place, halvings))
    }

    /// The free piece that makes a larger one together with this one, which is free.
    fn other_half(&self, index: usize, fault: Fault) -> Option<usize> {
        let piece = self.pieces[index];
        let lower = piece.place % (2 * piece.slots()) == 0;
        let same = |other: &usize| {
            let other = self.pieces[*other];
            other.state == State::Free && other.order == piece.order
        };
        let behind = Some(index + 1).filter(|&other| other < self.pieces.len() && same(&other));
        let before = index.checked_sub(1).filter(same);
        match fault {
            Fault::StripAnyNeighbour => behind.or(before),
            _ if lower => behind,
            _ => before,
        }
    }

    /// "Freed halves join whenever both are free." Answers how often they did.
    fn give(&mut self, place: usize, fault: Fault) -> usize {
        let mut index = self.pieces.iter().position(|piece| piece.place == place).expect("a strip begins there");
        self.pieces[index].state = State::Free;
        let most = match fault {
            Fault::StripNotJoined => 0,
            Fault::StripJoinedOnce => 1,
            _ => WHOLE,
        };
        for joins in 0..most {
            let Some(other) = self.other_half(index, fault) else { return joins };
            index = index.min(other);
            self.pieces.remove(index + 1);
            self.pieces[index].order += 1;
        }
        most
    }
}

impl Pool {
    /// The order that a size is rounded up to.
    fn strip_order(&self, size: u64) -> usize {
        let exact = size.is_power_of_two() && size < STRIPS;
        order_of(size) + usize::from(self.fault == Fault::StripDoubled && exact)
    }

    pub fn begin_take(&mut self, task: usize, size: u64) -> Answer {
        self.tasks[task].leaving = false;
        self.tasks[task].order = self.strip_order(size);
        self.go(task, Place::TakeStrip)
    }

    /// From here on the strip is out of its user's hands, and no free piece before the step.
    pub fn begin_give(&mut self, task: usize, unit: u64) -> Answer {
        let place = ((unit - FIRST_UNIT) / UNITS_PER_SLOT) as usize;
        if self.fault == Fault::StripFreeAtOnce {
            self.strips.give(place, self.fault);
        } else if let Some(piece) = self.strips.pieces.iter_mut().find(|piece| piece.place == place) {
            piece.state = State::Begun(task);
        }
        self.tasks[task].unit = unit;
        self.tasks[task].leaving = false;
        self.go(task, Place::GiveStrip)
    }

    /// "Such a request, to take or to free, finishes, or ends with 16, in its first step, which is one move of the
    /// whole run."
    pub fn take_strip(&mut self, task: usize) -> Answer {
        let order = self.tasks[task].order;
        let meanwhile = self.strips.pieces.iter().any(|piece| matches!(piece.state, State::Begun(_)));
        let Some((place, halvings)) = self.strips.take(order, self.fault) else {
            self.event = Event::NoStrip { order, meanwhile };
            return match self.fault {
                Fault::SixteenAsThirteen => self.end(task, 13),
                Fault::SixteenKeeps => (16, 0),
                _ => self.end(task, 16),
            };
        };
        self.event = Event::StripTaken { order, halvings, meanwhile };
        self.finish(task, unit_of(place))
    }

    pub fn give_strip(&mut self, task: usize) -> Answer {
        let place = ((self.tasks[task].unit - FIRST_UNIT) / UNITS_PER_SLOT) as usize;
        let order = self.strips.at(self.tasks[task].unit).map_or(0, |piece| piece.order);
        if self.fault != Fault::StripFreeAtOnce {
            let joins = self.strips.give(place, self.fault);
            self.event = Event::StripGiven { order, joins };
        }
        self.finish(task, 0)
    }

    /// "A unit from 8,192 where no strip starts is 10, and one whose free has begun is 11."
    pub fn strip_refusal(&self, unit: u64) -> u64 {
        let begun = if self.fault == Fault::StripBegunIsNone { 10 } else { 11 };
        match self.strips.at(unit).map(|piece| piece.state) {
            Some(State::Held) => 0,
            Some(State::Begun(_)) => begun,
            Some(State::Free) if self.fault == Fault::StripFreeIsBegun => 11,
            _ => 10,
        }
    }
}
