//! The plain pool of the paper: "The whole run is this plain pool, without links or head words. It is fed only each
//! call's numbers and the lengths lent."

use crate::classes::{CLASSES, REGION, UNITS_PER_REGION};
use crate::faults::Fault;
use crate::lists::{HeadNote, List, LISTS, SPARE_DESCRIPTORS, SPARE_REGIONS};
pub use crate::places::{Place, PLACES};
use crate::strips::{Strips, FIRST_UNIT, LEAST_SIZE};
use std::collections::VecDeque;

pub const CONTROL: u64 = 8192;
pub const TASKS: usize = 8;
pub const DESCRIPTORS: usize = 64;
pub const REGIONS: usize = 16;
pub const ALL_UNITS: usize = 8192;

/// Code and value.
pub type Answer = (u64, u64);

#[derive(Clone, Copy, PartialEq, Eq, Debug)]
pub enum State {
    Empty,
    Partial,
    Full,
}

/// "each descriptor's state, region, class and chain, a row of blocks". A block of a chain is its index in the region.
#[derive(Clone, Debug)]
pub struct Descriptor {
    pub state: State,
    pub region: usize,
    pub class: usize,
    pub chain: VecDeque<u64>,
    /// How often the anchor was written, for the counts of what was covered and for one deliberate fault.
    pub changes: u64,
}

/// "An anchor read notes the state and the chain's first block, if any, and length."
#[derive(Clone, Copy, PartialEq, Eq, Debug)]
pub struct AnchorNote {
    pub state: State,
    pub first: Option<u64>,
    pub length: usize,
}

/// What a task has under way, in blocks of the region that it has in hand.
#[derive(Clone, PartialEq, Eq, Debug)]
pub enum Under {
    Nothing,
    Chain(VecDeque<u64>),
    Carving(u64),
    Group(VecDeque<u64>),
}

/// "each task's request, place in the step list, what it noted and what it has under way".
#[derive(Clone, Debug)]
pub struct Task {
    pub place: Place,
    pub class: usize,
    /// The order of the strip that is asked for.
    pub order: usize,
    /// The block or strip that a free gives back.
    pub unit: u64,
    /// Whether the request is leaving, which has no block of its own.
    pub leaving: bool,
    pub head: HeadNote,
    pub anchor: AnchorNote,
    pub changes: u64,
    pub descriptor: usize,
    pub region: usize,
    pub under: Under,
    pub was_full: bool,
    pub emptied: bool,
}

/// What a step decided, for the counts of what was covered.
#[derive(Clone, Copy, PartialEq, Eq, Debug)]
pub enum Event {
    None,
    Won,
    Lost,
    /// Lost though the item that was read is on top again, or the block that was read is the chain's first again.
    LostSameTop,
    FoundEmpty,
    AnchorEmpty,
    /// The anchor's state before and after, and whether it had changed since it was read and come back.
    Returned(State, State, bool),
    /// A strip of this order, how often a piece was halved for it, and whether the free of another had begun.
    StripTaken {
        order: usize,
        halvings: usize,
        meanwhile: bool,
    },
    NoStrip {
        order: usize,
        meanwhile: bool,
    },
    /// How often it was joined.
    StripGiven {
        order: usize,
        joins: usize,
    },
}

#[derive(Clone)]
pub struct Pool {
    /// "It keeps the started number of tasks and area length"; 0 tasks while the pool is not started.
    pub started_tasks: u64,
    pub area_length: u64,
    pub lists: Vec<List>,
    pub descriptors: Vec<Descriptor>,
    pub map: Vec<Option<usize>>,
    /// The cache of each task and class, a row of units with the top last.
    pub caches: Vec<Vec<Vec<u64>>>,
    /// "the blocks in users' hands": by first unit.
    pub marks: Vec<bool>,
    pub strips: Strips,
    pub tasks: Vec<Task>,
    pub event: Event,
    pub fault: Fault,
}

/// One call: its numbers and the lengths lent.
#[derive(Clone, Copy, PartialEq, Eq, Debug)]
pub enum Request {
    Start { tasks: u64 },
    Allocate { task: u64, size: u64 },
    Free { task: u64, unit: u64 },
    Leave { task: u64 },
    Step { task: u64 },
}

#[derive(Clone, Copy, PartialEq, Eq, Debug)]
pub struct Call {
    pub control: u64,
    pub area: u64,
    pub strips: u64,
    pub request: Request,
}

impl Pool {
    /// A pool that is not started.
    pub fn new(fault: Fault) -> Pool {
        let anchor = AnchorNote { state: State::Empty, first: None, length: 0 };
        let task = Task {
            place: Place::Idle,
            class: 0,
            order: 0,
            unit: 0,
            leaving: false,
            head: HeadNote::default(),
            anchor,
            changes: 0,
            descriptor: 0,
            region: 0,
            under: Under::Nothing,
            was_full: false,
            emptied: false,
        };
        let descriptor = Descriptor { state: State::Empty, region: 0, class: 0, chain: VecDeque::new(), changes: 0 };
        Pool {
            started_tasks: 0,
            area_length: 0,
            lists: vec![List::default(); LISTS],
            descriptors: vec![descriptor; DESCRIPTORS],
            map: vec![None; REGIONS],
            caches: vec![vec![Vec::new(); CLASSES]; TASKS],
            marks: vec![false; ALL_UNITS],
            strips: Strips::new(),
            tasks: vec![task; TASKS],
            event: Event::None,
            fault,
        }
    }

    /// "a call that the tests below refuse changes nothing".
    pub fn call(&mut self, call: &Call) -> Answer {
        self.event = Event::None;
        let refusal = self.refusal(call);
        if refusal != 0 {
            return (refusal, 0);
        }
        match call.request {
            Request::Start { tasks } => self.start(tasks, call.area),
            Request::Allocate { task, size } => self.begin_allocate(task as usize, size),
            Request::Free { task, unit } => self.begin_free(task as usize, unit),
            Request::Leave { task } => self.begin_leave(task as usize),
            Request::Step { task } => self.step(task as usize),
        }
    }

    /// "A start may come at any time and begins a new run: tasks idle, caches and partial lists empty, tags 0, marks
    /// clear, map entries none, both spare lists rising from item 0 on top."
    fn start(&mut self, tasks: u64, area_length: u64) -> Answer {
        let earlier = std::mem::replace(self, Pool::new(self.fault));
        self.started_tasks = tasks;
        self.area_length = area_length;
        self.lists[SPARE_DESCRIPTORS].row = (0..DESCRIPTORS).collect();
        self.lists[SPARE_REGIONS].row = (0..(area_length / REGION) as usize).collect();
        match self.fault {
            Fault::StartKeepsMarks => self.marks = earlier.marks,
            Fault::StartKeepsTasks => self.tasks = earlier.tasks,
            Fault::StartKeepsStrips => self.strips = earlier.strips,
            _ => (),
        }
        (0, 0)
    }

    /// "Beginning a request does no step."
    fn begin_allocate(&mut self, task: usize, size: u64) -> Answer {
        if size >= LEAST_SIZE {
            return self.begin_take(task, size);
        }
        self.tasks[task].leaving = false;
        self.tasks[task].class = self.class_of(size);
        self.go(task, Place::AllocateCache)
    }

    /// "Beginning a free clears the block's mark; any task may free."
    fn begin_free(&mut self, task: usize, unit: u64) -> Answer {
        if unit >= FIRST_UNIT {
            return self.begin_give(task, unit);
        }
        let region = (unit / UNITS_PER_REGION) as usize;
        let descriptor = self.map[region].expect("the region is open");
        self.tasks[task].class = self.descriptors[descriptor].class;
        self.tasks[task].unit = unit;
        self.tasks[task].leaving = false;
        self.marks[unit as usize] = self.fault == Fault::MarkNotCleared;
        self.go(task, Place::FreeCache)
    }

    /// "A region is open while that descriptor names it back and its anchor is not EMPTY." Answers its descriptor.
    pub fn open(&self, region: usize) -> Option<usize> {
        self.map[region].filter(|&index| {
            let descriptor = &self.descriptors[index];
            let named_back = descriptor.region == region || self.fault == Fault::NotNamedBack;
            named_back && descriptor.state != State::Empty
        })
    }

    /// The class of the block of an open region that starts at this unit, if there is one.
    pub fn block_at(&self, unit: u64) -> Option<usize> {
        if unit >= self.area_length / 8 {
            return None;
        }
        let descriptor = self.open((unit / UNITS_PER_REGION) as usize)?;
        let class = self.descriptors[descriptor].class;
        let offset = unit % UNITS_PER_REGION;
        let starts = offset % self.units(class) == 0 && offset / self.units(class) < self.per_region(class);
        starts.then_some(class)
    }

    pub fn go(&mut self, task: usize, place: Place) -> Answer {
        self.tasks[task].place = place;
        (0, 0)
    }

    /// A request's end: "with value 0, make the change of their step and leave the task idle".
    pub fn end(&mut self, task: usize, code: u64) -> Answer {
        self.tasks[task].place = Place::Idle;
        (code, 0)
    }

    /// "Code 0 is accepted or still under way, 20 finished; the value is the unit of a finished allocation, else 0."
    pub fn finish(&mut self, task: usize, value: u64) -> Answer {
        self.tasks[task].place = Place::Idle;
        (20, value)
    }
}
