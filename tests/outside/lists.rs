//! The lists of the plain pool and the moves on them.
//!
//! "each list as a row from the top, with the number of its won exchanges since the start, never wrapping".

use crate::classes::CLASSES;
use crate::faults::Fault;
use crate::pool::{Event, Place, Pool, Under};
use std::collections::VecDeque;

/// The partial descriptors of each class come first, by the class's number.
pub const SPARE_DESCRIPTORS: usize = CLASSES;
pub const SPARE_REGIONS: usize = SPARE_DESCRIPTORS + 1;
pub const LISTS: usize = SPARE_REGIONS + 1;

#[derive(Clone, Default, Debug)]
pub struct List {
    /// The items, the top first.
    pub row: VecDeque<usize>,
    pub won: u128,
}

/// What a head read notes. The top is noted for the counts and the deliberate faults; the paper's pool notes the
/// number alone.
#[derive(Clone, Copy, Default, Debug)]
pub struct HeadNote {
    won: u128,
    top: Option<usize>,
}

/// The seven moves on lists, in the order of the step list's places.
#[derive(Clone, Copy, PartialEq, Eq, Debug)]
pub enum Move {
    PopPartial,
    PopDescriptor,
    PopRegion,
    PushEmpty,
    PushBack,
    PushRegion,
    PushPartial,
}

pub const MOVES: [Move; 7] = [
    Move::PopPartial,
    Move::PopDescriptor,
    Move::PopRegion,
    Move::PushEmpty,
    Move::PushBack,
    Move::PushRegion,
    Move::PushPartial,
];

/// "Pop of a list: read head (this finds an empty list); read the item's next; exchange." "Push: read head; write the
/// item's next; exchange."
#[derive(Clone, Copy, PartialEq, Eq, Debug)]
pub enum Phase {
    Head,
    Next,
    Exchange,
}

impl Move {
    pub fn is_pop(self) -> bool {
        matches!(self, Move::PopPartial | Move::PopDescriptor | Move::PopRegion)
    }
}

impl Pool {
    /// The list that a task's move is about.
    fn list_of(&self, task: usize, what: Move) -> usize {
        match what {
            Move::PopPartial => self.tasks[task].class,
            Move::PushPartial => self.descriptors[self.tasks[task].descriptor].class,
            Move::PopDescriptor | Move::PushEmpty | Move::PushBack => SPARE_DESCRIPTORS,
            Move::PopRegion | Move::PushRegion => SPARE_REGIONS,
        }
    }

    /// "A head read notes the list's number of won exchanges, whether or not the row is empty; a pop that reads an
    /// empty row finds it empty."
    pub fn read_head(&mut self, task: usize, what: Move) -> (u64, u64) {
        let list = &self.lists[self.list_of(task, what)];
        self.tasks[task].head = HeadNote { won: list.won, top: list.row.front().copied() };
        if what.is_pop() && list.row.is_empty() {
            self.event = Event::FoundEmpty;
            return self.found_empty(task, what);
        }
        self.go(task, Place::List(what, Phase::Next))
    }

    /// "Reading or writing a next or the last link changes nothing."
    pub fn pass_next(&mut self, task: usize, what: Move) -> (u64, u64) {
        self.go(task, Place::List(what, Phase::Exchange))
    }

    /// "The exchange is won exactly if the number is still the one noted; a won one takes or puts the top item and
    /// adds one." "A lost exchange goes back to the head read."
    pub fn exchange_head(&mut self, task: usize, what: Move) -> (u64, u64) {
        let index = self.list_of(task, what);
        if !self.head_as_noted(task, index) {
            let same = self.same_item_again(task, what);
            self.event = if same { Event::LostSameTop } else { Event::Lost };
            return self.go(task, Place::List(what, Phase::Head));
        }
        self.event = Event::Won;
        let item = self.item_to_put(task, what);
        let list = &mut self.lists[index];
        list.won += 1;
        if what.is_pop() {
            let item = list.row.pop_front().expect("a row of the noted number is not empty");
            return self.popped(task, what, item);
        }
        list.row.push_front(item);
        if self.fault == Fault::TagAtPopsOnly {
            self.lists[index].won -= 1;
        }
        self.pushed(task, what)
    }

    /// Whether the list moved since the task read its head, and the item that it read is on top again.
    pub fn same_item_again(&self, task: usize, what: Move) -> bool {
        let list = &self.lists[self.list_of(task, what)];
        let note = &self.tasks[task].head;
        list.won != note.won && list.row.front().copied() == note.top
    }

    fn head_as_noted(&self, task: usize, index: usize) -> bool {
        let list = &self.lists[index];
        let note = &self.tasks[task].head;
        match self.fault {
            Fault::TagIgnored => list.row.front().copied() == note.top,
            Fault::LostGoesOn => !list.row.is_empty() || list.won == note.won,
            Fault::LeaveLostGoesOn if self.tasks[task].leaving => true,
            Fault::TagAtPopsOnly => list.won == note.won && list.row.front().copied() == note.top,
            _ => list.won == note.won,
        }
    }

    fn item_to_put(&self, task: usize, what: Move) -> usize {
        match what {
            Move::PushRegion => self.tasks[task].region,
            _ => self.tasks[task].descriptor,
        }
    }

    /// What follows the read by which a pop finds its list empty: allocate 2 goes to 5; allocate 5, "Empty: end with
    /// 12"; allocate 6, "Empty: push the descriptor back".
    fn found_empty(&mut self, task: usize, what: Move) -> (u64, u64) {
        match what {
            Move::PopPartial => self.go(task, Place::List(Move::PopDescriptor, Phase::Head)),
            Move::PopDescriptor if self.fault == Fault::NoDescriptorAsRegion => self.end(task, 13),
            Move::PopDescriptor => self.end(task, 12),
            _ if self.fault == Fault::NoRegionAtOnce => {
                let descriptor = self.tasks[task].descriptor;
                self.lists[SPARE_DESCRIPTORS].row.push_front(descriptor);
                self.lists[SPARE_DESCRIPTORS].won += 1;
                self.end(task, 13)
            }
            _ if self.fault == Fault::DescriptorLost => self.end(task, 13),
            _ => self.go(task, Place::List(Move::PushBack, Phase::Head)),
        }
    }

    /// What follows the won exchange of a pop.
    fn popped(&mut self, task: usize, what: Move, item: usize) -> (u64, u64) {
        match what {
            Move::PopPartial => {
                self.tasks[task].descriptor = item;
                self.go(task, Place::ReadAnchor)
            }
            Move::PopDescriptor => {
                self.tasks[task].descriptor = item;
                if self.fault == Fault::NoRegionUnread && self.lists[SPARE_REGIONS].row.is_empty() {
                    return self.go(task, Place::List(Move::PushBack, Phase::Head));
                }
                self.go(task, Place::List(Move::PopRegion, Phase::Head))
            }
            _ => {
                self.tasks[task].region = item;
                self.go(task, Place::WriteDescriptor)
            }
        }
    }

    /// What follows the won exchange of a push.
    fn pushed(&mut self, task: usize, what: Move) -> (u64, u64) {
        match what {
            // Allocate 3: "EMPTY: push the descriptor on the spare list, then 2."
            Move::PushEmpty => self.go(task, Place::List(Move::PopPartial, Phase::Head)),
            // Allocate 6: "the request ends with 13 at that won exchange."
            Move::PushBack => self.end(task, 13),
            Move::PushRegion if self.fault == Fault::MapAfter => self.go(task, Place::ClearMap),
            Move::PushRegion => self.after_release(task),
            _ => self.after_return(task),
        }
    }

    /// Free 5: "If it was FULL: push the descriptor on the partial list."
    pub fn after_release(&mut self, task: usize) -> (u64, u64) {
        let emptied = self.tasks[task].emptied;
        let skip = match self.fault {
            Fault::FullEmptyOffList | Fault::TakenBack => emptied,
            Fault::LeaveOffList => self.tasks[task].leaving,
            _ => false,
        };
        if self.tasks[task].was_full && !skip {
            return self.go(task, Place::List(Move::PushPartial, Phase::Head));
        }
        self.after_return(task)
    }

    /// Free 6: "Cache not empty: 2. Else 1." Leaving goes on with its other caches instead of 1.
    fn after_return(&mut self, task: usize) -> (u64, u64) {
        let class = self.tasks[task].class;
        self.tasks[task].under = Under::Nothing;
        if self.returns_more(task, class) {
            return self.go(task, Place::Group);
        }
        match self.tasks[task].leaving || self.fault == Fault::FreeLeaves {
            true => self.leave_after(task, class),
            false => self.go(task, Place::FreeCache),
        }
    }
}
