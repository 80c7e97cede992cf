//! The steps of the plain pool outside the moves on lists: "After that one call is one step of one task; a branch on
//! what was read is no step."

use crate::classes::UNITS_PER_REGION;
use crate::faults::Fault;
use crate::lists::{Move, Phase, SPARE_DESCRIPTORS};
use crate::pool::{AnchorNote, Answer, Event, Place, Pool, State, Under};
use std::collections::VecDeque;

impl Pool {
    pub fn step(&mut self, task: usize) -> Answer {
        match self.tasks[task].place {
            Place::Idle => unreachable!("refused by 7"),
            Place::AllocateCache => self.allocate_from_cache(task),
            Place::List(what, Phase::Head) => self.read_head(task, what),
            Place::List(what, Phase::Next) => self.pass_next(task, what),
            Place::List(what, Phase::Exchange) => self.exchange_head(task, what),
            Place::ReadAnchor => self.read_anchor(task),
            Place::TakeChain => self.take_chain(task),
            Place::MoveChain => self.move_chain(task),
            Place::WriteDescriptor => self.write_descriptor(task),
            Place::Carve => self.carve(task),
            Place::FreeCache => self.free_to_cache(task),
            Place::Group => self.gather(task),
            Place::ReadAnchorToReturn => self.read_anchor_to_return(task),
            Place::LastLink => self.go(task, Place::ReturnGroup),
            Place::ReturnGroup => self.return_group(task),
            Place::ClearMap => self.clear_map(task),
            Place::TakeStrip => self.take_strip(task),
            Place::GiveStrip => self.give_strip(task),
            Place::Leave => self.finish_leaving(task),
        }
    }

    /// Allocate 1: "If the cache has a block, take the top, set its mark and finish. Else go on."
    fn allocate_from_cache(&mut self, task: usize) -> Answer {
        let class = self.tasks[task].class;
        let cache = &mut self.caches[task][class];
        let taken = match self.fault {
            Fault::CacheOldest if !cache.is_empty() => Some(cache.remove(0)),
            _ => cache.pop(),
        };
        match taken {
            Some(unit) => {
                self.marks[unit as usize] = self.fault != Fault::MarkNotSet;
                self.finish(task, if self.fault == Fault::Always480 { 480 } else { unit })
            }
            None if self.fault == Fault::FirstStepFree => self.read_head(task, Move::PopPartial),
            None => self.go(task, Place::List(Move::PopPartial, Phase::Head)),
        }
    }

    /// The unit of a block of the region that the task has in hand.
    fn unit_of(&self, task: usize, index: u64) -> u64 {
        self.tasks[task].region as u64 * UNITS_PER_REGION + index * self.units(self.tasks[task].class)
    }

    fn cache_block(&mut self, task: usize, index: u64) {
        let unit = self.unit_of(task, index);
        self.caches[task][self.tasks[task].class].push(unit);
    }

    fn note_of(&self, descriptor: usize) -> AnchorNote {
        let descriptor = &self.descriptors[descriptor];
        let chain = &descriptor.chain;
        AnchorNote { state: descriptor.state, first: chain.front().copied(), length: chain.len() }
    }

    fn note_anchor(&mut self, task: usize) {
        let descriptor = self.tasks[task].descriptor;
        self.tasks[task].anchor = self.note_of(descriptor);
        self.tasks[task].changes = self.descriptors[descriptor].changes;
    }

    /// "The exchange is won exactly if all three are as noted."
    fn anchor_as_noted(&self, task: usize, descriptor: usize) -> bool {
        let now = self.note_of(descriptor);
        match self.fault {
            Fault::AnchorFirstOnly => now.first == self.tasks[task].anchor.first,
            Fault::AnchorLostGoesOn => true,
            Fault::LeaveLostGoesOn if self.tasks[task].leaving => true,
            Fault::AnchorTagged => self.descriptors[descriptor].changes == self.tasks[task].changes,
            _ => now == self.tasks[task].anchor,
        }
    }

    /// Allocate 3: "Read the anchor. EMPTY: push the descriptor on the spare list, then 2."
    fn read_anchor(&mut self, task: usize) -> Answer {
        self.note_anchor(task);
        let empty = self.tasks[task].anchor.state == State::Empty;
        if empty && self.fault != Fault::EmptyTaken {
            self.event = Event::AnchorEmpty;
            let next = if self.fault == Fault::EmptyDropped { Move::PopPartial } else { Move::PushEmpty };
            return self.go(task, Place::List(next, Phase::Head));
        }
        self.go(task, Place::TakeChain)
    }

    /// Allocate 3: "Else exchange it for (FULL, n, 0); lost: read again." "Allocate then takes the whole chain and
    /// leaves FULL with none".
    fn take_chain(&mut self, task: usize) -> Answer {
        let index = self.tasks[task].descriptor;
        if !self.anchor_as_noted(task, index) {
            self.event = Event::Lost;
            return self.go(task, Place::ReadAnchor);
        }
        self.event = Event::Won;
        let descriptor = &mut self.descriptors[index];
        let chain = std::mem::take(&mut descriptor.chain);
        descriptor.state = State::Full;
        descriptor.changes += 1;
        if self.fault == Fault::ChainNotTaken {
            descriptor.chain = chain.clone();
            descriptor.state = State::Partial;
        }
        self.tasks[task].region = self.descriptors[index].region;
        self.tasks[task].under = Under::Chain(chain);
        self.go(task, Place::MoveChain)
    }

    /// Allocate 4: "Move the taken chain to the cache, one block a step in chain order; after the last, 1."
    fn move_chain(&mut self, task: usize) -> Answer {
        let reversed = self.fault == Fault::ChainReversed;
        let Under::Chain(chain) = &mut self.tasks[task].under else { unreachable!("a chain is under way") };
        let taken = if reversed { chain.pop_back() } else { chain.pop_front() };
        let more = !chain.is_empty();
        if let Some(index) = taken {
            self.cache_block(task, index);
        }
        if more {
            return (0, 0);
        }
        self.tasks[task].under = Under::Nothing;
        self.go(task, Place::AllocateCache)
    }

    /// Allocate 7: "One step writes the descriptor (FULL, n, 0) and the map."
    fn write_descriptor(&mut self, task: usize) -> Answer {
        let (region, class) = (self.tasks[task].region, self.tasks[task].class);
        let descriptor = &mut self.descriptors[self.tasks[task].descriptor];
        descriptor.state = State::Full;
        descriptor.region = region;
        descriptor.class = class;
        descriptor.chain.clear();
        descriptor.changes += 1;
        self.map[region] = Some(self.tasks[task].descriptor);
        self.tasks[task].under = Under::Carving(0);
        self.go(task, Place::Carve)
    }

    /// Allocate 8: "Put blocks 0 to n − 1 on the cache, one a step; then 1."
    fn carve(&mut self, task: usize) -> Answer {
        let Under::Carving(index) = self.tasks[task].under else { unreachable!("a region is being carved") };
        let blocks = self.per_region(self.tasks[task].class);
        let block = if self.fault == Fault::CarvedDown { blocks - 1 - index } else { index };
        self.cache_block(task, block);
        let due = if self.fault == Fault::CarvedShort { blocks - 1 } else { blocks };
        if index + 1 < due {
            self.tasks[task].under = Under::Carving(index + 1);
            return (0, 0);
        }
        self.tasks[task].under = Under::Nothing;
        self.go(task, Place::AllocateCache)
    }

    /// Free 1: "If the cache holds fewer than n, push the block and finish. Else go on."
    fn free_to_cache(&mut self, task: usize) -> Answer {
        let (class, unit) = (self.tasks[task].class, self.tasks[task].unit);
        let limit = self.per_region(class) as usize + usize::from(self.fault == Fault::CacheOver);
        if self.caches[task][class].len() < limit {
            self.caches[task][class].push(unit);
            self.marks[unit as usize] = false;
            return self.finish(task, 0);
        }
        self.tasks[task].under = Under::Nothing;
        self.go(task, Place::Group)
    }

    /// Free 2: "A step takes the cache's top into the group, if the group is empty or the top is of the same region.
    /// Otherwise, or with the cache empty, that step closes the group. A taken block is linked behind the last."
    fn gather(&mut self, task: usize) -> Answer {
        let (class, owner) = (self.tasks[task].class, self.owner_of_caches(task));
        let top = self.caches[owner][class].last().copied();
        let mut group = match std::mem::replace(&mut self.tasks[task].under, Under::Nothing) {
            Under::Group(group) => group,
            _ => VecDeque::new(),
        };
        let of_group = |unit: u64| (unit / UNITS_PER_REGION) as usize == self.tasks[task].region;
        let single = self.fault == Fault::GroupOfOne;
        let joins = top.filter(|&unit| group.is_empty() || (of_group(unit) && !single));
        let Some(unit) = joins else {
            if group.is_empty() {
                return self.leave_after(task, class);
            }
            self.tasks[task].under = Under::Group(group);
            return self.go(task, Place::ReadAnchorToReturn);
        };
        self.tasks[task].region = (unit / UNITS_PER_REGION) as usize;
        self.caches[owner][class].pop();
        group.push_back(unit % UNITS_PER_REGION / self.units(class));
        self.tasks[task].under = Under::Group(group);
        if self.caches[owner][class].is_empty() && self.fault == Fault::ClosingFree {
            return self.go(task, Place::ReadAnchorToReturn);
        }
        (0, 0)
    }

    /// Free 3: "Read the anchor." It is that of the descriptor that the map names for the group's region.
    fn read_anchor_to_return(&mut self, task: usize) -> Answer {
        let descriptor = self.map[self.tasks[task].region].expect("a region with a block outside its chain is open");
        self.tasks[task].descriptor = descriptor;
        self.note_anchor(task);
        self.go(task, Place::LastLink)
    }

    /// Free 3: "Exchange: avail is the group's first, count grows by the group, state is EMPTY if count is now n, else
    /// PARTIAL. Lost: read again." "free puts the group, in its order, before the chain".
    fn return_group(&mut self, task: usize) -> Answer {
        let index = self.tasks[task].descriptor;
        if !self.anchor_as_noted(task, index) {
            let now = self.note_of(index);
            let same = now.first.is_some() && now.first == self.tasks[task].anchor.first;
            self.event = if same { Event::LostSameTop } else { Event::Lost };
            return self.go(task, Place::ReadAnchorToReturn);
        }
        let Under::Group(group) = std::mem::replace(&mut self.tasks[task].under, Under::Nothing) else {
            unreachable!("a group is under way")
        };
        let was = self.descriptors[index].state;
        let came_back = self.descriptors[index].changes != self.tasks[task].changes;
        self.join(index, group);
        let now = self.descriptors[index].state;
        self.event = Event::Returned(was, now, came_back);
        self.tasks[task].was_full = was == State::Full;
        self.tasks[task].emptied = now == State::Empty;
        self.after_exchange(task, was, now)
    }

    /// Puts the group before the descriptor's chain and sets the state by the chain's length.
    fn join(&mut self, index: usize, group: VecDeque<u64>) {
        let fault = self.fault;
        let blocks = self.per_region(self.descriptors[index].class) as usize + usize::from(fault == Fault::CountShort);
        let descriptor = &mut self.descriptors[index];
        let mut before: Vec<u64> = group.into();
        if fault == Fault::GroupReversed {
            before.reverse();
        }
        let chain = std::mem::take(&mut descriptor.chain);
        descriptor.chain = match fault {
            Fault::GroupBehind => chain.into_iter().chain(before).collect(),
            _ => before.into_iter().chain(chain).collect(),
        };
        descriptor.changes += 1;
        descriptor.state = if descriptor.chain.len() == blocks { State::Empty } else { State::Partial };
    }

    /// Free 4: "If now EMPTY: one step clears the map entry of the group's region, then push that region on its spare
    /// list." Then 5.
    fn after_exchange(&mut self, task: usize, was: State, now: State) -> Answer {
        let kept = match self.fault {
            Fault::FullEmptyKept => was == State::Full,
            Fault::LeaveKeepsRegions => self.tasks[task].leaving,
            _ => false,
        };
        if now != State::Empty || kept {
            return self.after_release(task);
        }
        if self.fault == Fault::TakenBack {
            let descriptor = self.tasks[task].descriptor;
            self.lists[SPARE_DESCRIPTORS].row.push_front(descriptor);
            self.lists[SPARE_DESCRIPTORS].won += 1;
        }
        match self.fault {
            Fault::MapAfter => self.go(task, Place::List(Move::PushRegion, Phase::Head)),
            _ => self.go(task, Place::ClearMap),
        }
    }

    fn clear_map(&mut self, task: usize) -> Answer {
        let region = match self.fault {
            Fault::MapByDescriptor => self.descriptors[self.tasks[task].descriptor].region,
            _ => self.tasks[task].region,
        };
        self.map[region] = None;
        if self.fault == Fault::MapAfter {
            return self.after_release(task);
        }
        self.go(task, Place::List(Move::PushRegion, Phase::Head))
    }
}
