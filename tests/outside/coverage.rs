//! What the schedules reached, counted from the plain pool alone.

use crate::checks::Checks;
use crate::classes::CLASSES;
use crate::keepers_coverage::KeepersCoverage;
use crate::leave_coverage::LeaveCoverage;
use crate::lost_coverage::LostCoverage;
use crate::pool::{Answer, Event, Place, Request, State, PLACES, REGIONS, TASKS};
use crate::report_coverage::{FormCoverage, SheetCoverage};
use crate::strip_coverage::StripCoverage;
use std::collections::BTreeMap;

pub const KINDS: [&str; 5] = ["start", "begin allocate", "begin free", "begin leave", "step"];

/// The codes that each kind of call can answer in a run of the paper, in the order of its tests.
const CODES: [&[u64]; KINDS.len()] = [
    &[0, 1, 2, 3],
    &[0, 1, 2, 4, 5, 6, 8, 9],
    &[0, 1, 2, 4, 5, 6, 10, 11],
    &[0, 1, 2, 4, 5, 6],
    &[0, 20, 1, 2, 4, 5, 7, 12, 13, 16],
];

/// What a return makes of an anchor's state.
pub const CHANGES: [&str; 4] = ["FULL to PARTIAL", "FULL to EMPTY", "PARTIAL to PARTIAL", "PARTIAL to EMPTY"];

/// The exchanges, by place, with what each is for: so many of heads, then those of anchors.
pub const HEADS: usize = 7;
pub const EXCHANGES: [(usize, &str); 9] = [
    (4, "pop of a partial descriptor"),
    (7, "pop of a spare descriptor"),
    (10, "pop of a spare region"),
    (13, "push of an EMPTY descriptor to the spares"),
    (16, "push back of a descriptor"),
    (19, "push of a region"),
    (22, "push of a descriptor to its partial list"),
    (24, "anchor, allocate"),
    (32, "anchor, free"),
];

/// A count for each place, idle first.
pub struct PerPlace(pub [u64; PLACES]);

impl Default for PerPlace {
    fn default() -> Self {
        PerPlace([0; PLACES])
    }
}

#[derive(Default)]
pub struct Coverage {
    places: PerPlace,
    won: PerPlace,
    lost: PerPlace,
    lost_same_top: PerPlace,
    found_empty: PerPlace,
    anchor_empty: u64,
    came_back: u64,
    returns: BTreeMap<&'static str, u64>,
    codes: BTreeMap<(usize, u64), u64>,
    /// Accepted starts by tasks and by regions.
    tasks: [u64; TASKS + 1],
    regions: [u64; REGIONS + 1],
    /// Regions opened, chains taken and groups returned, by class.
    opened: [u64; CLASSES],
    taken: [u64; CLASSES],
    returned: [u64; CLASSES],
    /// Finished allocations whose block was held against the table, by the class of their size.
    pub allocated: [u64; CLASSES],
    pub calls: u64,
    pub writes: u64,
    pub comparisons: u64,
    pub restarts_under_way: u64,
    pub other_length_starts: u64,
    pub freed_by_another: u64,
    pub strips: StripCoverage,
    pub leaving: LeaveCoverage,
    pub losses: LostCoverage,
    pub sheet: SheetCoverage,
    pub form: FormCoverage,
    pub keepers: KeepersCoverage,
}

impl Coverage {
    /// Counts one call: the place before it, what it decided and what it answered.
    pub fn count(&mut self, request: Request, place: Place, event: Event, answer: Answer) {
        self.calls += 1;
        let kind = kind(request);
        *self.codes.entry((kind, answer.0)).or_default() += 1;
        let refused = (1..=11).contains(&answer.0);
        if matches!(request, Request::Step { .. }) && !refused {
            self.places.0[place.number()] += 1;
            self.count_event(place.number(), event);
        }
    }

    pub fn count_start(&mut self, tasks: u64, regions: u64) {
        self.tasks[tasks as usize] += 1;
        self.regions[regions as usize] += 1;
    }

    /// Counts a region opened, a chain taken or a group returned.
    pub fn count_class(&mut self, place: Place, event: Event, class: usize) {
        match (place, event) {
            (Place::WriteDescriptor, _) => self.opened[class] += 1,
            (Place::TakeChain, Event::Won) => self.taken[class] += 1,
            (Place::ReturnGroup, Event::Returned(..)) => self.returned[class] += 1,
            _ => (),
        }
    }

    fn count_event(&mut self, place: usize, event: Event) {
        match event {
            Event::None => (),
            Event::Won => self.won.0[place] += 1,
            Event::Lost => self.lost.0[place] += 1,
            Event::LostSameTop => {
                self.lost.0[place] += 1;
                self.lost_same_top.0[place] += 1;
            }
            Event::FoundEmpty => self.found_empty.0[place] += 1,
            Event::AnchorEmpty => self.anchor_empty += 1,
            Event::StripTaken { .. } | Event::NoStrip { .. } | Event::StripGiven { .. } => (),
            Event::Returned(was, now, came_back) => {
                self.came_back += u64::from(came_back);
                self.won.0[place] += 1;
                *self.returns.entry(change(was, now)).or_default() += 1;
            }
        }
    }

    /// Prints the counts and fails for each thing that was never reached.
    pub fn report(&self, checks: &mut Checks) {
        for place in 1..PLACES {
            reached(checks, &format!("place {place} reached"), self.places.0[place]);
        }
        self.report_exchanges(checks);
        for (place, what) in [(2, "partial descriptors"), (5, "spare descriptors"), (8, "spare regions")] {
            reached(checks, &format!("list found empty: {what}"), self.found_empty.0[place]);
        }
        reached(checks, "allocate finds an anchor EMPTY", self.anchor_empty);
        reached(checks, "won exchange of an anchor that changed and came back: free", self.came_back);
        for change in CHANGES {
            reached(checks, &format!("return: {change}"), self.returns.get(change).copied().unwrap_or(0));
        }
        self.report_codes(checks);
        let least = |row: &[u64]| row.iter().copied().min().unwrap_or(0);
        reached(checks, "starts with 1 to 8 tasks each", least(&self.tasks[1..]));
        reached(checks, "starts with 1 to 16 regions each", least(&self.regions[1..]));
        reached(checks, "allocations finished in each class", least(&self.allocated));
        reached(checks, "regions opened in each class", least(&self.opened));
        reached(checks, "chains taken in each class", least(&self.taken));
        reached(checks, "groups returned in each class", least(&self.returned));
        reached(checks, "users' writes into held blocks", self.writes);
        reached(checks, "starts while requests are under way", self.restarts_under_way);
        reached(checks, "starts on an area of another length", self.other_length_starts);
        reached(checks, "frees by a task that did not allocate the block", self.freed_by_another);
        self.strips.report(checks);
        self.leaving.report(checks);
        self.losses.report(checks);
        self.sheet.report(checks);
        self.form.report(checks);
        self.keepers.report(checks);
    }

    fn report_exchanges(&self, checks: &mut Checks) {
        for (place, what) in EXCHANGES {
            reached(checks, &format!("won exchange: {what}"), self.won.0[place]);
            reached(checks, &format!("lost exchange: {what}"), self.lost.0[place]);
            // An allocation has the descriptor in hand alone, so that its chain can only get other first blocks.
            if place != 24 {
                let name = format!("lost exchange with the same one first again: {what}");
                reached(checks, &name, self.lost_same_top.0[place]);
            }
        }
    }

    fn report_codes(&self, checks: &mut Checks) {
        for (kind, codes) in CODES.iter().enumerate() {
            for code in codes.iter() {
                let times = self.codes.get(&(kind, *code)).copied().unwrap_or(0);
                reached(checks, &format!("{} answers {code}", KINDS[kind]), times);
            }
        }
    }

    /// A short form: one line for each group of counts.
    pub fn print(&self) {
        println!("calls compared: {}; comparisons of structure: {}", self.calls, self.comparisons);
        println!("steps by place 1 to 36: {:?}", &self.places.0[1..]);
        for (place, what) in EXCHANGES {
            let (won, lost, same) = (self.won.0[place], self.lost.0[place], self.lost_same_top.0[place]);
            let again = format!("{same} of them with the same one first again");
            println!("exchange at place {place} ({what}): {won} won, {lost} lost, {again}");
        }
        println!("returns: {:?}; after the anchor changed and came back: {}", self.returns, self.came_back);
        println!("anchors found EMPTY by allocate: {}; users' writes: {}", self.anchor_empty, self.writes);
        println!("starts by tasks: {:?}; by regions: {:?}", &self.tasks[1..], &self.regions[1..]);
        println!("by class, allocations finished: {:?}; regions opened: {:?}", self.allocated, self.opened);
        println!("by class, chains taken: {:?}; groups returned: {:?}", self.taken, self.returned);
        self.strips.print();
        self.leaving.print();
        self.losses.print();
        self.sheet.print();
        self.form.print();
        self.keepers.print();
        for (kind, name) in KINDS.iter().enumerate() {
            let codes: Vec<String> = self
                .codes
                .iter()
                .filter(|entry| entry.0 .0 == kind)
                .map(|(key, times)| format!("{} x {times}", key.1))
                .collect();
            println!("codes of {name}: {}", codes.join(", "));
        }
    }
}

/// The kind of a call, by its name's place in the list.
pub fn kind(request: Request) -> usize {
    match request {
        Request::Start { .. } => 0,
        Request::Allocate { .. } => 1,
        Request::Free { .. } => 2,
        Request::Leave { .. } => 3,
        Request::Step { .. } => 4,
    }
}

pub fn reached(checks: &mut Checks, name: &str, times: u64) {
    at_least(checks, name, times, 1);
}

pub fn at_least(checks: &mut Checks, name: &str, times: u64, least: u64) {
    let _ = checks.hold(&format!("covered: {name}"), times >= least, || match times {
        0 => "never".to_string(),
        _ => format!("{times} times, and {least} are asked for"),
    });
}

pub fn change(was: State, now: State) -> &'static str {
    match (was, now) {
        (State::Full, State::Partial) => CHANGES[0],
        (State::Full, State::Empty) => CHANGES[1],
        (State::Partial, State::Partial) => CHANGES[2],
        (State::Partial, State::Empty) => CHANGES[3],
        _ => "of no state that a return can have",
    }
}
