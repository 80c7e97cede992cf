//! What the schedules reached of leaving, counted from the plain pool alone.

use crate::checks::Checks;
use crate::classes::{block, CLASSES};
use crate::coverage::{change, reached, PerPlace, CHANGES};
use crate::pool::{Answer, Call, Event, Place, Pool, Request, TASKS};
use crate::strips::{FIRST_UNIT, LEAST_SIZE};
use std::collections::BTreeMap;

/// Where leaving stands before a step: the push of a region and of a descriptor, group, anchor, map, and its last step.
pub const PLACES_OF_LEAVING: [usize; 12] = [17, 18, 19, 20, 21, 22, 29, 30, 31, 32, 33, 36];
/// The exchanges among them. With each the return of a cache may end.
const EXCHANGES: [(usize, &str); 3] = [(19, "push of a region"), (22, "push of a descriptor"), (32, "anchor")];
/// What follows where the return of a group ends.
const ENDS: [&str; 3] = ["a further group", "another class", "the last step"];
pub const REQUESTS: [&str; 5] = ["an allocation", "a free", "a strip taken", "a strip given", "leaving"];
/// The stand has an area of four regions.
const STAND_AREA: u64 = 16_384;

#[derive(Default)]
pub struct LeaveCoverage {
    /// Steps of leaving, those before which others have stepped, its lost exchanges, and beginnings that 6 refused.
    steps: PerPlace,
    interrupted: PerPlace,
    lost: PerPlace,
    refused_at: PerPlace,
    ends: BTreeMap<(usize, &'static str), u64>,
    changes: BTreeMap<&'static str, u64>,
    /// Beginnings of leaving by the number of caches that are not empty, and groups returned by class.
    cached: [u64; CLASSES + 1],
    groups: [u64; CLASSES],
    /// Steps of leaving by how many tasks leave at that time.
    together: [u64; TASKS + 1],
    /// Which request came behind which, of one task.
    pairs: BTreeMap<(&'static str, &'static str), u64>,
    /// Beginnings refused by 6 while the task leaves.
    refused: BTreeMap<&'static str, u64>,
    restarts: u64,
    no_descriptor: u64,
    tasks: [Watched; TASKS],
}

/// What has to be kept of a task from call to call.
#[derive(Clone, Copy, Default)]
struct Watched {
    leaves: bool,
    /// Whether another task has made a step since this one's last.
    others: bool,
    class: usize,
    last: Option<&'static str>,
}

/// The task and the name of a request that begins.
pub fn beginning(request: Request) -> Option<(u64, &'static str)> {
    match request {
        Request::Allocate { task, size } => Some((task, REQUESTS[if size < LEAST_SIZE { 0 } else { 2 }])),
        Request::Free { task, unit } => Some((task, REQUESTS[if unit < FIRST_UNIT { 1 } else { 3 }])),
        Request::Leave { task } => Some((task, REQUESTS[4])),
        Request::Start { .. } | Request::Step { .. } => None,
    }
}

impl LeaveCoverage {
    /// Another run begins: nothing of the tasks is known.
    pub fn forget(&mut self) {
        self.tasks = Default::default();
    }

    /// Counts one call after it was made on the plain pool; the place is that before it.
    pub fn count(&mut self, call: &Call, place: Place, pool: &Pool, answer: Answer) {
        let begun = beginning(call.request);
        match (call.request, begun, answer.0) {
            (Request::Start { .. }, _, 0) => {
                self.restarts += u64::from(self.tasks.iter().any(|task| task.leaves));
                self.forget();
            }
            (_, Some((task, name)), 0) => self.count_beginning(task as usize, name, pool),
            (_, Some((task, name)), 6) if self.tasks[task as usize].leaves => {
                *self.refused.entry(name).or_default() += 1;
                self.refused_at.0[pool.tasks[task as usize].place.number()] += 1;
            }
            (Request::Step { task }, _, 0 | 12..) => self.count_step(task as usize, place, pool, answer.0),
            _ => (),
        }
    }

    fn count_beginning(&mut self, task: usize, name: &'static str, pool: &Pool) {
        if let Some(last) = self.tasks[task].last {
            *self.pairs.entry((last, name)).or_default() += 1;
        }
        let leaves = pool.tasks[task].leaving;
        self.tasks[task] = Watched { leaves, others: false, class: pool.tasks[task].class, last: Some(name) };
        if leaves {
            self.cached[pool.caches[task].iter().filter(|cache| !cache.is_empty()).count()] += 1;
        }
    }

    fn count_step(&mut self, task: usize, place: Place, pool: &Pool, code: u64) {
        self.no_descriptor += u64::from(code == 12 && pool.area_length <= STAND_AREA);
        if self.tasks[task].leaves {
            self.steps.0[place.number()] += 1;
            self.interrupted.0[place.number()] += u64::from(self.tasks[task].others);
            self.together[self.tasks.iter().filter(|task| task.leaves).count()] += 1;
            self.count_event(task, place.number(), pool);
        }
        for (number, other) in self.tasks.iter_mut().enumerate() {
            other.others = number != task;
        }
        self.tasks[task].leaves &= code == 0;
        self.tasks[task].class = pool.tasks[task].class;
    }

    fn count_event(&mut self, task: usize, place: usize, pool: &Pool) {
        match pool.event {
            Event::Lost | Event::LostSameTop => self.lost.0[place] += 1,
            Event::Returned(was, now, _) => {
                *self.changes.entry(change(was, now)).or_default() += 1;
                self.groups[self.tasks[task].class] += 1;
                self.count_end(task, place, pool);
            }
            Event::Won => self.count_end(task, place, pool),
            _ => (),
        }
    }

    /// Counts what follows, where the return of a group has ended.
    fn count_end(&mut self, task: usize, place: usize, pool: &Pool) {
        let what = match pool.tasks[task].place {
            Place::Group if pool.tasks[task].class == self.tasks[task].class => ENDS[0],
            Place::Group => ENDS[1],
            Place::Leave => ENDS[2],
            _ => return,
        };
        *self.ends.entry((place, what)).or_default() += 1;
    }

    /// Fails for each thing that was never reached.
    pub fn report(&self, checks: &mut Checks) {
        for place in PLACES_OF_LEAVING {
            reached(
                checks,
                &format!("leaving interrupted by another task at place {place}"),
                self.interrupted.0[place],
            );
            reached(checks, &format!("6 while the task leaves, at place {place}"), self.refused_at.0[place]);
        }
        for (place, name) in EXCHANGES {
            reached(checks, &format!("lost exchange of leaving: {name}"), self.lost.0[place]);
            for what in ENDS {
                let times = self.ends.get(&(place, what)).copied().unwrap_or(0);
                reached(checks, &format!("leaving goes on with {what} after: {name}"), times);
            }
        }
        for what in CHANGES {
            reached(checks, &format!("return of leaving: {what}"), self.changes.get(what).copied().unwrap_or(0));
        }
        for (count, times) in self.cached.iter().enumerate() {
            reached(checks, &format!("leaving with {count} classes cached"), *times);
        }
        for (class, times) in self.groups.iter().enumerate() {
            reached(checks, &format!("groups of {} bytes returned by leaving", block(class)), *times);
        }
        self.report_requests(checks);
        reached(checks, "two tasks leave at once", self.together[2..].iter().sum());
        reached(checks, "all eight tasks leave at once", self.together[TASKS]);
        reached(checks, "starts while a task leaves", self.restarts);
        reached(checks, "12 with four regions or fewer", self.no_descriptor);
    }

    fn report_requests(&self, checks: &mut Checks) {
        let pair = |pair| self.pairs.get(&pair).copied().unwrap_or(0);
        for name in REQUESTS {
            reached(checks, &format!("leaving after {name}"), pair((name, REQUESTS[4])));
            reached(checks, &format!("{name} begun after leaving"), pair((REQUESTS[4], name)));
            let times = self.refused.get(name).copied().unwrap_or(0);
            reached(checks, &format!("6 for {name} while the task leaves"), times);
        }
    }

    pub fn print(&self) {
        let of = |row: &PerPlace| PLACES_OF_LEAVING.map(|place| row.0[place]);
        println!("steps of leaving at places {PLACES_OF_LEAVING:?}: {:?}", of(&self.steps));
        println!("of these after another task's step: {:?}", of(&self.interrupted));
        println!("leaving by classes cached: {:?}; groups returned by class: {:?}", self.cached, self.groups);
        println!("steps of leaving by tasks that leave: {:?}", &self.together[1..]);
        println!("lost exchanges of leaving at places 19, 22, 32: {:?}", [19, 22, 32].map(|place| self.lost.0[place]));
        println!("after an exchange leaving goes on with: {:?}; returns: {:?}", self.ends, self.changes);
    }
}
