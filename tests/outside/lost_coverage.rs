//! What the schedules reached of lost exchanges, counted from the plain pool and the requests' histories alone.

use crate::checks::Checks;
use crate::coverage::{at_least, reached, PerPlace, EXCHANGES, HEADS};
use crate::leave_coverage::{beginning, REQUESTS};
use crate::losses::{is_told, Losses};
use crate::pool::{Answer, Call, Event, Request, TASKS};
use std::collections::BTreeMap;

/// How often a number above 0 has to be told at least, also in the shortest run.
const ENOUGH: u64 = 100;
/// The ends of requests that exchange nothing. They tell 0, also behind a request that has lost exchanges.
const STRIPS: [(&str, u64); 3] = [("a strip taken", 20), ("a strip taken", 16), ("a strip given", 20)];

/// By request and code.
type Ends = BTreeMap<(&'static str, u64), u64>;

#[derive(Default)]
pub struct LostCoverage {
    /// Requests that told a number above 0; those that told 0 behind one of the same task that had lost some.
    told: Ends,
    none_behind: Ends,
    /// Requests that told a number above 0 and lost an exchange at the place; of some head, of some anchor, of both.
    places: PerPlace,
    heads: u64,
    anchors: u64,
    both: u64,
    /// Of those with a number above 0, how many had two other tasks or more step meanwhile, and how many had others
    /// lose exchanges meanwhile; and those of these that told 0.
    several: u64,
    beside: u64,
    none_beside: u64,
    /// Beginnings, beginnings refused by 6 and starts where a number above 0 stood.
    cleared: BTreeMap<&'static str, u64>,
    refused: u64,
    restarts: u64,
    most: usize,
    tasks: [Watched; TASKS],
}

/// What has to be kept of a task from call to call.
#[derive(Clone, Copy, Default)]
struct Watched {
    request: &'static str,
    /// The lost exchanges of its request, and of the one before.
    lost: usize,
    before: usize,
    /// The exchanges that others have lost since the request began, and the tasks that have stepped, a bit each.
    others: u64,
    stepped: u8,
}

impl LostCoverage {
    /// Another run begins: nothing of the tasks is known.
    pub fn forget(&mut self) {
        self.tasks = Default::default();
    }

    /// Counts one call after it was made on the plain pool and noted in the histories.
    pub fn count(&mut self, call: &Call, event: Event, losses: &Losses, answer: Answer) {
        match (call.request, beginning(call.request), answer.0) {
            (Request::Start { .. }, _, 0) => {
                self.restarts += u64::from(self.tasks.iter().any(|task| task.lost > 0));
                self.forget();
            }
            (_, Some((task, request)), 0) => {
                let before = self.tasks[task as usize].lost;
                *self.cleared.entry(request).or_default() += u64::from(before > 0);
                self.tasks[task as usize] = Watched { request, before, ..Watched::default() };
            }
            (_, Some((task, _)), 6) => self.refused += u64::from(self.tasks[task as usize].lost > 0),
            (Request::Step { task }, _, 0 | 12..) => self.count_step(task as usize, event, losses, answer.0),
            _ => (),
        }
    }

    fn count_step(&mut self, task: usize, event: Event, losses: &Losses, code: u64) {
        let lost = matches!(event, Event::Lost | Event::LostSameTop);
        for (_, other) in self.tasks.iter_mut().enumerate().filter(|(other, _)| *other != task) {
            other.others += u64::from(lost);
            other.stepped |= 1 << task;
        }
        self.tasks[task].lost = losses.places(task).len();
        if is_told(code) {
            self.count_end(self.tasks[task], losses.places(task), code);
        }
    }

    /// Counts the end of a request that lost exchanges at these places.
    fn count_end(&mut self, task: Watched, places: &[usize], code: u64) {
        let end = (task.request, code);
        if places.is_empty() {
            self.none_beside += u64::from(task.others > 0);
            *self.none_behind.entry(end).or_default() += u64::from(task.before > 0);
            return;
        }
        *self.told.entry(end).or_default() += 1;
        self.most = self.most.max(places.len());
        self.beside += u64::from(task.others > 0);
        self.several += u64::from(task.stepped.count_ones() >= 2);
        for (place, _) in EXCHANGES {
            self.places.0[place] += u64::from(places.contains(&place));
        }
        let among = |exchanges: &[(usize, &str)]| exchanges.iter().any(|(place, _)| places.contains(place));
        let (heads, anchors) = (among(&EXCHANGES[..HEADS]), among(&EXCHANGES[HEADS..]));
        self.heads += u64::from(heads);
        self.anchors += u64::from(anchors);
        self.both += u64::from(heads && anchors);
    }

    /// Fails for each thing that was never reached, or not often enough.
    pub fn report(&self, checks: &mut Checks) {
        let times = |ends: &Ends, end| ends.get(&end).copied().unwrap_or(0);
        at_least(checks, "lost exchanges of heads told", self.heads, 10 * ENOUGH);
        at_least(checks, "lost exchanges of anchors told", self.anchors, ENOUGH);
        at_least(checks, "lost exchanges of heads and anchors told together", self.both, ENOUGH / 10);
        at_least(checks, "lost exchanges told where two others or more stepped meanwhile", self.several, ENOUGH);
        at_least(checks, "lost exchanges told where others lost some meanwhile", self.beside, ENOUGH);
        at_least(checks, "0 lost exchanges told where others lost some meanwhile", self.none_beside, ENOUGH);
        for (place, what) in EXCHANGES {
            reached(checks, &format!("lost exchanges told of: {what}"), self.places.0[place]);
        }
        for end in [(REQUESTS[0], 20), (REQUESTS[0], 12), (REQUESTS[0], 13), (REQUESTS[1], 20), (REQUESTS[4], 20)] {
            reached(checks, &format!("lost exchanges told by {} at {}", end.0, end.1), times(&self.told, end));
        }
        for end in STRIPS {
            let name = format!("0 lost exchanges told by {} at {}, behind a request that lost some", end.0, end.1);
            reached(checks, &name, times(&self.none_behind, end));
        }
        for request in REQUESTS {
            let cleared = self.cleared.get(request).copied().unwrap_or(0);
            reached(checks, &format!("{request} begun behind a request that lost exchanges"), cleared);
        }
        reached(checks, "6 while the request in hand has lost exchanges", self.refused);
        reached(checks, "starts where a request has lost exchanges", self.restarts);
        reached(checks, "more than 255 exchanges lost by one request", u64::from(self.most > 255));
    }

    pub fn print(&self) {
        let (several, beside) = (self.several, self.beside);
        println!("requests that told lost exchanges, by request and code: {:?}; at most {}", self.told, self.most);
        println!("of heads: {}, of anchors: {}, of both: {}", self.heads, self.anchors, self.both);
        println!("with two others or more meanwhile: {several}, with lost exchanges of others meanwhile: {beside}");
        println!("begun behind a request that lost exchanges: {:?}", self.cleared);
    }
}
