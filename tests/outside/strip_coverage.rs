//! What the schedules reached of the strips, counted from the plain pool alone.

use crate::checks::Checks;
use crate::coverage::{kind, reached, KINDS};
use crate::pool::{Answer, Call, Event, Pool, Request};
use crate::strips::{unit_of, State, FIRST_UNIT, LAST_UNIT, ORDERS, STRIPS};

#[derive(Default)]
pub struct StripCoverage {
    /// Strips taken, given and not to be had, by order.
    taken: [u64; ORDERS],
    given: [u64; ORDERS],
    none: [u64; ORDERS],
    /// Strips taken by how often a piece was halved, and given by how often halves joined.
    halved: [u64; ORDERS],
    joined: [u64; ORDERS],
    /// Requests that were stepped while another task's free of a strip had begun.
    taken_meanwhile: u64,
    none_meanwhile: u64,
    /// Frees that were refused: inside a strip in hand, inside one whose free has begun, in a free piece and at its
    /// first unit, past the last unit, and at a strip whose free has begun.
    inside: u64,
    inside_begun: u64,
    in_free: u64,
    at_free: u64,
    past: u64,
    begun: u64,
    /// Calls refused by the length of the strips' memory alone, by kind.
    lengths: [u64; KINDS.len()],
    pub restarts_held: u64,
    pub restarts_begun: u64,
    pub freed_by_another: u64,
    pub writes: u64,
}

impl StripCoverage {
    /// Counts one call after it was made on the plain pool.
    pub fn count(&mut self, call: &Call, pool: &Pool, answer: Answer) {
        match pool.event {
            Event::StripTaken { order, halvings, meanwhile } => {
                self.taken[order] += 1;
                self.halved[halvings] += 1;
                self.taken_meanwhile += u64::from(meanwhile);
            }
            Event::NoStrip { order, meanwhile } => {
                self.none[order] += 1;
                self.none_meanwhile += u64::from(meanwhile);
            }
            Event::StripGiven { order, joins } => {
                self.given[order] += 1;
                self.joined[joins] += 1;
            }
            _ => (),
        }
        match call.request {
            Request::Free { unit, .. } if unit >= FIRST_UNIT => self.count_free(pool, unit, answer.0),
            _ => (),
        }
        if answer.0 == 2 && call.strips != STRIPS && call.area == pool.area_length {
            self.lengths[kind(call.request)] += 1;
        }
    }

    fn count_free(&mut self, pool: &Pool, unit: u64, code: u64) {
        let piece = pool.strips.pieces.iter().rfind(|piece| unit_of(piece.place) <= unit);
        let (state, first) = piece.map_or((State::Free, 0), |piece| (piece.state, unit_of(piece.place)));
        match (code, state) {
            (10, _) if unit > LAST_UNIT => self.past += 1,
            (10, State::Held) => self.inside += 1,
            (10, State::Begun(_)) => self.inside_begun += 1,
            (10, State::Free) if unit == first => self.at_free += 1,
            (10, State::Free) => self.in_free += 1,
            (11, _) => self.begun += 1,
            _ => (),
        }
    }

    /// Fails for each thing that was never reached.
    pub fn report(&self, checks: &mut Checks) {
        for order in 0..ORDERS {
            reached(checks, &format!("strips of order {order} taken"), self.taken[order]);
            reached(checks, &format!("strips of order {order} given"), self.given[order]);
            reached(checks, &format!("16 for a strip of order {order}"), self.none[order]);
            reached(checks, &format!("strips taken after {order} halvings"), self.halved[order]);
            reached(checks, &format!("strips given that join {order} times"), self.joined[order]);
        }
        reached(checks, "strips taken between another's begun free and its step", self.taken_meanwhile);
        reached(checks, "16 between another's begun free and its step", self.none_meanwhile);
        reached(checks, "10 inside a strip in hand", self.inside);
        reached(checks, "10 inside a strip whose free has begun", self.inside_begun);
        reached(checks, "10 inside a free piece", self.in_free);
        reached(checks, "10 at the first unit of a free piece", self.at_free);
        reached(checks, "10 from unit 16,384 up", self.past);
        reached(checks, "11 at a strip whose free has begun", self.begun);
        for (kind, name) in KINDS.iter().enumerate() {
            reached(checks, &format!("{name} answers 2 for the strips' length alone"), self.lengths[kind]);
        }
        reached(checks, "starts while strips are held", self.restarts_held);
        reached(checks, "starts while the free of a strip has begun", self.restarts_begun);
        reached(checks, "frees by a task that did not allocate the strip", self.freed_by_another);
        reached(checks, "users' writes into held strips", self.writes);
    }

    pub fn print(&self) {
        println!("strips by order, taken: {:?}; given: {:?}; 16: {:?}", self.taken, self.given, self.none);
        println!("strips by halvings: {:?}; by joinings: {:?}", self.halved, self.joined);
        println!("users' writes into strips: {}", self.writes);
    }
}
