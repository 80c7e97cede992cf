//! Arbitrary bytes and arbitrary numbers: never a fault, always an answer of the paper, and no byte changed by a call
//! that is refused.

pub use crate::arbitrary_counts::Counts;
use crate::arbitrary_counts::CODES;
use crate::checks::{Checks, Parted};
use crate::coverage::kind;
use crate::damage::{self, Bytes};
use crate::expected;
use crate::fitting;
use crate::frames;
use crate::layout::{self, View};
use crate::leave_steps;
use crate::library::{self, Lent, Reply};
use crate::losses::MOST;
use crate::lost_steps;
use crate::memory::{Memory, Side};
use crate::pool::{Answer, Place, Request, PLACES};
use crate::random::Random;
use crate::strip_steps;
use crate::strips::{unit_of, FIRST_UNIT, LAST_UNIT, SLOTS, STRIPS};

const CODE: &str = "arbitrary: the answer is one of the paper's codes for the call";
const DUE: &str = "arbitrary: the tests are made in the paper's order on the values stored";
const OWN: &str = "arbitrary: a beginning changes its own task's fields and the mark or slot alone";
const STEP_OWN: &str = "arbitrary: a step changes its own task's fields and what its place writes alone";
const VALUE: &str = "arbitrary: a value comes only with 20 and is below 8,192, that of a strip a slot's first unit";
const UNCHANGED: &str = "arbitrary: a refused call changes no byte";
const AREA_KEPT: &str = "arbitrary: a start and a beginning leave the area as it is";
const ONE_LINK: &str = "arbitrary: a step writes at most one link of the area";
const SAME: &str = "arbitrary: the same call on the same bytes elsewhere does the same";
const OUTSIDE: &str = "arbitrary: bytes outside the three memories are as they were";
const STRIPS_KEPT: &str = "arbitrary: no call changes a byte of the strips' memory";
const STRIP_STEPS: &str = "arbitrary: a strip's step does with any tree and slots what is defined";
const LEAVING: &str = "arbitrary: where a return ends, the cache's count, the unit and the caches above decide";
const LOST: &str = "arbitrary: an exchange goes back to its read exactly where the word is not the noted one";
const TOLD: &str = "arbitrary: 20, 12, 13 and 16 tell the task's number of lost exchanges, other answers 0";
const COUNTED: &str = "arbitrary: a beginning clears its task's number of lost exchanges, one lost exchange adds one";
const IMAGE: &str = "arbitrary: a start leaves the same control memory whatever it was";

const TRIALS: u64 = 1500;
/// What the strips' memory is filled with.
const CANARY: u8 = 0x3C;
const LENGTHS: [usize; 16] =
    [0, 1, 7, 8, 4095, 4096, 4097, 8191, 8192, 8193, 16384, 65535, 65536, 65537, 69632, 1 << 20];

/// One round of trials, each on memories of its own.
pub fn round(seed: u64, checks: &mut Checks, counts: &mut Counts) {
    let mut random = Random::new(seed ^ 0x00A5_B17A);
    let mut valid = damage::valid(&mut random);
    for trial in 0..TRIALS {
        if trial % 50 == 0 {
            valid = damage::valid(&mut random);
        }
        let mut bytes = match random.below(6) {
            0 => damage::any(&mut random),
            1 | 2 => fitting::fitting(&mut random),
            _ => valid.clone(),
        };
        if random.percent(85) {
            damage::damage(&mut bytes, &mut random);
        }
        odd_lengths(&mut bytes, &mut random);
        let _ = Trial::new(&bytes, checks, counts).run(&mut random);
    }
}

/// Cuts or lengthens the memories now and then.
pub fn odd_lengths(bytes: &mut Bytes, random: &mut Random) {
    if random.one_in(12) {
        bytes.control.resize(random.pick(&LENGTHS), random.next() as u8);
    }
    if random.one_in(12) {
        bytes.area.resize(random.pick(&LENGTHS), random.next() as u8);
    }
    if random.one_in(12) {
        bytes.strips = random.pick(&LENGTHS);
    }
}

/// The same bytes at two places: some memories end at a guard page, the others start at one. Of the strips' memories
/// the one is filled with a canary, the other may be neither read nor written.
struct Trial<'a> {
    ending: Lent,
    starting: Lent,
    before: Bytes,
    checks: &'a mut Checks,
    counts: &'a mut Counts,
}

impl<'a> Trial<'a> {
    fn new(bytes: &Bytes, checks: &'a mut Checks, counts: &'a mut Counts) -> Self {
        let place = |side| Lent::closed(&bytes.control, &bytes.area, bytes.strips, side);
        let (mut ending, starting) = (place(Side::EndsAtGuard), place(Side::StartsAtGuard));
        ending.strips = Memory::new(bytes.strips, Side::EndsAtGuard);
        ending.strips.bytes_mut().fill(CANARY);
        Trial { ending, starting, before: bytes.clone(), checks, counts }
    }

    fn run(&mut self, random: &mut Random) -> Result<(), Parted> {
        for _ in 0..random.from_to(1, 24) {
            let request = self.request(random);
            self.call(request)?;
        }
        let kept = self.ending.slack_untouched() && self.starting.slack_untouched();
        self.checks.hold(OUTSIDE, kept, || "a byte beside a memory changed".to_string())?;
        let strips = self.ending.strips.bytes().iter().all(|&byte| byte == CANARY);
        self.checks.hold(STRIPS_KEPT, strips, || "a byte of the strips' memory changed".to_string())
    }

    /// Mostly steps of tasks that have a request; any numbers now and then.
    fn request(&self, random: &mut Random) -> Request {
        let task = if random.one_in(8) { random.number() } else { random.below(8) };
        match random.below(12) {
            0 => Request::Start { tasks: if random.one_in(4) { random.below(10) } else { random.number() } },
            1 if random.one_in(2) => Request::Allocate { task, size: random.below(STRIPS + 2) },
            1 => Request::Allocate { task, size: random.number() },
            2 if random.one_in(2) => Request::Free { task, unit: self.strip_unit(random) },
            2 => Request::Free { task, unit: random.number() },
            3 => Request::Free { task, unit: self.marked_unit(random) },
            4 => Request::Leave { task },
            _ => Request::Step { task },
        }
    }

    /// Mostly a unit whose mark is set.
    fn marked_unit(&self, random: &mut Random) -> u64 {
        let view = View { control: &self.before.control, area: &self.before.area };
        let first = random.below(8192);
        let marked = |unit: &u64| view.control.len() == 8192 && view.mark(*unit as usize);
        (first..8192).find(marked).unwrap_or(first / 32 * 32)
    }

    /// Mostly the first unit of a slot that has a byte.
    fn strip_unit(&self, random: &mut Random) -> u64 {
        let slot = random.below(SLOTS as u64 + 2) as usize;
        let control = &self.before.control;
        let begins = |slot: &usize| control.len() == 8192 && layout::get(control, layout::SLOT_BYTES, *slot) != 0;
        unit_of((slot..SLOTS).find(begins).unwrap_or(slot)) + random.pick(&[0, 0, 0, 0, 1, 32])
    }

    fn call(&mut self, request: Request) -> Result<(), Parted> {
        let place = self.place(request);
        let reply = library::call(&mut self.ending, request);
        let step = matches!(request, Request::Step { .. });
        self.starting.area.writable(step);
        let again = library::call(&mut self.starting, request);
        self.starting.area.writable(true);
        let same = reply == again
            && self.ending.control.bytes() == self.starting.control.bytes()
            && self.ending.area.bytes() == self.starting.area.bytes();
        self.checks.hold(SAME, same, || format!("{request:?}: {reply:?} and {again:?}"))?;
        self.check_answer(request, reply.answer)?;
        self.count(request, reply.answer, place);
        self.check_bytes(request, reply.answer)?;
        self.check_lost(request, place, reply)?;
        self.before.control.copy_from_slice(self.ending.control.bytes());
        self.before.area.copy_from_slice(self.ending.area.bytes());
        Ok(())
    }

    /// The place of the task that steps, where the memory has one.
    fn place(&self, request: Request) -> usize {
        match request {
            Request::Step { task } if task < 8 && self.before.control.len() == 8192 => {
                layout::get(&self.before.control, layout::TASK_PLACE, task as usize).min(PLACES as u64 - 1) as usize
            }
            _ => 0,
        }
    }

    fn check_answer(&mut self, request: Request, answer: Answer) -> Result<(), Parted> {
        let known = CODES[kind(request)].contains(&answer.0);
        self.checks.hold(CODE, known, || format!("{request:?}: {answer:?}"))?;
        let due = expected::code(&self.before, request);
        let as_due = match due {
            Some(code) => answer.0 == code,
            None => !matches!(answer.0, 1..=11),
        };
        self.checks.hold(DUE, as_due, || format!("{request:?}: {answer:?} where {due:?} is due"))?;
        let strip = (FIRST_UNIT..=LAST_UNIT).contains(&answer.1) && strip_steps::slot_of(answer.1).is_some();
        let value = if answer.0 == 20 { answer.1 < FIRST_UNIT || strip } else { answer.1 == 0 };
        self.checks.hold(VALUE, value, || format!("{request:?}: {answer:?}"))
    }

    /// Holds the number that was told, and those of all tasks, against what the bytes before say.
    fn check_lost(&mut self, request: Request, place: usize, reply: Reply) -> Result<(), Parted> {
        let (before, after) = (&self.before.control, self.ending.control.bytes());
        if before.len() != 8192 {
            return self.checks.hold(TOLD, reply.lost == 0, || format!("{request:?}: {reply:?}"));
        }
        let mut lost = false;
        if let (Request::Step { task }, 0 | 12 | 13 | 16 | 20) = (request, reply.answer.0) {
            let found = lost_steps::lost(before, after, task as usize, place);
            lost = found == Ok(true);
            self.checks.agree(LOST, found.map(|_| ()))?;
            let number = layout::get(before, layout::TASK_LOST, task as usize);
            self.counts.lost.0[place] += u64::from(lost);
            self.counts.lost_at_most.0[place] += u64::from(lost && number == MOST);
            self.counts.told[reply.answer.0 as usize] += u64::from(number > 0);
        }
        let (told, numbers) = lost_steps::due(before, request, reply.answer, lost);
        self.checks.hold(TOLD, reply.lost == told, || format!("{request:?}: {reply:?} where {told} are due"))?;
        let left = lost_steps::numbers(after);
        self.checks.hold(COUNTED, left == numbers, || format!("{request:?}: {left:?} where {numbers:?} are due"))
    }

    fn count(&mut self, request: Request, answer: Answer, place: usize) {
        self.counts.codes[kind(request)][answer.0 as usize] += 1;
        if let Request::Step { task } = request {
            if place != 0 && !(1..=11).contains(&answer.0) {
                let class = layout::get(&self.before.control, layout::TASK_CLASS, task as usize);
                *self.counts.classes.entry(class).or_default() += 1;
                self.count_led(task as usize, place, class);
            }
            match answer.0 {
                14 => self.counts.fourteen_at.0[place] += 1,
                0 | 12 | 13 | 16 | 20 => self.counts.went_on_at.0[place] += 1,
                _ => (),
            }
        }
    }

    /// Counts an exchange by which leaving went on with another class, or to its last step.
    fn count_led(&mut self, task: usize, place: usize, class: u64) {
        let after = |column| layout::get(self.ending.control.bytes(), column, task);
        if matches!(place, 19 | 22 | 32) && after(layout::TASK_UNIT) == layout::LEAVING {
            self.counts.led[0] += u64::from(after(layout::TASK_CLASS) != class);
            self.counts.led[1] += u64::from(after(layout::TASK_PLACE) == Place::Leave.number() as u64);
        }
    }

    fn check_bytes(&mut self, request: Request, answer: Answer) -> Result<(), Parted> {
        let (control, area) = (self.ending.control.bytes(), self.ending.area.bytes());
        let area_same = area == self.before.area;
        if matches!(answer.0, 1..=11 | 14) {
            let same = area_same && control == self.before.control;
            return self.checks.hold(UNCHANGED, same, || format!("{request:?}: {answer:?}"));
        }
        match request {
            Request::Start { tasks } => {
                let mut fresh = Lent::closed(&[0; 8192], &self.before.area, self.before.strips, Side::EndsAtGuard);
                library::call(&mut fresh, Request::Start { tasks });
                let same = fresh.control.bytes() == control;
                self.checks.hold(IMAGE, same, || format!("{request:?}"))?;
                self.checks.hold(AREA_KEPT, area_same, || format!("{request:?}"))
            }
            Request::Step { task } => {
                let place = layout::get(&self.before.control, layout::TASK_PLACE, task as usize) as usize;
                let own = frames::step_changed_its_own(&self.before.control, control, task as usize, place);
                self.checks.hold(STEP_OWN, own, || format!("{request:?} at place {place}: {answer:?}"))?;
                if let Some((due, after)) = strip_steps::due(&self.before.control, task as usize, place) {
                    let same = due == answer && area_same && strip_steps::same_pieces(&after, control);
                    self.checks.hold(STRIP_STEPS, same, || format!("{request:?} at place {place}: {answer:?}"))?;
                }
                let led = leave_steps::went_on(&self.before.control, control, task as usize, place);
                self.checks.hold(LEAVING, led, || format!("{request:?} at place {place}: {answer:?}"))?;
                let one = area_same || one_link(&self.before.area, area);
                self.checks.hold(ONE_LINK, one, || format!("{request:?}: {answer:?}"))
            }
            _ => {
                let own = expected::beginning_changed_its_own(&self.before.control, control, request);
                self.checks.hold(OWN, own, || format!("{request:?}"))?;
                self.checks.hold(AREA_KEPT, area_same, || format!("{request:?}"))
            }
        }
    }
}

/// Whether all changed bytes are among the first four of one unit.
fn one_link(before: &[u8], after: &[u8]) -> bool {
    let mut changed = (0..before.len()).filter(|&byte| before[byte] != after[byte]);
    let first = changed.next().unwrap_or(0);
    first % 8 < 4 && changed.all(|byte| byte / 8 == first / 8 && byte % 8 < 4)
}
