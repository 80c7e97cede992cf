//! The two runs side by side: each call goes to the plain pool and to the library, and everything that the paper lets
//! a caller see is compared after it.

use crate::checks::{Checks, Parted};
use crate::classes::{class_of, is_aligned, is_first, CLASSES, UNIT};
use crate::coverage::Coverage;
use crate::faults::Fault;
use crate::layout::{self, cache_index, View, COUNT};
use crate::library::{self, Lent, Reply};
use crate::lists::LISTS;
use crate::losses::Losses;
use crate::memory::{Memory, Side};
use crate::pieces;
use crate::pool::{Answer, Call, Place, Pool, Request, ALL_UNITS, CONTROL, TASKS};
use crate::random::Random;
use crate::ranges;
use crate::report::REPORTS;
use crate::report_checks::FURTHER;
use crate::slots::Slots;
use crate::strip_checks::STRIPS_KEPT;
use crate::strips::{LEAST_SIZE, STRIPS};
use crate::structure;
use crate::users::Held;

pub const ALIGNED: &str = "a block of 16 bytes or more starts at a multiple of 16 bytes of the area";
pub const OF_CLASS: &str = "a finished allocation's unit is the first of a block of the size's class";
pub const ANSWERS: &str = "answers of library and plain pool agree";
pub const NO_14: &str = "14 does not occur in a run";
pub const UNCHANGED: &str = "a refused call changes no byte of any memory";
pub const HELD: &str = "a block in a user's hands is touched by no call";
pub const ONE_LINK: &str = "a step writes at most one link of the area, a start or a beginning none";
pub const OUTSIDE: &str = "bytes outside the three memories are as they were";
pub const LEFT: &str = "a task that has left has no block in any cache";

pub struct Driver<'a> {
    pub pool: Pool,
    pub lent: Lent,
    /// The rows into which the reports are written.
    pub rows: [Memory; REPORTS.len()],
    pub control_before: Vec<u8>,
    pub area_before: Vec<u8>,
    pub strips_before: Vec<u8>,
    /// The size that each task's allocation under way has asked for, and the strip that each task's free gives back.
    pub asked: [Option<u64>; TASKS],
    pub freeing: [Option<Held>; TASKS],
    pub held: Vec<Held>,
    /// For each unit of the area, whether it lies in a held block.
    pub covered: Vec<bool>,
    pub slots: Slots,
    pub tags_at_start: [u32; LISTS],
    /// The lost exchanges of the requests, and how many the last call of the library told.
    pub losses: Losses,
    pub told: u64,
    pub checks: &'a mut Checks,
    pub coverage: &'a mut Coverage,
    pub random: Random,
    /// The numbers of the last calls, for the message of a failure.
    recent: Vec<Call>,
}

impl<'a> Driver<'a> {
    /// A control memory of zeros, "such a pool" that is not started, and an area and strips of random bytes.
    pub fn new(regions: u64, seed: u64, fault: Fault, checks: &'a mut Checks, coverage: &'a mut Coverage) -> Self {
        let mut random = Random::new(seed);
        let control = Memory::with(&[0; CONTROL as usize], Side::EndsAtGuard);
        let mut area = Memory::new(regions as usize * 4096, Side::EndsAtGuard);
        let mut strips = Memory::new(STRIPS as usize, Side::EndsAtGuard);
        random.fill(area.bytes_mut());
        random.fill(strips.bytes_mut());
        coverage.leaving.forget();
        coverage.losses.forget();
        Driver {
            pool: Pool::new(fault),
            control_before: control.bytes().to_vec(),
            area_before: area.bytes().to_vec(),
            strips_before: strips.bytes().to_vec(),
            lent: Lent { control, area, strips },
            rows: REPORTS.map(|report| Memory::new(report.most_bytes() + FURTHER, Side::EndsAtGuard)),
            asked: [None; TASKS],
            freeing: [None; TASKS],
            held: Vec::new(),
            covered: vec![false; ALL_UNITS],
            slots: Slots::new(),
            tags_at_start: [0; LISTS],
            losses: Losses::default(),
            told: 0,
            checks,
            coverage,
            random,
            recent: Vec::new(),
        }
    }

    /// A call with the true lengths.
    pub fn ask(&mut self, request: Request) -> Result<Answer, Parted> {
        self.call(Call { control: CONTROL, area: self.lent.area.len() as u64, strips: STRIPS, request })
    }

    /// One call of both, compared.
    pub fn call(&mut self, call: Call) -> Result<Answer, Parted> {
        self.remember(call);
        let place = self.place_of(call.request);
        let busy = self.pool.tasks.iter().any(|task| task.place != Place::Idle);
        let expected = self.pool.call(&call);
        let lost = self.losses.note(call.request, place, self.pool.event, expected, self.pool.fault);
        let due = Reply { answer: expected, lost };
        if call.control != CONTROL || call.area != self.lent.area.len() as u64 || call.strips != STRIPS {
            self.call_with_other_lengths(call, due)?;
        } else {
            let reply = library::call(&mut self.lent, call.request);
            self.check_allocation(call.request, reply.answer)?;
            self.compare_answers(call, reply, due)?;
            self.compare_strips(call, place, expected)?;
            self.compare_memories(call, expected)?;
            self.check_left(call.request, place, reply.answer)?;
        }
        self.coverage.count(call.request, place, self.pool.event, expected);
        self.coverage.strips.count(&call, &self.pool, expected);
        self.coverage.leaving.count(&call, place, &self.pool, expected);
        self.coverage.losses.count(&call, self.pool.event, &self.losses, expected);
        self.count_more(call, place, busy, expected);
        self.follow(call.request, place, expected);
        if expected.0 == 13 {
            self.compare_keepers_after_13()?;
        }
        Ok(expected)
    }

    fn count_more(&mut self, call: Call, place: Place, busy: bool, answer: Answer) {
        match (call.request, answer.0) {
            (Request::Start { tasks }, 0) => {
                self.coverage.restarts_under_way += u64::from(busy);
                self.coverage.strips.restarts_held += u64::from(self.held.iter().any(Held::is_strip));
                self.coverage.strips.restarts_begun += u64::from(self.freeing.iter().any(Option::is_some));
                self.coverage.count_start(tasks, call.area / 4096);
            }
            (Request::Step { task }, 0) => {
                let class = self.pool.tasks[task as usize].class;
                self.coverage.count_class(place, self.pool.event, class);
            }
            _ => (),
        }
    }

    fn remember(&mut self, call: Call) {
        if self.recent.len() == 12 {
            self.recent.remove(0);
        }
        self.recent.push(call);
    }

    fn place_of(&self, request: Request) -> Place {
        match request {
            Request::Step { task } if task < 8 => self.pool.tasks[task as usize].place,
            _ => Place::Idle,
        }
    }

    /// Holds the unit by which the library finishes an allocation against the table of classes, or that of a strip
    /// against the slots, without the plain pool.
    fn check_allocation(&mut self, request: Request, (code, unit): Answer) -> Result<(), Parted> {
        let Request::Step { task } = request else { return Ok(()) };
        match self.asked.get(task as usize).copied().flatten() {
            Some(size) if size >= LEAST_SIZE => self.check_strip(size, (code, unit)),
            Some(size) if code == 20 => {
                let class = class_of(size);
                self.checks.hold(ALIGNED, is_aligned(class, unit), || format!("{size} bytes at unit {unit}"))?;
                self.checks.hold(OF_CLASS, is_first(class, unit), || format!("{size} bytes at unit {unit}"))?;
                self.coverage.allocated[class] += 1;
                Ok(())
            }
            _ => Ok(()),
        }
    }

    /// Looks into the memory, without the plain pool, where a task has left.
    fn check_left(&mut self, request: Request, place: Place, answer: Answer) -> Result<(), Parted> {
        let (Request::Step { task }, Place::Leave, 20) = (request, place, answer.0) else { return Ok(()) };
        let count = |class| layout::get(self.lent.control.bytes(), COUNT, cache_index(task as usize, class));
        let cached: u64 = (0..CLASSES).map(count).sum();
        self.checks.hold(LEFT, cached == 0, || format!("task {task} has {cached} blocks cached"))
    }

    fn compare_answers(&mut self, call: Call, reply: Reply, due: Reply) -> Result<(), Parted> {
        let (recent, answer, expected) = (&self.recent, reply.answer, due.answer);
        self.checks.hold(ANSWERS, answer == expected, || {
            format!("{call:?}: library {answer:?}, plain pool {expected:?}; last calls {recent:?}")
        })?;
        self.checks.hold(NO_14, answer.0 != 14, || format!("{call:?}"))?;
        self.compare_lost(call, reply, due.lost)
    }

    /// Compares control and area with what they were before the call, then keeps them as they are now.
    fn compare_memories(&mut self, call: Call, expected: Answer) -> Result<(), Parted> {
        let changed = changed_bytes(&self.area_before, self.lent.area.bytes());
        if (1..=11).contains(&expected.0) {
            let same = changed.is_empty() && self.control_before == self.lent.control.bytes();
            return self.checks.hold(UNCHANGED, same, || format!("{call:?}"));
        }
        let covered = &self.covered;
        let untouched = changed.iter().all(|&byte| !covered[byte / UNIT as usize]);
        self.checks.hold(HELD, untouched, || format!("{call:?} changes bytes {changed:?}"))?;
        let step = matches!(call.request, Request::Step { .. });
        let one = changed.iter().all(|&byte| step && byte % 8 < 4 && byte / 8 == changed[0] / 8);
        self.checks.hold(ONE_LINK, one, || format!("{call:?} changes bytes {changed:?}"))?;
        self.control_before.copy_from_slice(self.lent.control.bytes());
        for byte in changed {
            self.area_before[byte] = self.lent.area.bytes()[byte];
        }
        Ok(())
    }

    /// A call that is lent memories of other lengths. The plain pool says whether it is an accepted start, which is
    /// the only such call that may change anything.
    fn call_with_other_lengths(&mut self, call: Call, due: Reply) -> Result<(), Parted> {
        let side = if self.random.one_in(2) { Side::EndsAtGuard } else { Side::StartsAtGuard };
        let control_bytes = stretched(self.lent.control.bytes(), call.control as usize, &mut self.random);
        let area_bytes = stretched(self.lent.area.bytes(), call.area as usize, &mut self.random);
        let mut lent = Lent::closed(&control_bytes, &area_bytes, call.strips as usize, side);
        let own_strips = call.strips == STRIPS;
        if own_strips {
            std::mem::swap(&mut lent.strips, &mut self.lent.strips);
        }
        let reply = library::call(&mut lent, call.request);
        if own_strips {
            std::mem::swap(&mut lent.strips, &mut self.lent.strips);
        }
        self.compare_answers(call, reply, due)?;
        self.checks.hold(OUTSIDE, lent.slack_untouched(), || format!("{call:?}"))?;
        self.checks.hold(STRIPS_KEPT, self.lent.strips.bytes() == self.strips_before, || format!("{call:?}"))?;
        self.checks.hold(ONE_LINK, lent.area.bytes() == area_bytes, || format!("{call:?}"))?;
        if due.answer.0 != 0 {
            return self.checks.hold(UNCHANGED, lent.control.bytes() == control_bytes, || format!("{call:?}"));
        }
        self.coverage.other_length_starts += 1;
        self.control_before = lent.control.bytes().to_vec();
        self.area_before = area_bytes;
        self.lent.control = lent.control;
        self.lent.area = lent.area;
        self.compare_pieces()
    }

    /// Compares structure, by the documents of the layout.
    pub fn compare_structure(&mut self) -> Result<(), Parted> {
        if self.pool.started_tasks == 0 {
            return Ok(());
        }
        self.coverage.comparisons += 1;
        self.compare_reports()?;
        self.compare_pieces()?;
        let view = View { control: self.lent.control.bytes(), area: self.lent.area.bytes() };
        let pool = &self.pool;
        self.checks.agree("structure: each task's place", structure::places(pool, &view))?;
        self.checks.agree("structure: what each task asks of the strips", pieces::requests(pool, &view))?;
        self.checks
            .agree("structure: what each task returns for, and in which class", structure::returns(pool, &view))?;
        self.checks.agree("structure: each field is in its range", ranges::in_range(&view))?;
        self.checks.agree("structure: each list's items", structure::lists(pool, &view))?;
        self.checks.agree("structure: open regions and classes", structure::open_regions(pool, &view))?;
        self.checks.agree("structure: map entries", structure::map(pool, &view))?;
        self.checks.agree("structure: chains in order", structure::chains(pool, &view))?;
        self.checks.agree("structure: caches as rows", structure::caches(pool, &view))?;
        self.checks.agree("structure: marks", structure::marks(pool, &view))?;
        self.checks.agree("structure: each block's holder, once", structure::holders(pool, &view))?;
        self.checks.agree("structure: bytes of control outside the fields are zero", structure::gaps(&view))?;
        self.checks.agree("structure: cache entries of no class are empty", structure::entries_of_no_class(&view))?;
        self.checks.agree("structure: each task's number of lost exchanges", self.numbers_stand())?;
        self.checks.agree("structure: tags", structure::tags(pool, &view, &self.tags_at_start))
    }
}

/// The places of the bytes that differ, found a page at a time.
fn changed_bytes(before: &[u8], after: &[u8]) -> Vec<usize> {
    let mut changed = Vec::new();
    for (page, (old, new)) in before.chunks(4096).zip(after.chunks(4096)).enumerate() {
        if old != new {
            changed.extend((0..old.len()).filter(|&byte| old[byte] != new[byte]).map(|byte| page * 4096 + byte));
        }
    }
    changed
}

/// The bytes cut or lengthened to this length; "further bytes may be any".
fn stretched(bytes: &[u8], length: usize, random: &mut Random) -> Vec<u8> {
    let mut row = vec![0; length];
    random.fill(&mut row);
    let common = length.min(bytes.len());
    row[..common].copy_from_slice(&bytes[..common]);
    row
}
