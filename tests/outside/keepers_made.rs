//! Memories that no run has left, in which several keepers apply to a region at once. Each is taken away in turn, and
//! the next one is named; where none is left the answer is 14. The keepers are written down.

use crate::checks::Checks;
use crate::damage::{link_cache, link_regions, Bytes};
use crate::keepers::{cached, in_hand, row_of, running, spare, Keeper};
use crate::keepers_ranges;
use crate::layout::*;
use crate::made::*;
use crate::random::Random;
use crate::report::Report;
use crate::report_cases::ITSELF;
use crate::report_refusals::fresh;
use crate::report_trial;

/// Blocks of 256 bytes, and those of another class.
pub const LARGE: usize = 12;
const OTHER: usize = 11;

type Change = fn(&mut Bytes);
/// What is taken away, one behind the other, and what keeps region 1 then.
const TAKEN_AWAY: [(&str, Change, Option<Keeper>); 12] = [
    ("all at once: the lowest block in hand", |_| (), Some(in_hand(512 + 3 * 32))),
    ("a higher block in hand", |bytes| unmark(bytes, unit(LARGE, 1, 3)), Some(in_hand(512 + 9 * 32))),
    ("no block in hand: the lowest task's lowest cached block", |bytes| unmark_all(bytes, 1), Some(cached(2, 640))),
    ("the next task's cached block", |bytes| link_cache(bytes, (2, LARGE), &[]), Some(cached(6, 512))),
    ("none cached: the lowest task with a request", |bytes| link_cache(bytes, (6, LARGE), &[]), Some(running(1))),
    ("a task with a group, past one that has the open region itself", |bytes| be_idle(bytes, 1), Some(running(4))),
    ("a task that carves the region", |bytes| be_idle(bytes, 4), Some(running(5))),
    ("no request with blocks: the spare list", |bytes| be_idle(bytes, 5), Some(spare())),
    ("not open, and on the list: the spare list", |bytes| set(&mut bytes.control, MAP, 1, 0), Some(spare())),
    ("off the list: the lowest task that has it itself", |bytes| link_regions(bytes, &[2, 0]), Some(running(3))),
    ("a higher task that has it itself", |bytes| be_idle(bytes, 3), Some(running(7))),
    ("none is left", |bytes| be_idle(bytes, 7), None),
];

/// What keeps region 1 only where it is open in the class; it is not on the list.
const NO_KEEPER: [(&str, Change); 10] = [
    ("a cached block of another class", |bytes| link_cache(bytes, (0, OTHER), &[unit(OTHER, 1, 1)])),
    ("blocks to be carved of another class", |bytes| begin_carving(bytes, 0, (OTHER, 1, 4))),
    ("a group of another class", |bytes| begin_group(bytes, 0, (OTHER, 1, 4), LEAVING)),
    ("a block being freed of another class", |bytes| begin_free(bytes, 0, OTHER, unit(OTHER, 1, 2))),
    ("a task that has the open region itself", |bytes| have_region(bytes, 0, ITSELF[0] as u64, 1)),
    ("a mark that is no first unit", |bytes| mark(bytes, unit(LARGE, 1, 3) + 1)),
    ("marks of a region that has emptied", |bytes| {
        describe(bytes, 1, LARGE, 0, 0);
        mark_all(bytes, 1);
    }),
    ("a cached block of a region that has emptied", |bytes| {
        describe(bytes, 1, LARGE, 0, 0);
        link_cache(bytes, (0, LARGE), &[unit(LARGE, 1, 1)]);
    }),
    ("a group of a region that has no descriptor", |bytes| {
        set(&mut bytes.control, MAP, 1, 0);
        begin_group(bytes, 0, (LARGE, 1, 4), LEAVING);
    }),
    ("a block being freed of a region whose descriptor names another", |bytes| {
        set(&mut bytes.control, DESCRIPTOR_REGION, descriptor(1), 2);
        begin_free(bytes, 0, LARGE, unit(LARGE, 1, 2));
    }),
];

pub fn round(seed: u64, checks: &mut Checks) {
    let mut trial = Trial { random: Random::new(seed ^ 0x0EE9_E55E), checks };
    let mut bytes = all_at_once();
    for (name, take_away, keeper) in TAKEN_AWAY {
        take_away(&mut bytes);
        let due = keeper.map(|keeper| [spare(), keeper, spare()]);
        trial.told(&format!("in turn, {name}"), &bytes, due.as_ref().map(|due| &due[..]));
    }
    for (name, change) in NO_KEEPER {
        let mut bytes = off_the_list();
        change(&mut bytes);
        trial.told(&format!("kept by none, 14: {name}"), &bytes, None);
    }
    for &place in ITSELF {
        let mut bytes = off_the_list();
        set(&mut bytes.control, MAP, 1, 0);
        have_region(&mut bytes, 7, place as u64, 1);
        let name = format!("kept by a task that has it itself at place {place}");
        trial.told(&name, &bytes, Some(&[spare(), running(7), spare()]));
        set(&mut bytes.control, TASK_REGION, 7, 0);
        let name = format!("kept by none, 14: at place {place} the task has another region itself");
        trial.told(&name, &bytes, None);
    }
    trial.last_unit();
    keepers_ranges::round(&mut trial);
}

/// The calls on such memories.
pub struct Trial<'a> {
    random: Random,
    checks: &'a mut Checks,
}

impl Trial<'_> {
    /// These keepers are told, or none where the answer is 14; also for a row that is too short.
    pub fn told(&mut self, name: &str, bytes: &Bytes, due: Option<&[Keeper]>) {
        let name = Report::Keepers.check(name);
        let whole = Report::Keepers.bytes(bytes.regions());
        for length in [whole, 0, whole - 1] {
            let call = report_trial::call(Report::Keepers, bytes, length, &mut self.random, self.checks);
            let Ok((code, row)) = call else { return };
            let short = if length < whole { 23 } else { 20 };
            let held = match due {
                Some(due) => code == short && (code == 23 || row == row_of(due)),
                None => code == 14,
            };
            let _ = self.checks.hold(&name, held, || format!("{code}: {row:?}, where {due:?} is due"));
        }
    }

    /// The highest unit and the highest task, in an area of sixteen regions.
    fn last_unit(&mut self) {
        let mut bytes = fresh(16);
        describe(&mut bytes, 15, 0, 2, 0);
        mark(&mut bytes, 8191);
        let mut due = [spare(); 16];
        due[15] = in_hand(8191);
        self.told("unit 8,191 in hand", &bytes, Some(&due));
        unmark(&mut bytes, 8191);
        link_cache(&mut bytes, (7, 0), &[8191]);
        due[15] = cached(7, 8191);
        self.told("unit 8,191 in the cache of task 7", &bytes, Some(&due));
    }
}

/// Region 1 is open and has every kind of keeper. All regions are on the list.
fn all_at_once() -> Bytes {
    let mut bytes = fresh(3);
    describe(&mut bytes, 1, LARGE, 1, 2);
    mark(&mut bytes, unit(LARGE, 1, 3));
    mark(&mut bytes, unit(LARGE, 1, 9));
    link_cache(&mut bytes, (2, LARGE), &[8, 4, 5].map(|block| unit(LARGE, 1, block)));
    link_cache(&mut bytes, (6, LARGE), &[7, 0].map(|block| unit(LARGE, 1, block)));
    begin_free(&mut bytes, 1, LARGE, unit(LARGE, 1, 6));
    have_region(&mut bytes, 3, 33, 1);
    begin_group(&mut bytes, 4, (LARGE, 1, 2), LEAVING);
    begin_carving(&mut bytes, 5, (LARGE, 1, 1));
    have_region(&mut bytes, 7, 26, 1);
    bytes
}

/// Region 1 is open with no block anywhere, and not on the list.
fn off_the_list() -> Bytes {
    let mut bytes = fresh(3);
    describe(&mut bytes, 1, LARGE, 1, 16);
    link_regions(&mut bytes, &[2, 0]);
    bytes
}
