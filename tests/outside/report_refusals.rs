//! What a report refuses, in the order of its tests; the lengths of its row; and caches, each link of them.

use crate::checks::{Checks, Parted};
use crate::classes::{per_region, units, CLASSES};
use crate::damage::{self, link_cache, set_link, Bytes};
use crate::layout::*;
use crate::library::{self, Lent};
use crate::memory::Side;
use crate::pool::{self, Request};
use crate::random::Random;
use crate::report::{Report, REPORTS};
use crate::report_trial;

const ORDER: &str = "of several reasons to refuse the first in the order 1, 4, 2, 14, 23 is told";
const FULL: &str = "a cache of n blocks is in its range";
const COUNTS: &str = "a count above n, or other than that of the cached blocks, is 14";
const LINKS: &str = "each link of a cache is tested, down to 8,192";

pub fn round(seed: u64, checks: &mut Checks) {
    for report in REPORTS {
        let mut trial = Trial { report, random: Random::new(seed ^ 0x0EF0_5A15), checks: &mut *checks };
        let _ = trial.order_of_tests();
        let _ = trial.lengths_of_row();
        for class in 0..CLASSES {
            let _ = trial.whole_caches(class);
        }
    }
}

/// Bytes of a pool that has been started with two tasks and so many regions.
pub fn fresh(regions: u64) -> Bytes {
    let mut bytes = damage::zeros(regions);
    let mut lent = Lent::closed(&bytes.control, &bytes.area, bytes.strips, Side::EndsAtGuard);
    library::call(&mut lent, Request::Start { tasks: 2 });
    bytes.control.copy_from_slice(lent.control.bytes());
    bytes
}

/// The calls of one report.
struct Trial<'a> {
    report: Report,
    random: Random,
    checks: &'a mut Checks,
}

impl Trial<'_> {
    fn expect(&mut self, name: &str, bytes: &Bytes, length: usize, due: u64) -> Result<(), Parted> {
        let (code, _) = report_trial::call(self.report, bytes, length, &mut self.random, self.checks)?;
        let name = self.report.check(name);
        self.checks.hold(&name, code == due, || format!("{code} where {due} is due, row of {length}"))
    }

    /// The same for a row that just suffices.
    fn expect_whole(&mut self, name: &str, bytes: &Bytes, due: u64) -> Result<(), Parted> {
        self.expect(name, bytes, self.report.bytes(bytes.regions()), due)
    }

    /// Every choice of defects. Each is a value to set and the code that it brings, in the order of the tests.
    fn order_of_tests(&mut self) -> Result<(), Parted> {
        const TASKS_STORED: [(u64, u64); 3] = [(2, 0), (9, 14), (0, 4)];
        const REGIONS_STORED: [(u64, u64); 3] = [(2, 0), (17, 14), (0, 14)];
        for choice in 0..3 * 3 * 32 {
            let bit = |number: u64| choice / 9 >> number & 1 == 1;
            let (tasks, regions) = (TASKS_STORED[choice as usize % 3], REGIONS_STORED[choice as usize / 3 % 3]);
            let mut bytes = fresh(2);
            let length = self.report.bytes(2) - usize::from(bit(4));
            set(&mut bytes.control, TASKS, 0, tasks.0);
            set(&mut bytes.control, REGIONS, 0, regions.0);
            if bit(3) {
                set(&mut bytes.control, MAP, 1, 65);
            }
            if bit(0) {
                bytes.control.truncate(8191);
            }
            if bit(1) {
                bytes.area.truncate(4096);
            }
            if bit(2) {
                bytes.strips -= 1;
            }
            let of = |bit: bool, code: u64| if bit { code } else { 0 };
            let told =
                [of(bit(0), 1), tasks.1, regions.1, of(bit(1), 2), of(bit(2), 2), of(bit(3), 14), of(bit(4), 23)];
            let due = told.into_iter().find(|&code| code != 0).unwrap_or(20);
            self.expect(ORDER, &bytes, length, due)?;
        }
        Ok(())
    }

    /// Every length up to the row's and some more, on one side of a guard page or the other, of a state in the middle
    /// of a run and of a fresh pool for each number of regions.
    fn lengths_of_row(&mut self) -> Result<(), Parted> {
        let valid = damage::valid(&mut self.random);
        let most = if self.report == Report::Keepers { pool::REGIONS as u64 } else { 0 };
        let fresh = (1..=most).map(fresh);
        let name = format!("a row of {} bytes or more is taken, a shorter one is 23", self.report.bytes_told());
        for bytes in std::iter::once(valid).chain(fresh) {
            let whole = self.report.bytes(bytes.regions());
            for length in (0..whole + 10).chain([2 * whole, 65_536]) {
                self.expect(&name, &bytes, length, if length < whole { 23 } else { 20 })?;
            }
        }
        Ok(())
    }

    /// In a fresh pool all blocks of a region stand in one cache, of a task that is started or not: n blocks are in
    /// range. Then a count of one more, and each link in turn that leads to no block, past the area or not to the end.
    fn whole_caches(&mut self, class: usize) -> Result<(), Parted> {
        let (n, task) = (per_region(class), self.random.below(pool::TASKS as u64) as usize);
        let index = cache_index(task, class);
        let mut bytes = fresh(2);
        let blocks: Vec<u64> = (0..n).map(|block| block * units(class)).collect();
        link_cache(&mut bytes, (task, class), &blocks);
        self.expect_whole(FULL, &bytes, 20)?;
        for count in [n + 1, n - 1, 0, 65_535] {
            let mut other = bytes.clone();
            set(&mut other.control, COUNT, index, count);
            self.expect_whole(COUNTS, &other, 14)?;
        }
        let mut longer = bytes.clone();
        set_link(&mut longer, 0, (n - 1) * units(class));
        set(&mut longer.control, COUNT, index, n + 1);
        self.expect_whole(COUNTS, &longer, 14)?;
        for block in [0, 1, n / 2, n - 1] {
            let end = block == 0;
            let inside = if units(class) > 1 { 1 } else { 1024 };
            for link in [inside, 1024, 8191, 8193, 65_536 + 8192, u64::from(u32::MAX), if end { 0 } else { 8192 }] {
                let mut other = bytes.clone();
                set_link(&mut other, block * units(class), link);
                self.expect_whole(LINKS, &other, 14)?;
            }
        }
        Ok(())
    }
}
