//! The library's reports beside the plain pool's, along the runs.

use crate::checks::Parted;
use crate::classes::{per_region, CLASSES};
use crate::driver::Driver;
use crate::form::line;
use crate::holders::stock;
use crate::keepers::told;
use crate::keepers_coverage::When;
use crate::library;
use crate::pool::{Pool, REGIONS};
use crate::report::{Report, Stock, REPORTS};
use crate::report_sums;
use crate::sheet::four;
use crate::structure::regions_of;
use crate::users::Held;

const SAME: &str = "the library's is that of the plain pool";
const SAME_AFTER_13: &str = "right after a step that ended with 13 the library's is that of the plain pool";
const ANSWER: &str = "in a run it is answered by 20, before the first start by 4, with no lost exchanges told";
const KEPT: &str = "it changes no byte of the three memories, and none of its row behind the first";
const SUMS: &str = "sheet: the four numbers of an open region add up to n, those of others are 0";
const TOTALS: &str = "form: the total of each class is that of the library's sheet";
const COLUMNS: &str = "form: its numbers add up to the columns of the library's sheet";
const KINDS: &str = "keepers: each kind goes with the four numbers of the region on the library's sheet";

/// The bytes of a run's row behind those of the report.
pub const FURTHER: usize = 6;

/// "the four numbers of an open region add up to its n"; "A region that is not open in the class shows four zeros."
fn adds_up(pool: &Pool, row: &[u8]) -> Result<(), String> {
    for region in 0..REGIONS {
        let open = if region < regions_of(pool) { pool.open(region) } else { None };
        for class in 0..CLASSES {
            let due = match open {
                Some(index) if pool.descriptors[index].class == class => per_region(class),
                _ => 0,
            };
            let numbers = four(row, class, region);
            if numbers.iter().sum::<u64>() != due {
                return Err(format!("class {class}, region {region}: {numbers:?} where {due} are due"));
            }
        }
    }
    Ok(())
}

/// The first line in which two rows differ, with what both have there.
fn difference(report: Report, row: &[u8], due: &[u8]) -> String {
    let lines = |row: &[u8]| -> Vec<(String, String)> {
        let of_both =
            |class, region| (format!("class {class}, region {region}"), format!("{:?}", four(row, class, region)));
        let of_class = |class| (format!("class {class}"), format!("{:?}", line(row, class)));
        let of_region = |region| (format!("region {region}"), format!("{:?}", told(row, region)));
        match report {
            Report::Sheet => (0..CLASSES * REGIONS).map(|at| of_both(at / REGIONS, at % REGIONS)).collect(),
            Report::Form => (0..CLASSES).map(of_class).collect(),
            Report::Keepers => (0..row.len().min(due.len()) / 4).map(of_region).collect(),
        }
    };
    let differ = lines(row).into_iter().zip(lines(due)).find(|(told, due)| told != due);
    differ.map_or(String::new(), |(told, due)| format!("{}: {} where {} is due", told.0, told.1, due.1))
}

impl Driver<'_> {
    /// What the last call of a report wrote.
    pub fn written(&self, report: Report) -> Vec<u8> {
        self.rows[report as usize].bytes()[..report.bytes(regions_of(&self.pool))].to_vec()
    }

    /// Takes the library's reports and compares them with the plain pool's. The rows are filled with another byte each
    /// time.
    pub fn compare_reports(&mut self) -> Result<(), Parted> {
        let filled = self.random.next() as u8;
        for report in REPORTS {
            self.take(report, filled)?;
            match report {
                _ if self.pool.started_tasks == 0 => (),
                Report::Sheet => self.compare_sheet()?,
                Report::Form => self.compare_form()?,
                Report::Keepers => {
                    self.compare_keepers(When::AlongRuns)?;
                    let (sheet, keepers) = (self.written(Report::Sheet), self.written(Report::Keepers));
                    self.checks.agree(KINDS, report_sums::same_kinds(&sheet, &keepers))?;
                }
            }
        }
        Ok(())
    }

    /// Takes the keepers alone, of the pool right after a step that ended with 13.
    pub fn compare_keepers_after_13(&mut self) -> Result<(), Parted> {
        let filled = self.random.next() as u8;
        self.take(Report::Keepers, filled)?;
        self.compare_keepers(When::After13)
    }

    fn take(&mut self, report: Report, filled: u8) -> Result<(), Parted> {
        let row = &mut self.rows[report as usize];
        row.bytes_mut().fill(filled);
        let reply = library::report(report, &mut self.lent, row);
        let whole = report.bytes(regions_of(&self.pool));
        let (due, length) = if self.pool.started_tasks > 0 { ((20, 0), whole) } else { ((4, 0), 0) };
        self.checks.hold(&report.check(ANSWER), reply.is(due), || format!("{reply:?} where {due:?} is due"))?;
        let kept = self.lent.control.bytes() == self.control_before
            && self.lent.area.bytes() == self.area_before
            && self.lent.strips.bytes() == self.strips_before
            && row.bytes()[length..].iter().all(|&byte| byte == filled);
        let name = format!("{} {}", report.check(KEPT), report.bytes_told());
        self.checks.hold(&name, kept, || "a byte changed".to_string())
    }

    fn compare_sheet(&mut self) -> Result<(), Parted> {
        self.coverage.sheet.count(&self.pool, self.held.iter().any(Held::is_strip));
        self.compare_row(SAME, Report::Sheet, &stock(Report::Sheet, &self.pool))?;
        self.checks.agree(SUMS, adds_up(&self.pool, &self.written(Report::Sheet)))
    }

    /// The form beside the sheet that was taken just before, then beside the plain pool.
    fn compare_form(&mut self) -> Result<(), Parted> {
        let stock = stock(Report::Form, &self.pool);
        self.coverage.form.count(&stock.open);
        let (sheet, form) = (self.written(Report::Sheet), self.written(Report::Form));
        self.checks.agree(TOTALS, report_sums::same_totals(&sheet, &form))?;
        self.checks.agree(COLUMNS, report_sums::same_columns(&sheet, &form))?;
        self.compare_row(SAME, Report::Form, &stock)
    }

    fn compare_keepers(&mut self, when: When) -> Result<(), Parted> {
        let stock = stock(Report::Keepers, &self.pool);
        self.coverage.keepers.count(when, &self.pool, &stock);
        let same = if when == When::After13 { SAME_AFTER_13 } else { SAME };
        self.compare_row(same, Report::Keepers, &stock)
    }

    fn compare_row(&mut self, same: &str, report: Report, stock: &Stock) -> Result<(), Parted> {
        let (row, due) = (self.written(report), report.row(stock));
        let message = || due.as_ref().map_or("a region has no keeper".to_string(), |due| difference(report, &row, due));
        self.checks.hold(&report.check(same), due.as_ref() == Some(&row), message)
    }
}
