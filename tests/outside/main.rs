//! Tests of the block pool from outside: the static library against a plain pool written from the paper alone.

mod arbitrary;
mod arbitrary_counts;
mod checks;
mod classes;
mod collisions;
mod coverage;
mod damage;
mod directed;
mod driver;
mod expected;
mod faults;
mod fitting;
mod form;
mod form_directed;
mod form_uncounted;
mod fourteen;
mod fourteen_cases;
mod fourteen_leaving;
mod fourteen_strips;
mod frames;
mod holders;
mod keepers;
mod keepers_coverage;
mod keepers_directed;
mod keepers_made;
mod keepers_ranges;
mod layout;
mod leave_coverage;
mod leave_directed;
mod leave_steps;
mod leaving;
mod library;
mod lists;
mod losses;
mod lost_checks;
mod lost_coverage;
mod lost_directed;
mod lost_numbers;
mod lost_steps;
mod made;
mod memory;
mod odd_calls;
mod pieces;
mod places;
mod pool;
mod random;
mod ranges;
mod refusals;
mod report;
mod report_arbitrary;
mod report_bytes;
mod report_cases;
mod report_checks;
mod report_coverage;
mod report_fourteen;
mod report_keepers_cases;
mod report_refusals;
mod report_shared_cases;
mod report_sums;
mod report_trial;
mod schedules;
mod sheet;
mod sheet_directed;
mod slots;
mod stand;
mod stand_test;
mod steps;
mod stored;
mod strip_checks;
mod strip_coverage;
mod strip_steps;
mod strips;
mod strips_directed;
mod structure;
mod styles;
mod table;
mod tamper;
mod tamper_keepers;
mod tamper_lost;
mod tamper_report;
mod unread;
mod users;
mod written;

use checks::Checks;
use coverage::Coverage;
use driver::Driver;
use faults::Fault;
use schedules::Schedule;
use std::time::{Duration, Instant};
use styles::STYLES;
use written::WRITTEN;

/// What the arguments ask for. Without `--seconds` the amount of work is fixed.
struct Options {
    seed: u64,
    seconds: Option<u64>,
    fault: Fault,
    fault_name: String,
    /// The stand program, where it has been built, and the folder of its stored schedules.
    stand: Option<String>,
    stored: Option<String>,
}

const FIXED_ROUNDS: u64 = 16;
/// One in this many rounds tries what the reports refuse, which is mostly the same each time.
const REFUSALS_EVERY: u64 = 8;

fn usage() -> ! {
    eprintln!("usage: outside [--seed N] [--seconds N] [--stand PROGRAM] [--stored FOLDER]");
    eprintln!("       outside --fault NAME | --list-faults | --table SCHEDULE");
    std::process::exit(2)
}

/// Prints the plain pool's table of a schedule, with no call of the library.
fn table_of(path: &str) -> ! {
    match stored::schedule(path.as_ref()) {
        Ok(bytes) => print!("{}", stand::output(&bytes)),
        Err(message) => eprintln!("{message}"),
    }
    std::process::exit(0)
}

fn options() -> Options {
    let mut options =
        Options { seed: 1, seconds: None, fault: Fault::None, fault_name: String::new(), stand: None, stored: None };
    let mut words = std::env::args().skip(1);
    while let Some(word) = words.next() {
        if word == "--list-faults" {
            faults::FAULTS.iter().for_each(|(_, name, what)| println!("{name}\t{what}"));
            std::process::exit(0)
        }
        let value = words.next().unwrap_or_else(|| usage());
        match word.as_str() {
            "--seed" => options.seed = value.parse().unwrap_or_else(|_| usage()),
            "--seconds" => options.seconds = Some(value.parse().unwrap_or_else(|_| usage())),
            "--stand" => options.stand = Some(value),
            "--stored" => options.stored = Some(value),
            "--table" => table_of(&value),
            "--fault" => {
                options.fault = faults::named(&value).unwrap_or_else(|| usage());
                options.fault_name = value;
            }
            _ => usage(),
        }
    }
    options
}

/// How many schedules a round has: every written one, then every style.
fn schedules_of_a_round() -> usize {
    WRITTEN.len() + STYLES.len()
}

/// One schedule on a fresh driver. A schedule ends at its first failure, which the checks keep.
fn schedule(options: &Options, round: u64, index: usize, checks: &mut Checks, coverage: &mut Coverage) {
    let seed = options.seed.wrapping_mul(1_000_003).wrapping_add(round * 128 + index as u64);
    let style = index.checked_sub(WRITTEN.len()).map(|index| &STYLES[index]);
    checks.context =
        format!("round {round}, {}", style.map_or(format!("written schedule {index}"), |style| style.name.into()));
    let mut driver = Driver::new(1 + seed % pool::REGIONS as u64, seed, options.fault, checks, coverage);
    let _ = match style {
        Some(style) => Schedule::new(&mut driver, style).run(),
        None => WRITTEN[index](&mut driver),
    };
}

/// What the calls on arbitrary and on damaged memories reached.
#[derive(Default)]
struct Reached {
    arbitrary: arbitrary::Counts,
    tried: fourteen::Tried,
    reports: report_arbitrary::Counts,
    reports_tried: report_fourteen::Tried,
}

impl Reached {
    fn report(&self, checks: &mut Checks) {
        self.arbitrary.print();
        self.arbitrary.report(checks);
        fourteen::report(&self.tried, checks);
        self.reports.print();
        self.reports.report(checks);
        report_fourteen::report(&self.reports_tried, checks);
    }
}

/// The round's calls on arbitrary and on damaged memories.
fn memories(options: &Options, round: u64, checks: &mut Checks, reached: &mut Reached) {
    checks.context = format!("round {round}, arbitrary memories");
    let seed = options.seed.wrapping_add(round);
    unread::round(seed, checks);
    arbitrary::round(options.seed.wrapping_add(round << 32), checks, &mut reached.arbitrary);
    fourteen::round(seed, checks, &mut reached.tried, &mut reached.reports_tried);
    if round % REFUSALS_EVERY == 0 {
        report_refusals::round(seed, checks);
        form_uncounted::round(seed, checks);
        keepers_made::round(seed, checks);
    }
    report_arbitrary::round(seed, checks, &mut reached.reports);
}

/// Runs with a fault stop at the first failure and say which check made it. Where the fault leads the plain pool into
/// a state that it cannot go on from, nothing was compared there, so that does not count as caught.
fn run_fault(options: &Options) -> bool {
    let (mut checks, mut coverage, mut reached) = (Checks::default(), Coverage::default(), Reached::default());
    std::panic::set_hook(Box::new(|_| ()));
    let _ = tamper::TAMPERING.set(options.fault);
    for number in 0..FIXED_ROUNDS {
        for index in 0..schedules_of_a_round() {
            let body = || {
                schedule(options, number, index, &mut checks, &mut coverage);
                if index + 1 == schedules_of_a_round() {
                    memories(options, number, &mut checks, &mut reached);
                }
            };
            let _ = std::panic::catch_unwind(std::panic::AssertUnwindSafe(body));
            if let Some((check, message)) = checks.first_failure() {
                let short: String = message.split("; last calls").next().unwrap_or("").chars().take(200).collect();
                println!("{}\t{}\t{}\t{}", options.fault_name, check, coverage.calls, short);
                return true;
            }
        }
    }
    println!("{}\tNOT CAUGHT\t{}\t", options.fault_name, coverage.calls);
    false
}

/// The checks that need no round: the table of classes and the stand.
fn once(options: &Options, checks: &mut Checks) {
    let _ = checks.agree("table of classes is the paper's series", classes::agrees_with_the_paper());
    stand_test::by_itself(checks);
    if let Some(folder) = &options.stored {
        stored::compare(folder, checks);
    }
    match &options.stand {
        Some(program) => stand_test::against_program(program, options.seed, checks),
        None => {
            let _ = checks.agree("the stand's program is there", Err("no --stand PROGRAM".to_string()));
        }
    }
}

fn main() {
    let options = options();
    memory::catch_faults();
    if options.fault != Fault::None {
        std::process::exit(if run_fault(&options) { 0 } else { 1 });
    }
    let (mut checks, mut coverage, mut reached) = (Checks::default(), Coverage::default(), Reached::default());
    let begun = Instant::now();
    once(&options, &mut checks);
    let mut number = 0;
    let goes_on = |number: u64| match options.seconds {
        Some(seconds) => begun.elapsed() < Duration::from_secs(seconds),
        None => number < FIXED_ROUNDS,
    };
    while number == 0 || goes_on(number) {
        for index in 0..schedules_of_a_round() {
            schedule(&options, number, index, &mut checks, &mut coverage);
        }
        memories(&options, number, &mut checks, &mut reached);
        number += 1;
    }
    checks.context = "all rounds".to_string();
    coverage.print();
    coverage.report(&mut checks);
    reached.report(&mut checks);
    println!("rounds: {number}; seed: {}", options.seed);
    std::process::exit(if checks.report() { 0 } else { 1 })
}
