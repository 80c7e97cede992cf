//! The stored schedules of the stand, NAME.hex in hexadecimal with comments and NAME.in as bytes, and their tables
//! NAME.out: the plain pool has to print them, too. A file NAME.sheet is the stock sheet after the last record,
//! NAME.holders the form by holder, and NAME.keepers the regions' keepers. All were worked out from the paper or come
//! from another model, so that this holds the plain pool against both.

use crate::checks::Checks;
use crate::holders;
use crate::report::{Report, REPORTS};
use crate::stand;
use std::path::{Path, PathBuf};

const TABLES: &str = "stand: the plain pool prints the stored table";

/// The bytes of a schedule.
pub fn schedule(path: &Path) -> Result<Vec<u8>, String> {
    let bytes = std::fs::read(path).map_err(|error| format!("{}: {error}", path.display()))?;
    if path.extension().is_none_or(|kind| kind != "hex") {
        return Ok(bytes);
    }
    let text = String::from_utf8_lossy(&bytes);
    let digits: String = text.lines().flat_map(|line| line.split('#').next()).collect();
    let digits: Vec<char> = digits.chars().filter(|digit| !digit.is_whitespace()).collect();
    let byte = |pair: &[char]| u8::from_str_radix(&pair.iter().collect::<String>(), 16);
    digits.chunks(2).map(|pair| byte(pair).map_err(|error| format!("{}: {error}", path.display()))).collect()
}

/// Compares every stored table of the folder and of its folders, and every stored report.
pub fn compare(folder: &str, checks: &mut Checks) {
    let paths = schedules(Path::new(folder));
    let _ = checks.hold("stand: there are stored schedules", !paths.is_empty(), || folder.to_string());
    for path in paths {
        let Ok(bytes) = schedule(&path) else {
            let _ = checks.hold(TABLES, false, || format!("{} cannot be read", path.display()));
            continue;
        };
        let reports = REPORTS.iter().filter(|&&report| compare_report(report, &path, &bytes, checks)).count();
        if reports > 0 && !path.with_extension("out").exists() {
            continue;
        }
        let due = std::fs::read_to_string(path.with_extension("out")).unwrap_or_default();
        let _ = checks.hold(TABLES, stand::output(&bytes) == due, || format!("{}", path.display()));
    }
}

/// Whether a report of the schedule is stored; then it is compared.
fn compare_report(report: Report, path: &Path, schedule: &[u8], checks: &mut Checks) -> bool {
    let kind = match report {
        Report::Sheet => "sheet",
        Report::Form => "holders",
        Report::Keepers => "keepers",
    };
    let Ok(due) = std::fs::read_to_string(path.with_extension(kind)) else { return false };
    let row = holders::row(report, &stand::pool_after(schedule));
    let same = row.is_some_and(|row| hexadecimal(&row) == due);
    let name = format!("stand: the plain pool has the stored {} after the schedule", report.name());
    let _ = checks.hold(&name, same, || format!("{}", path.display()));
    true
}

/// A row in hexadecimal, 32 bytes a line.
fn hexadecimal(row: &[u8]) -> String {
    let line = |bytes: &[u8]| bytes.iter().map(|byte| format!("{byte:02x}")).collect::<String>() + "\n";
    row.chunks(32).map(line).collect()
}

fn schedules(folder: &Path) -> Vec<PathBuf> {
    let entries = std::fs::read_dir(folder).into_iter().flatten().flatten();
    let mut paths = Vec::new();
    for path in entries.map(|entry| entry.path()) {
        if path.is_dir() {
            paths.extend(schedules(&path));
        } else if path.extension().is_some_and(|kind| kind == "hex" || kind == "in") {
            paths.push(path);
        }
    }
    paths.sort();
    paths
}
