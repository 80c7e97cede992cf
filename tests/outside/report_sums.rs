//! The form and the keepers beside the sheet of the same memories: what the form has by holder and the sheet by region
//! adds up to the same, and the kind of a keeper goes with the numbers of its region.

use crate::classes::{CLASSES, UNITS_PER_REGION};
use crate::form;
use crate::keepers::{self, told, CACHED, IN_HAND, REQUEST, SPARE};
use crate::sheet;

/// "every class total equals that of the sheet by region".
pub fn same_totals(sheet: &[u8], form: &[u8]) -> Result<(), String> {
    of_each_class(|class| (form::columns(form, class).iter().sum(), sheet::columns(sheet, class).iter().sum::<u64>()))
}

/// The same of each column of the sheet: the marks, all caches, all requests and the chains.
pub fn same_columns(sheet: &[u8], form: &[u8]) -> Result<(), String> {
    of_each_class(|class| (form::columns(form, class), sheet::columns(sheet, class)))
}

fn of_each_class<T: PartialEq + std::fmt::Debug>(both: impl Fn(usize) -> (T, T)) -> Result<(), String> {
    for class in 0..CLASSES {
        let (form, sheet) = both(class);
        if form != sheet {
            return Err(format!("class {class}: {form:?} on the form, {sheet:?} on the sheet"));
        }
    }
    Ok(())
}

/// A region with blocks in hand on the sheet is kept by one of them; else one with cached blocks by such a block; else
/// one with blocks at requests by a request. Any other is kept by a request or by the spare list.
pub fn same_kinds(sheet: &[u8], row: &[u8]) -> Result<(), String> {
    for region in 0..row.len() / keepers::place(1) {
        let numbers @ [held, cached, running, _] = sheet::of_region(sheet, region);
        let keeper = told(row, region);
        let in_region = keeper.unit / UNITS_PER_REGION == region as u64;
        let fits = match keeper.kind {
            IN_HAND => held > 0 && in_region,
            CACHED => held == 0 && cached > 0 && in_region,
            REQUEST => held == 0 && cached == 0,
            SPARE => held == 0 && cached == 0 && running == 0,
            _ => false,
        };
        if !fits {
            return Err(format!("region {region}: {keeper:?} beside {numbers:?} on the sheet"));
        }
    }
    Ok(())
}
