//! Deliberate faults of the library's reports: after a true call the row, the memories or the answer are changed as a
//! broken library would leave them.

use crate::classes::{CLASSES, UNITS_PER_REGION};
use crate::faults::Fault;
use crate::form;
use crate::keepers;
use crate::layout::{View, DESCRIPTOR_CLASS, MAP};
use crate::library::{Lent, Reply};
use crate::memory::Memory;
use crate::pool::{Answer, REGIONS, TASKS};
use crate::report::{cache, number, put_numbers, Report, HANDS, HOLDERS, REPORTS};
use crate::report_bytes::in_hand;
use crate::sheet;
use crate::tamper::{flip, TAMPERING};
use crate::tamper_keepers::{each_unit, high_first};
use crate::tamper_lost;

/// What a broken library does alike to each report.
#[derive(Clone, Copy)]
enum Deed {
    Marks,
    WritesControl,
    WritesArea,
    RefusedRow,
    Further,
    ShortPassed,
    LongRefused,
    DamagePassed,
    ShortFirst,
    HighFirst,
}

/// The deeds, with the fault of each report.
const DEEDS: [(Deed, [Fault; REPORTS.len()]); 10] = [
    (Deed::Marks, [Fault::SheetMarks, Fault::FormMarks, Fault::KeepersMarks]),
    (Deed::WritesControl, [Fault::SheetWritesControl, Fault::FormWritesControl, Fault::KeepersWritesControl]),
    (Deed::WritesArea, [Fault::SheetWritesArea, Fault::FormWritesArea, Fault::KeepersWritesArea]),
    (Deed::RefusedRow, [Fault::SheetRefusedRow, Fault::FormRefusedRow, Fault::KeepersRefusedRow]),
    (Deed::Further, [Fault::SheetFurther, Fault::FormFurther, Fault::KeepersFurther]),
    (Deed::ShortPassed, [Fault::SheetShortPassed, Fault::FormShortPassed, Fault::KeepersShortPassed]),
    (Deed::LongRefused, [Fault::SheetLongRefused, Fault::FormLongRefused, Fault::KeepersLongRefused]),
    (Deed::DamagePassed, [Fault::SheetDamagePassed, Fault::FormDamagePassed, Fault::KeepersDamagePassed]),
    (Deed::ShortFirst, [Fault::SheetShortFirst, Fault::FormShortFirst, Fault::KeepersShortFirst]),
    (Deed::HighFirst, [Fault::SheetHighFirst, Fault::FormHighFirst, Fault::KeepersHighFirst]),
];

fn deed(report: Report, fault: Fault) -> Option<Deed> {
    DEEDS.iter().find(|(_, faults)| faults[report as usize] == fault).map(|(deed, _)| *deed)
}

pub fn after(report: Report, lent: &mut Lent, row: &mut Memory, reply: Reply) -> Reply {
    let Some(&fault) = TAMPERING.get() else { return reply };
    let answer = change(report, fault, lent, row, reply.answer);
    tamper_lost::after_report(lent, Reply { answer, ..reply })
}

fn change(report: Report, fault: Fault, lent: &mut Lent, row: &mut Memory, answer: Answer) -> Answer {
    let (done, whole) = (answer.0 == 20, report.bytes(lent.area.len() / 4096));
    if done {
        change_row(report, fault, lent, row);
    }
    match deed(report, fault) {
        Some(Deed::Marks) if done => count_all_marks(report, lent, row),
        Some(Deed::WritesControl) if done => flip(&mut lent.control, 7000),
        Some(Deed::WritesArea) if done => flip(&mut lent.area, 4),
        Some(Deed::RefusedRow) if !done => flip(row, 0),
        Some(Deed::Further) if done => flip(row, whole),
        Some(Deed::ShortPassed) if answer.0 == 23 && row.len() + 1 == whole => return (20, 0),
        Some(Deed::LongRefused) if done && row.len() > whole => return (23, 0),
        Some(Deed::DamagePassed) if answer.0 == 14 && row.len() >= whole => return (20, 0),
        Some(Deed::ShortFirst) if answer.0 == 14 && row.len() < whole => return (23, 0),
        Some(Deed::HighFirst) if done && report == Report::Keepers => each_unit(row, whole, high_first),
        Some(Deed::HighFirst) if done => each_number(row, whole, |number| number.swap(0, 1)),
        _ => (),
    }
    answer
}

/// The faults of the numbers of one report alone.
fn change_row(report: Report, fault: Fault, lent: &Lent, row: &mut Memory) {
    let whole = report.bytes(lent.area.len() / 4096);
    match (report, fault) {
        (Report::Sheet, Fault::SheetByRegion) => by_region(row),
        (Report::Form, Fault::FormByHolder) => by_holder(row),
        (Report::Form, Fault::FormLowByte) => each_number(row, whole, |number| number[1] = 0),
        (Report::Form, Fault::FormHighByte) => each_number(row, whole, |number| number[0] = 0),
        (Report::Form, Fault::FormClosedMarks) => count_closed_marks(lent, row),
        (Report::Form, Fault::FormAllCached) => count_all_cached(lent, row),
        (Report::Keepers, Fault::KeepersOfRegion) => each_unit(row, whole, |unit| unit % UNITS_PER_REGION),
        _ => (),
    }
}

fn each_number(row: &mut Memory, whole: usize, change: fn(&mut [u8])) {
    row.bytes_mut()[..whole].chunks_mut(2).for_each(change);
}

fn view(lent: &Lent) -> View<'_> {
    View { control: lent.control.bytes(), area: lent.area.bytes() }
}

/// Each region that has a descriptor, with the class of that one and whether the region is open in it. Where a report
/// is given, every map entry is in its range, but only the class of an open region has to be.
fn classes(lent: &Lent) -> impl Iterator<Item = (usize, usize, bool)> + '_ {
    (0..lent.area.len() / 4096).filter_map(|region| {
        let descriptor = (view(lent).get(MAP, region) as usize).checked_sub(1)?;
        let class = view(lent).get(DESCRIPTOR_CLASS, descriptor) as usize;
        (class < CLASSES).then_some((region, class, view(lent).open(region).is_some()))
    })
}

/// Adds to the number that begins at this byte.
fn add(row: &mut Memory, first: usize, more: u64) {
    let sum = number(row.bytes(), first) + more;
    put_numbers(row.bytes_mut(), first, &[sum]);
}

/// How many blocks of the class and region are in hand.
fn held(lent: &Lent, class: usize, region: usize) -> u64 {
    in_hand(&view(lent), class, region).len() as u64
}

/// Takes every mark of an open region for a block in hand, also those outside the first units of its blocks.
fn count_all_marks(report: Report, lent: &Lent, row: &mut Memory) {
    for (region, class, _) in classes(lent).filter(|&(_, _, open)| open) {
        let first = region as u64 * UNITS_PER_REGION;
        let marked: Vec<u64> =
            (first..first + UNITS_PER_REGION).filter(|&unit| view(lent).mark(unit as usize)).collect();
        let more = marked.len() as u64 - held(lent, class, region);
        match (report, marked.first()) {
            (Report::Sheet, _) => add(row, sheet::place(class, region), more),
            (Report::Form, _) => add(row, form::place(class) + 2 * HANDS, more),
            (Report::Keepers, Some(&unit)) => keepers::put(row.bytes_mut(), region, keepers::in_hand(unit)),
            _ => (),
        }
    }
}

/// Counts the marks of regions that are not open, too, in the class of their descriptor.
fn count_closed_marks(lent: &Lent, row: &mut Memory) {
    for (region, class, _) in classes(lent).filter(|&(_, _, open)| !open) {
        add(row, form::place(class) + 2 * HANDS, held(lent, class, region));
    }
}

/// Counts every cached block, also where its region is not open in the cache's class.
fn count_all_cached(lent: &Lent, row: &mut Memory) {
    for (class, task) in (0..CLASSES).flat_map(|class| (0..TASKS).map(move |task| (class, task))) {
        let cached = view(lent).cache(task, class).map_or(0, |units| units.len() as u64);
        let counted = form::line(row.bytes(), class)[cache(task)];
        add(row, form::place(class) + 2 * cache(task), cached - counted);
    }
}

/// The lines region by region, and in each class by class.
fn by_region(row: &mut Memory) {
    let before = row.bytes().to_vec();
    for class in 0..CLASSES {
        for region in 0..REGIONS {
            let number = CLASSES * region + class;
            sheet::put(row.bytes_mut(), number / REGIONS, number % REGIONS, sheet::four(&before, class, region));
        }
    }
}

/// The numbers holder by holder, and for each class by class.
fn by_holder(row: &mut Memory) {
    let before = row.bytes().to_vec();
    for class in 0..CLASSES {
        for holder in 0..HOLDERS {
            put_numbers(row.bytes_mut(), 2 * (CLASSES * holder + class), &[form::line(&before, class)[holder]]);
        }
    }
}
