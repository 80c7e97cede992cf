//! The reports of the library: the stock sheet, the form by holder and the regions' keepers. All are made of the same
//! stock: how many blocks of each open region stand with each holder. The keepers also tell of regions that are not
//! open.

use crate::form;
use crate::keepers;
use crate::pool::{REGIONS, TASKS};
use crate::sheet;

/// The holders in the order of the form: "the marks, the caches of tasks 0 to 7, the requests of tasks 0 to 7, the
/// chains of open regions".
pub const HANDS: usize = 0;
pub const CHAINS: usize = 17;
pub const HOLDERS: usize = 18;

pub const fn cache(task: usize) -> usize {
    1 + task
}

pub const fn request(task: usize) -> usize {
    9 + task
}

/// How many blocks of a region, which is open in the class, stand with each holder, and the lowest of those that are in
/// hand or cached.
pub struct OpenRegion {
    pub class: usize,
    pub region: usize,
    pub blocks: [u64; HOLDERS],
    pub lowest: [Option<u64>; HOLDERS],
}

impl OpenRegion {
    pub fn new(class: usize, region: usize) -> OpenRegion {
        OpenRegion { class, region, blocks: [0; HOLDERS], lowest: [None; HOLDERS] }
    }

    /// Notes that the holder has these blocks.
    pub fn note(&mut self, holder: usize, units: &[u64]) {
        self.blocks[holder] = units.len() as u64;
        self.lowest[holder] = units.iter().min().copied();
    }
}

/// What the reports tell of.
pub struct Stock {
    /// How many regions the area has.
    pub regions: usize,
    pub open: Vec<OpenRegion>,
    /// The region that each task has itself, off every list and not open.
    pub itself: [Option<usize>; TASKS],
    /// The regions on the list of the spare ones.
    pub spare: Vec<usize>,
}

#[derive(Clone, Copy, PartialEq, Eq, Debug)]
pub enum Report {
    Sheet,
    Form,
    Keepers,
}

pub const REPORTS: [Report; 3] = [Report::Sheet, Report::Form, Report::Keepers];

/// The lengths of rows that just suffice for an area of so many regions.
pub fn whole(regions: usize) -> [usize; REPORTS.len()] {
    REPORTS.map(|report| report.bytes(regions))
}

impl Report {
    pub fn name(self) -> &'static str {
        match self {
            Report::Sheet => "sheet",
            Report::Form => "form",
            Report::Keepers => "keepers",
        }
    }

    /// How many bytes of its row it writes for an area of so many regions.
    pub const fn bytes(self, regions: usize) -> usize {
        match self {
            Report::Sheet => sheet::BYTES,
            Report::Form => form::BYTES,
            Report::Keepers => keepers::place(regions),
        }
    }

    /// The same for the largest area.
    pub const fn most_bytes(self) -> usize {
        self.bytes(REGIONS)
    }

    /// The same as a document writes it.
    pub fn bytes_told(self) -> &'static str {
        match self {
            Report::Sheet => "1,664",
            Report::Form => "468",
            Report::Keepers => "4 × regions",
        }
    }

    /// The bytes that it writes for this stock; none where a region has no keeper.
    pub fn row(self, stock: &Stock) -> Option<Vec<u8>> {
        match self {
            Report::Sheet => Some(sheet::row(&stock.open)),
            Report::Form => Some(form::row(&stock.open)),
            Report::Keepers => keepers::row(stock),
        }
    }

    /// The name of a check of it.
    pub fn check(self, what: &str) -> String {
        format!("{}: {what}", self.name())
    }
}

/// A number of a row: two bytes, low byte first.
pub fn number(row: &[u8], first: usize) -> u64 {
    u64::from(row[first]) + 256 * u64::from(row[first + 1])
}

/// Writes numbers behind each other.
pub fn put_numbers(row: &mut [u8], first: usize, numbers: &[u64]) {
    for (two, number) in row[first..].chunks_mut(2).zip(numbers) {
        two.copy_from_slice(&number.to_le_bytes()[..2]);
    }
}
