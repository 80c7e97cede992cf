//! Calls of a report on memories of its own, beside guard pages: they may only be read, the strips' memory not even
//! that. The answer and every byte of the row are checked, and the reports of the same memories against each other.

use crate::checks::{Checks, Parted};
use crate::damage::Bytes;
use crate::library::{self, Lent, Reply};
use crate::memory::{Memory, Side};
use crate::random::Random;
use crate::report::{whole, Report, REPORTS};
use crate::report_bytes;
use crate::report_sums;
use crate::tamper_report;

const CODE: &str = "the code that is due, with no lost exchanges told";
const ROW: &str = "the numbers that are due, and no further byte of the row changes";
const REFUSED: &str = "a refused call changes no byte of the row";
const KEPT: &str = "no byte of the three memories changes, and none beside them";
const TOGETHER: &str = "form of any memories: it is refused as the sheet is, but for the length of the row";
const COLUMNS: &str = "form of any memories: its numbers add up to the columns of the sheet";
const REFUSED_TOO: &str = "keepers of any memories: where the sheet is refused by 1, 2, 4 or 14 they are, too";
const KINDS: &str = "keepers of any memories: each kind goes with the four numbers of the region on the sheet";

/// What a call left.
struct Made {
    report: Report,
    reply: Reply,
    row_before: Vec<u8>,
    row: Vec<u8>,
    /// Whether no byte but those of the row has changed.
    kept: bool,
}

/// The code and the row afterwards.
pub type Told = (u64, Vec<u8>);

/// Makes the call for a row of this length.
pub fn call(
    report: Report,
    bytes: &Bytes,
    length: usize,
    random: &mut Random,
    checks: &mut Checks,
) -> Result<Told, Parted> {
    make(report, bytes, length, random).compared(bytes, checks)
}

/// All reports of the same memories, in their order, with rows of these lengths. They are held against each other
/// before each is held against what is due.
pub fn all(
    bytes: &Bytes,
    lengths: [usize; REPORTS.len()],
    random: &mut Random,
    checks: &mut Checks,
) -> Result<[Told; REPORTS.len()], Parted> {
    let [sheet, form, keepers] = REPORTS.map(|report| make(report, bytes, lengths[report as usize], random));
    let codes = (sheet.code(), form.code());
    let together = codes.0 == codes.1 || matches!(codes, (20 | 23, 20 | 23));
    checks.hold(TOGETHER, together, || format!("{codes:?}"))?;
    let codes = (sheet.code(), keepers.code());
    let refused_too = codes.0 == codes.1 || matches!(codes, (20 | 23, 14 | 20 | 23));
    checks.hold(REFUSED_TOO, refused_too, || format!("{codes:?}"))?;
    if sheet.is_given(bytes) && form.is_given(bytes) {
        checks.agree(COLUMNS, report_sums::same_columns(&sheet.row, &form.row))?;
    }
    if sheet.is_given(bytes) && keepers.is_given(bytes) {
        checks.agree(KINDS, report_sums::same_kinds(&sheet.row, keepers.given(bytes)))?;
    }
    Ok([sheet.compared(bytes, checks)?, form.compared(bytes, checks)?, keepers.compared(bytes, checks)?])
}

/// The same with rows that just suffice.
pub fn all_whole(bytes: &Bytes, random: &mut Random, checks: &mut Checks) -> Result<[Told; REPORTS.len()], Parted> {
    all(bytes, whole(bytes.regions()), random, checks)
}

fn make(report: Report, bytes: &Bytes, length: usize, random: &mut Random) -> Made {
    let mut side = || if random.one_in(2) { Side::EndsAtGuard } else { Side::StartsAtGuard };
    let mut lent = Lent::closed(&bytes.control, &bytes.area, bytes.strips, side());
    let mut row = Memory::new(length, side());
    random.fill(row.bytes_mut());
    let row_before = row.bytes().to_vec();
    let reply = read_only(report, &mut lent, &mut row);
    let kept = lent.control.bytes() == bytes.control && lent.area.bytes() == bytes.area;
    let kept = kept && lent.slack_untouched() && row.slack_untouched();
    Made { report, reply, row_before, row: row.bytes().to_vec(), kept }
}

/// The call while control and area cannot be written: a call that does it ends the program at once.
fn read_only(report: Report, lent: &mut Lent, row: &mut Memory) -> Reply {
    lent.control.writable(false);
    lent.area.writable(false);
    let reply = library::true_report(report, lent, row);
    lent.control.writable(true);
    lent.area.writable(true);
    tamper_report::after(report, lent, row, reply)
}

impl Made {
    fn code(&self) -> u64 {
        self.reply.answer.0
    }

    fn is_given(&self, bytes: &Bytes) -> bool {
        self.code() == 20 && self.row.len() >= self.report.bytes(bytes.regions())
    }

    /// The bytes of the row that are the report's.
    fn given(&self, bytes: &Bytes) -> &[u8] {
        &self.row[..self.report.bytes(bytes.regions())]
    }

    /// Holds it against what is due.
    fn compared(self, bytes: &Bytes, checks: &mut Checks) -> Result<Told, Parted> {
        let Made { report, reply, row_before, row, kept } = self;
        let length = row.len();
        let (code, numbers) = report_bytes::due(report, bytes, length);
        let name = |what| format!("{} of any memories: {what}", report.name());
        checks.hold(&name(CODE), reply.is((code, 0)), || format!("{reply:?} where {code} is due, row of {length}"))?;
        let mut due = row_before;
        due[..numbers.len()].copy_from_slice(&numbers);
        let same = name(if code == 20 { ROW } else { REFUSED });
        checks.hold(&same, row == due, || format!("answer {code}, row of {length}"))?;
        checks.hold(&name(KEPT), kept, || format!("answer {code}"))?;
        Ok((code, row))
    }
}
