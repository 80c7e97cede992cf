//! The eight functions of the library, called with numbers and the three memories as the firmware in C calls them.

use crate::memory::{within_time, Memory, Side};
use crate::pool::{Answer, Request};
use crate::report::Report;
use crate::tamper;
use crate::tamper_lost;
use crate::tamper_report;

unsafe extern "C" {
    fn pool_start(
        control: *mut u8,
        control_length: u64,
        area: *const u8,
        area_length: u64,
        strips: *const u8,
        strips_length: u64,
        tasks: u64,
    ) -> u64;
    fn pool_begin_allocate(
        control: *mut u8,
        control_length: u64,
        area: *const u8,
        area_length: u64,
        strips: *const u8,
        strips_length: u64,
        task: u64,
        size: u64,
    ) -> u64;
    fn pool_begin_free(
        control: *mut u8,
        control_length: u64,
        area: *const u8,
        area_length: u64,
        strips: *const u8,
        strips_length: u64,
        task: u64,
        unit: u64,
    ) -> u64;
    fn pool_begin_leave(
        control: *mut u8,
        control_length: u64,
        area: *const u8,
        area_length: u64,
        strips: *const u8,
        strips_length: u64,
        task: u64,
    ) -> u64;
    fn pool_step(
        control: *mut u8,
        control_length: u64,
        area: *mut u8,
        area_length: u64,
        strips: *const u8,
        strips_length: u64,
        task: u64,
    ) -> u64;
}

/// The reports are called alike.
macro_rules! reports {
    ($($name:ident)*) => {
        unsafe extern "C" {
            $(fn $name(
                control: *const u8,
                control_length: u64,
                area: *const u8,
                area_length: u64,
                strips: *const u8,
                strips_length: u64,
                row: *mut u8,
                row_length: u64,
            ) -> u64;)*
        }
    };
}

reports! { pool_sheet pool_holders pool_keepers }

/// What a call answers: "code in the low 8 bits, value in the next 24, lost exchanges in the high 32".
#[derive(Clone, Copy, PartialEq, Eq, Debug)]
pub struct Reply {
    pub answer: Answer,
    pub lost: u64,
}

impl Reply {
    fn of(number: u64) -> Reply {
        Reply { answer: (number & 0xFF, number >> 8 & 0xFF_FFFF), lost: number >> 32 }
    }

    /// Whether it is this answer, and no lost exchanges are told.
    pub fn is(self, answer: Answer) -> bool {
        self == Reply { answer, lost: 0 }
    }
}

/// The three memories that a call is lent.
pub struct Lent {
    pub control: Memory,
    pub area: Memory,
    pub strips: Memory,
}

impl Lent {
    /// Memories with these bytes, and one for the strips that may be neither read nor written: a call that does it ends
    /// the program at once.
    pub fn closed(control: &[u8], area: &[u8], strips_length: usize, side: Side) -> Lent {
        let strips = Memory::closed(strips_length, side);
        Lent { control: Memory::with(control, side), area: Memory::with(area, side), strips }
    }

    /// Whether what lies beside the memories on their pages is as it was.
    pub fn slack_untouched(&self) -> bool {
        self.control.slack_untouched() && self.area.slack_untouched() && self.strips.slack_untouched()
    }
}

/// One call of the library.
pub fn call(lent: &mut Lent, request: Request) -> Reply {
    let before = tamper::before(lent, request);
    let numbers = tamper_lost::before(lent);
    let (c, c_length) = (lent.control.pointer(), lent.control.len() as u64);
    let (a, a_length) = (lent.area.pointer(), lent.area.len() as u64);
    let (s, s_length) = (lent.strips.pointer(), lent.strips.len() as u64);
    // SAFETY: the three memories are lent for the call with their true lengths.
    let number = unsafe {
        match request {
            Request::Start { tasks } => pool_start(c, c_length, a, a_length, s, s_length, tasks),
            Request::Allocate { task, size } => pool_begin_allocate(c, c_length, a, a_length, s, s_length, task, size),
            Request::Free { task, unit } => pool_begin_free(c, c_length, a, a_length, s, s_length, task, unit),
            Request::Leave { task } => pool_begin_leave(c, c_length, a, a_length, s, s_length, task),
            Request::Step { task } => pool_step(c, c_length, a, a_length, s, s_length, task),
        }
    };
    let place = before.place;
    let reply = Reply::of(number);
    let answer = tamper::after(lent, request, before, reply.answer);
    tamper_lost::after(lent, request, place, numbers, Reply { answer, ..reply })
}

/// A report of the library, written into the row.
pub fn report(report: Report, lent: &mut Lent, row: &mut Memory) -> Reply {
    let reply = true_report(report, lent, row);
    tamper_report::after(report, lent, row, reply)
}

/// The same without a deliberate fault.
pub fn true_report(report: Report, lent: &Lent, row: &mut Memory) -> Reply {
    let (c, c_length) = (lent.control.pointer(), lent.control.len() as u64);
    let (a, a_length) = (lent.area.pointer(), lent.area.len() as u64);
    let (s, s_length) = (lent.strips.pointer(), lent.strips.len() as u64);
    let called = match report {
        Report::Sheet => pool_sheet,
        Report::Form => pool_holders,
        Report::Keepers => pool_keepers,
    };
    let (r, r_length) = (row.pointer(), row.len() as u64);
    // SAFETY: the three memories and the row are lent for the call with their true lengths.
    let number = within_time(|| unsafe { called(c, c_length, a, a_length, s, s_length, r, r_length) });
    Reply::of(number)
}
