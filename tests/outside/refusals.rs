//! The refusal numbers of the plain pool and the order of their tests.

use crate::classes::REGION;
use crate::faults::Fault;
use crate::pool::{Call, Place, Pool, Request, ALL_UNITS, CONTROL};
use crate::strips::{FIRST_UNIT, STRIPS};

impl Pool {
    /// The number by which the call is refused, or 0. "Start tests 1, 2, 3. Other calls test 1, 4, 2, 5, then 6 or 7,
    /// then 8, 9 or 10, 11." Test 2 is that of the area, then that of the strips.
    pub fn refusal(&self, call: &Call) -> u64 {
        match call.request {
            Request::Start { tasks } => self.start_refusal(call, tasks),
            Request::Allocate { task, size } => {
                first(&[self.common(call, task), self.busy(task), self.size_refusal(size)])
            }
            Request::Free { task, unit } => first(&[self.common(call, task), self.busy(task), self.unit_refusal(unit)]),
            Request::Leave { task } => first(&[self.common(call, task), self.busy_to_leave(task)]),
            Request::Step { task } => first(&[self.common(call, task), self.idle(task)]),
        }
    }

    /// "1 control not 8,192 bytes", "4 pool not started", "2 area length [...] not the started one", "5 no such task".
    fn common(&self, call: &Call, task: u64) -> u64 {
        let one = number_if(1, call.control != CONTROL);
        let four = number_if(4, self.started_tasks == 0);
        let two = first(&[number_if(2, call.area != self.area_length), self.strips_length(call)]);
        let five = number_if(5, task >= self.started_tasks);
        match self.fault {
            Fault::OrderOfTests => first(&[one, two, four, five]),
            Fault::TaskBeforeLength => first(&[one, four, five, two]),
            Fault::StripsLengthLate => first(&[one, four, two, five, number_if(2, call.strips != STRIPS)]),
            _ => first(&[one, four, two, five]),
        }
    }

    fn has_request(&self, task: u64) -> bool {
        task < self.started_tasks && self.tasks[task as usize].place != Place::Idle
    }

    /// "6 the task has a request in hand".
    fn busy(&self, task: u64) -> u64 {
        number_if(6, self.has_request(task))
    }

    /// "Tests for a request in hand apply as for any other."
    fn busy_to_leave(&self, task: u64) -> u64 {
        match self.fault {
            Fault::LeaveWhileBusy => 0,
            _ => self.busy(task),
        }
    }

    /// "7 step without one".
    fn idle(&self, task: u64) -> u64 {
        number_if(7, !self.has_request(task))
    }

    /// "10 not the first unit of a block of an open region; 11 such a unit, but its mark is clear".
    fn unit_refusal(&self, unit: u64) -> u64 {
        if unit >= FIRST_UNIT {
            return self.strip_refusal(unit);
        }
        let clear = unit < ALL_UNITS as u64 && !self.marks[unit as usize];
        if self.fault == Fault::MarkBeforeBlock && clear {
            return 11;
        }
        first(&[number_if(10, self.block_at(unit).is_none()), number_if(11, clear)])
    }

    /// "2 area length zero, no multiple of 4,096 or above 65,536", "3 tasks not 1 to 8".
    fn start_refusal(&self, call: &Call, tasks: u64) -> u64 {
        let one = number_if(1, call.control != CONTROL);
        let bad_area = call.area == 0 || call.area % REGION != 0 || call.area > 65_536;
        let two = first(&[number_if(2, bad_area), self.strips_length(call)]);
        let three = number_if(3, !(1..=8).contains(&tasks));
        match self.fault {
            Fault::StripsLengthLate => first(&[one, two, three, number_if(2, call.strips != STRIPS)]),
            _ => first(&[one, two, three]),
        }
    }

    /// "a second area of another length is 2".
    fn strips_length(&self, call: &Call) -> u64 {
        let untested = matches!(self.fault, Fault::StripsLengthUntested | Fault::StripsLengthLate);
        number_if(2, call.strips != STRIPS && !untested)
    }

    /// "8 size 0", "9 now means above 65,536".
    fn size_refusal(&self, size: u64) -> u64 {
        let largest = if self.fault == Fault::NineAbove256 { 256 } else { STRIPS };
        first(&[number_if(8, size == 0), number_if(9, size > largest)])
    }
}

fn number_if(number: u64, refused: bool) -> u64 {
    if refused {
        number
    } else {
        0
    }
}

/// The first number that is not 0.
fn first(numbers: &[u64]) -> u64 {
    numbers.iter().copied().find(|&number| number != 0).unwrap_or(0)
}
