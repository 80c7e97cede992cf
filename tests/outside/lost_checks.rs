//! The library's numbers of lost exchanges beside those of the requests' histories, along the runs.

use crate::checks::Parted;
use crate::driver::Driver;
use crate::layout::{self, TASK_LOST};
use crate::library::Reply;
use crate::losses::is_told;
use crate::pool::{Call, TASKS};

const TOLD: &str = "lost exchanges: the step that finishes or ends a request tells how many it lost";
const NOT_TOLD: &str = "lost exchanges: every other answer tells 0";

impl Driver<'_> {
    /// Compares the number that a call told with the one that is due.
    pub fn compare_lost(&mut self, call: Call, reply: Reply, due: u64) -> Result<(), Parted> {
        self.told = reply.lost;
        let name = if is_told(reply.answer.0) { TOLD } else { NOT_TOLD };
        self.checks.hold(name, reply.lost == due, || format!("{call:?}: {reply:?} where {due} are due"))
    }

    /// Each task's number as it stands in the memory: that of its request, or of its last one.
    pub fn numbers_stand(&self) -> Result<(), String> {
        for task in 0..TASKS {
            let stands = layout::get(self.lent.control.bytes(), TASK_LOST, task);
            let due = self.losses.number(task, self.pool.fault);
            if stands != due {
                return Err(format!("task {task}: {stands} where {due} is due"));
            }
        }
        Ok(())
    }

    /// Writes a task's number between two calls, as if its request had lost so many exchanges.
    pub fn set_lost(&mut self, task: usize, number: u64) {
        layout::set(self.lent.control.bytes_mut(), TASK_LOST, task, number);
        self.control_before.copy_from_slice(self.lent.control.bytes());
        self.losses.set(task, number);
    }
}
