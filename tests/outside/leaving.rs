//! A task that leaves: "in rising order of class, each non-empty cache is returned as in free, steps 2 to 6, and one
//! further step, after all are empty, finishes the request." Its steps 2 to 6 are those of a free; here is what comes
//! before, between and behind them.

use crate::classes::CLASSES;
use crate::faults::Fault;
use crate::pool::{Answer, Place, Pool, Under};

impl Pool {
    /// "Beginning a request does no step." Leaving begins with the first cache that is not empty.
    pub fn begin_leave(&mut self, task: usize) -> Answer {
        self.tasks[task].leaving = true;
        self.tasks[task].under = Under::Nothing;
        let next = self.next_cached(task, 0);
        match (self.fault, next) {
            (Fault::LeaveAtOnce, None) => self.finish(task, 0),
            (Fault::LeaveBeginsStep, Some(_)) => {
                self.leave_with(task, next);
                self.step(task)
            }
            _ => self.leave_with(task, next),
        }
    }

    /// What follows the return of a whole cache: the next one that is not empty, without a step.
    pub fn leave_after(&mut self, task: usize, class: usize) -> Answer {
        let next = match self.fault {
            Fault::LeaveSkips => self.next_cached(task, class + 2),
            Fault::LeaveEmptySteps => Some(class + 1).filter(|&next| next < CLASSES),
            _ => self.next_cached(task, class + 1),
        };
        if next.is_none() && self.fault == Fault::LeaveEndsEarly {
            return self.finish(task, 0);
        }
        self.leave_with(task, next)
    }

    fn leave_with(&mut self, task: usize, next: Option<usize>) -> Answer {
        let Some(class) = next else { return self.go(task, Place::Leave) };
        self.tasks[task].class = class;
        self.go(task, Place::Group)
    }

    /// "Empty caches take no step": the first class from this one on whose cache is not empty.
    fn next_cached(&self, task: usize, first: usize) -> Option<usize> {
        let owner = self.owner_of_caches(task);
        let cached = |class: &usize| !self.caches[owner][*class].is_empty();
        match self.fault {
            Fault::LeaveFalling => (0..CLASSES).rev().find(cached),
            Fault::LeaveSkipsLast => (first..CLASSES - 1).find(cached),
            _ => (first..CLASSES).find(cached),
        }
    }

    /// Whose caches the request returns: the task's own, but for one deliberate fault.
    pub fn owner_of_caches(&self, task: usize) -> usize {
        match self.fault {
            Fault::LeaveOthers if self.tasks[task].leaving => (task + 1) % self.started_tasks as usize,
            _ => task,
        }
    }

    /// Free 6: whether a further group of the same cache follows.
    pub fn returns_more(&self, task: usize, class: usize) -> bool {
        let one = self.fault == Fault::LeaveOneGroup && self.tasks[task].leaving;
        !one && !self.caches[self.owner_of_caches(task)][class].is_empty()
    }

    /// "one further step, after all are empty, finishes the request", "with 20, value 0". "The task may begin again
    /// afterwards."
    pub fn finish_leaving(&mut self, task: usize) -> Answer {
        let (class, unit) = (self.tasks[task].class, self.tasks[task].unit);
        match self.fault {
            Fault::LeaveKeeps => return (20, 0),
            Fault::LeaveValue => return self.finish(task, unit),
            Fault::LeavePushesUnit => self.caches[task][class].push(unit),
            _ => (),
        }
        self.finish(task, 0)
    }
}
