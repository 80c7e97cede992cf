//! The lost exchanges of each request, from the plain pool and the schedule alone: "The pop and push of a list, and the
//! change of an anchor, are to count the lost exchanges, and the finishing step gives the request's sum." The plain
//! pool itself does not know of it: "The two runs are compared without this number."

use crate::faults::Fault;
use crate::pool::{Answer, Event, Place, Request, TASKS};

/// "or is 4,294,967,295 where there were more".
pub const MOST: u64 = 4_294_967_295;

/// Whether the step that answers this code gives the number: it finishes or ends the request. "Requests that end with
/// 12, 13 or 16 give it also. Every other answer gives 0."
pub fn is_told(code: u64) -> bool {
    matches!(code, 20 | 12 | 13 | 16)
}

/// The part of a request's history that is about lost exchanges.
#[derive(Clone, Default)]
struct History {
    /// The number that it began with: 0, but where a test has written another into the memory.
    from: u64,
    /// The place of each lost exchange.
    lost: Vec<usize>,
}

/// The history of each task's request, or of its last one.
#[derive(Clone, Default)]
pub struct Losses {
    tasks: [History; TASKS],
}

impl Losses {
    /// Notes a call that was made on the plain pool, with the place of the task before it. Answers the number that the
    /// call has to give.
    pub fn note(&mut self, request: Request, place: Place, event: Event, answer: Answer, fault: Fault) -> u64 {
        match (request, answer.0) {
            (Request::Start { .. }, 0) if fault != Fault::LostStartKeeps => *self = Losses::default(),
            (Request::Allocate { task, .. } | Request::Free { task, .. } | Request::Leave { task }, code) => {
                if keeps(request, code, fault) {
                    return 0;
                }
                self.tasks[task as usize] = History::default();
            }
            (Request::Step { task }, 0 | 12 | 13 | 16 | 20) => return self.step(task, place, event, answer.0, fault),
            _ => (),
        }
        0
    }

    fn step(&mut self, task: u64, place: Place, event: Event, code: u64, fault: Fault) -> u64 {
        let task = task as usize;
        if is_counted(place, event, fault) {
            self.tasks[task].lost.push(place.number());
            if fault == Fault::LostOfOthers {
                self.tasks[(task + 1) % TASKS].lost.push(place.number());
            }
        } else if fault == Fault::LostLastMove && event == Event::Won {
            self.tasks[task].lost.clear();
        }
        let told = match fault {
            Fault::LostUnderWay => is_told(code) || code == 0,
            Fault::LostNotAt12 => is_told(code) && code != 12,
            Fault::LostNotAt13 => is_told(code) && code != 13,
            Fault::LostNotAtLeave => is_told(code) && place != Place::Leave,
            _ => is_told(code),
        };
        if told {
            self.number(task, fault)
        } else {
            0
        }
    }

    /// The lost exchanges of the task's request so far.
    pub fn number(&self, task: usize, fault: Fault) -> u64 {
        let sum = self.tasks[task].from + self.tasks[task].lost.len() as u64;
        match fault {
            Fault::LostWraps => sum % (MOST + 1),
            Fault::LostStopsEarly => sum.min(MOST - 1),
            Fault::LostSixteenBits => sum % 65_536,
            _ => sum.min(MOST),
        }
    }

    /// The places of the lost exchanges of the task's request so far.
    pub fn places(&self, task: usize) -> &[usize] {
        &self.tasks[task].lost
    }

    /// The task's request has this number from here on, whatever it had.
    pub fn set(&mut self, task: usize, number: u64) {
        self.tasks[task] = History { from: number, lost: Vec::new() };
    }
}

/// Whether a beginning leaves the number: a refused one, or an accepted one with a deliberate fault.
fn keeps(request: Request, code: u64, fault: Fault) -> bool {
    let strip = match request {
        Request::Allocate { size, .. } => size >= crate::strips::LEAST_SIZE,
        Request::Free { unit, .. } => unit >= crate::strips::FIRST_UNIT,
        _ => false,
    };
    let leave = matches!(request, Request::Leave { .. });
    match fault {
        Fault::LostKept => true,
        Fault::LostStripKeeps => code != 0 || strip,
        Fault::LostLeaveKeeps => code != 0 || leave,
        Fault::LostRefusedClears => code != 0 && code != 6,
        _ => code != 0,
    }
}

/// Whether the step counts: it is an exchange that was lost.
fn is_counted(place: Place, event: Event, fault: Fault) -> bool {
    let lost = matches!(event, Event::Lost | Event::LostSameTop);
    let anchor = matches!(place, Place::TakeChain | Place::ReturnGroup);
    match fault {
        Fault::LostHeadsUncounted => lost && anchor,
        Fault::LostAnchorsUncounted => lost && !anchor,
        Fault::LostTakesUncounted => lost && place != Place::TakeChain,
        Fault::LostPushesUncounted => lost && !matches!(place, Place::List(what, _) if !what.is_pop()),
        Fault::LostSameUncounted => event == Event::Lost,
        Fault::LostWonCounted => place.is_exchange(),
        _ => lost,
    }
}
