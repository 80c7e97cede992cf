//! The stand over the plain pool: a function from the bytes of a schedule to the table that the program prints.

use crate::faults::Fault;
use crate::pool::{Answer, Call, Pool, Request, CONTROL};
use crate::strips::STRIPS;

/// "Input past 65,536 bytes is not read".
pub const LIMIT: usize = 65_536;
/// "The stand keeps an area of 16,384 bytes"; "more than 4 regions is 2". Its memory for strips has 65,536 bytes.
const MOST_REGIONS: u64 = 4;

pub struct Stand {
    pool: Pool,
    /// The length lent with calls that are no start: that of the last accepted start.
    lent: u64,
    records: u64,
    finished: u64,
    accepted: u64,
    others: u64,
    lines: String,
}

/// The whole output for an input.
pub fn output(input: &[u8]) -> String {
    played(input).close()
}

/// The pool after the last record of an input.
pub fn pool_after(input: &[u8]) -> Pool {
    played(input).pool
}

fn played(input: &[u8]) -> Stand {
    let mut stand = Stand::new();
    let mut rest = &input[..input.len().min(LIMIT)];
    while !rest.is_empty() {
        match stand.record(rest) {
            Some(length) => rest = &rest[length..],
            None => break,
        }
    }
    stand
}

/// The bytes of a record's body, by its kind: "1 start (tasks, regions); 2 allocate (task, size in two bytes, low
/// first); 3 free (task, unit in two bytes, low first); 4 step (task); 5 run (task, most steps in two bytes, low
/// first)". "The stand gets kind 6, body one task byte."
fn body_length(kind: u8) -> Option<usize> {
    match kind {
        1 => Some(2),
        2 | 3 | 5 => Some(3),
        4 | 6 => Some(1),
        _ => None,
    }
}

impl Stand {
    pub fn new() -> Stand {
        let lines = "record kind code value\n".to_string();
        Stand { pool: Pool::new(Fault::None), lent: 16_384, records: 0, finished: 0, accepted: 0, others: 0, lines }
    }

    /// Treats the first record of a row of bytes that is not empty. Answers its length, or none where it is unknown or
    /// cut: "After 15 it stops, and only the last line follows."
    pub fn record(&mut self, bytes: &[u8]) -> Option<usize> {
        let kind = bytes[0];
        let body = body_length(kind).and_then(|length| bytes.get(1..1 + length));
        let answer = match body {
            Some(body) => self.treat(kind, body),
            None => (15, 0),
        };
        self.print(kind, answer);
        body.map(|body| 1 + body.len())
    }

    /// The answer to a whole record, also for those who write schedules.
    pub fn treat(&mut self, kind: u8, body: &[u8]) -> Answer {
        let task = u64::from(body[0]);
        let word = if body.len() == 3 { u64::from(body[1]) + 256 * u64::from(body[2]) } else { 0 };
        match kind {
            1 => self.start(task, u64::from(body[1])),
            2 => self.ask(Request::Allocate { task, size: word }),
            3 => self.ask(Request::Free { task, unit: word }),
            4 => self.ask(Request::Step { task }),
            5 => self.run(task, word),
            _ => self.ask(Request::Leave { task }),
        }
    }

    fn start(&mut self, tasks: u64, regions: u64) -> Answer {
        if regions > MOST_REGIONS {
            return (2, 0);
        }
        let area = regions * 4096;
        let answer =
            self.pool.call(&Call { control: CONTROL, area, strips: STRIPS, request: Request::Start { tasks } });
        if answer.0 == 0 {
            self.lent = area;
        }
        answer
    }

    fn ask(&mut self, request: Request) -> Answer {
        self.pool.call(&Call { control: CONTROL, area: self.lent, strips: STRIPS, request })
    }

    /// "which stops at a finish, an end or a refusal (most 0: code 0, no call made)". "A run shows its last call's
    /// answer."
    fn run(&mut self, task: u64, most: u64) -> Answer {
        let mut answer = (0, 0);
        for _ in 0..most {
            answer = self.ask(Request::Step { task });
            if answer.0 != 0 {
                break;
            }
        }
        answer
    }

    fn print(&mut self, kind: u8, (code, value): Answer) {
        self.lines.push_str(&format!("{} {kind} {code} {value}\n", self.records));
        self.records += 1;
        match code {
            20 => self.finished += 1,
            0 => self.accepted += 1,
            _ => self.others += 1,
        }
    }

    /// "The last line counts codes 20, codes 0 and the others."
    fn close(mut self) -> String {
        self.lines.push_str(&format!("total {} {} {}\n", self.finished, self.accepted, self.others));
        self.lines
    }
}
