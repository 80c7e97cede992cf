//! Random schedules: one style's choices, call by call.

use crate::checks::Parted;
use crate::classes::{block, class_of, CLASSES};
use crate::driver::Driver;
use crate::lists::{Move, Phase};
use crate::pool::{Call, Place, Request, CONTROL};
use crate::strips::{LEAST_SIZE, SLOT, STRIPS};
use crate::styles::{Order, Style, Turn};
use crate::users::Held;

pub struct Schedule<'a, 'b> {
    pub driver: &'b mut Driver<'a>,
    pub style: &'b Style,
    pub in_use: Vec<usize>,
    filling: bool,
    turn: u64,
    turn_left: u64,
    frozen: Option<(u64, u64)>,
}

impl<'a, 'b> Schedule<'a, 'b> {
    pub fn new(driver: &'b mut Driver<'a>, style: &'b Style) -> Self {
        Schedule { driver, style, in_use: vec![CLASSES - 1], filling: true, turn: 0, turn_left: 0, frozen: None }
    }

    /// The whole schedule: some calls before the first start, the start, then call after call.
    pub fn run(&mut self) -> Result<(), Parted> {
        for _ in 0..5 {
            let call = self.odd_call();
            self.driver.call(call)?;
        }
        self.start()?;
        self.go_on(self.style.calls)
    }

    /// This many further calls, with a comparison of structure now and then.
    pub fn go_on(&mut self, calls: u64) -> Result<(), Parted> {
        self.choose_classes();
        for number in 0..calls {
            self.one()?;
            if number % 97 == 0 {
                self.driver.compare_structure()?;
            }
        }
        self.driver.compare_structure()
    }

    /// Stops a task before the exchange of this move and lets the others go on until the item that it read is on top
    /// again though the list has moved; then lets it try. Gives up after so many calls.
    pub fn stop_until_same_item(&mut self, what: Move, most: u64) -> Result<(), Parted> {
        let place = Place::List(what, Phase::Exchange);
        for _ in 0..most {
            let stands = |task: &u64| self.driver.pool.tasks[*task as usize].place == place;
            let stopped = self.frozen.map(|(task, _)| task).filter(stands);
            let stopped = stopped.or_else(|| (0..self.tasks()).find(stands));
            self.frozen = stopped.map(|task| (task, 1));
            if let Some(task) = stopped.filter(|&task| self.driver.pool.same_item_again(task as usize, what)) {
                self.frozen = None;
                return self.driver.ask(Request::Step { task }).map(|_| ());
            }
            self.one()?;
        }
        self.frozen = None;
        Ok(())
    }

    /// This many calls and no comparison of structure.
    pub fn some(&mut self, calls: u64) -> Result<(), Parted> {
        (0..calls).try_for_each(|_| self.one())
    }

    fn one(&mut self) -> Result<(), Parted> {
        if self.driver.random.one_in(self.style.odd) {
            let call = self.odd_call();
            self.driver.call(call)?;
        }
        if self.driver.random.one_in(self.style.restart) {
            return self.start();
        }
        if !self.driver.held.is_empty() && self.driver.random.one_in(10) {
            let index = self.driver.random.below(self.driver.held.len() as u64) as usize;
            self.driver.user_fills(index);
        }
        self.swing();
        let task = self.choose_task();
        let request = match self.driver.pool.tasks[task as usize].place {
            Place::Idle => self.beginning(task),
            _ => Request::Step { task },
        };
        let answer = self.driver.ask(request)?;
        if matches!(answer.0, 12 | 13 | 16) {
            self.filling = self.filling && self.driver.random.one_in(4);
        }
        Ok(())
    }

    pub fn start(&mut self) -> Result<(), Parted> {
        let tasks = self.driver.random.from_to(self.style.tasks.0, self.style.tasks.1);
        let regions = self.driver.random.from_to(self.style.regions.0, self.style.regions.1);
        self.frozen = None;
        let call = Call { control: CONTROL, area: regions * 4096, strips: STRIPS, request: Request::Start { tasks } };
        self.driver.call(call)?;
        self.filling = true;
        self.driver.compare_structure()
    }

    /// Turns between filling and emptying.
    fn swing(&mut self) {
        if self.driver.random.one_in(self.style.swing) {
            self.filling = !self.filling;
        }
        if !self.filling && self.driver.held.is_empty() {
            self.filling = true;
            self.choose_classes();
        }
    }

    fn choose_classes(&mut self) {
        let (first, last) = (class_of(self.style.blocks.0), class_of(self.style.blocks.1));
        let random = &mut self.driver.random;
        let wanted = random.from_to(1, self.style.at_once);
        self.in_use = (0..wanted).map(|_| random.from_to(first as u64, last as u64) as usize).collect();
    }

    pub fn tasks(&self) -> u64 {
        self.driver.pool.started_tasks
    }

    fn at_exchange(&self, task: u64) -> bool {
        self.driver.pool.tasks[task as usize].place.is_exchange()
    }

    fn choose_task(&mut self) -> u64 {
        self.freeze_or_thaw();
        for _ in 0..4 {
            let task = self.turn_of();
            let frozen = self.frozen.is_some_and(|(stopped, _)| stopped == task);
            let stalls = self.at_exchange(task) && self.driver.random.percent(self.style.stall);
            if !frozen && !stalls {
                return task;
            }
            self.turn_left = 0;
        }
        self.turn_of()
    }

    fn freeze_or_thaw(&mut self) {
        if let Some((task, left)) = self.frozen {
            self.frozen = (left > 0).then(|| (task, left - 1));
        } else if self.driver.random.one_in(self.style.freeze) {
            let anywhere = self.driver.random.one_in(5);
            let stops = |&task: &u64| anywhere || self.driver.pool.tasks[task as usize].place.is_worth_a_stop();
            let standing: Vec<u64> = (0..self.tasks()).filter(stops).collect();
            if !standing.is_empty() {
                let task = self.driver.random.pick(&standing);
                self.frozen = Some((task, self.driver.random.from_to(10, 1500)));
            }
        }
    }

    fn turn_of(&mut self) -> u64 {
        let tasks = self.tasks();
        match self.style.turn {
            Turn::Any => self.turn = self.driver.random.below(tasks),
            Turn::Around => self.turn = (self.turn + 1) % tasks,
            Turn::Bursts(_) if self.turn_left > 0 => self.turn_left -= 1,
            Turn::Bursts(most) => {
                self.turn = self.driver.random.below(tasks);
                self.turn_left = self.driver.random.below(most);
            }
        }
        self.turn % tasks
    }

    /// What an idle task begins.
    fn beginning(&mut self, task: u64) -> Request {
        if self.driver.random.one_in(self.style.leave) {
            return Request::Leave { task };
        }
        let leaning = if self.style.swing == 0 { 100 } else { 88 };
        let allocates = self.driver.random.percent(leaning) == self.filling;
        match self.block_to_free() {
            Some(held) if !allocates => Request::Free { task, unit: held.unit },
            _ => Request::Allocate { task, size: self.size() },
        }
    }

    /// A size of one of the classes in use, or that of a strip.
    fn size(&mut self) -> u64 {
        if self.driver.random.percent(self.style.strips) {
            return self.strip_size();
        }
        let class = self.driver.random.pick(&self.in_use);
        let below = if class == 0 { 0 } else { block(class - 1) };
        self.driver.random.from_to(below + 1, block(class))
    }

    /// A size of one of the style's orders, often the smallest or the largest of the order.
    fn strip_size(&mut self) -> u64 {
        let (first, last) = self.style.orders;
        let random = &mut self.driver.random;
        let largest = SLOT << random.from_to(first as u64, last as u64);
        let smallest = (largest / 2 + 1).max(LEAST_SIZE);
        match random.below(4) {
            0 => smallest,
            1 => largest,
            _ => random.from_to(smallest, largest),
        }
    }

    pub fn block_to_free(&mut self) -> Option<Held> {
        let held = &self.driver.held;
        if held.is_empty() {
            return None;
        }
        match self.style.order {
            Order::Any => Some(held[self.driver.random.below(held.len() as u64) as usize]),
            Order::Rising => held.iter().min_by_key(|held| held.unit).copied(),
            Order::Newest => held.last().copied(),
        }
    }
}
