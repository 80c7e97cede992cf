//! Calls with odd numbers and lengths among those of a random schedule.

use crate::classes::{per_region, tail, units, REGION, UNITS_PER_REGION};
use crate::pool::{Call, Request, CONTROL, REGIONS};
use crate::schedules::Schedule;
use crate::strips::{unit_of, FIRST_UNIT, SLOTS, STRIPS};

const LENGTHS: [u64; 14] = [0, 1, 4095, 4096, 4097, 8191, 8192, 8193, 16384, 65535, 65536, 65537, 69632, 131_072];

impl Schedule<'_, '_> {
    /// A call of any numbers and lengths. A start among them is always one that is refused.
    pub fn odd_call(&mut self) -> Call {
        let random = &mut self.driver.random;
        let control = if random.percent(15) { random.pick(&LENGTHS) } else { CONTROL };
        let area = if random.percent(20) { random.pick(&LENGTHS) } else { self.driver.lent.area.len() as u64 };
        let strips = if random.percent(15) { random.pick(&LENGTHS) } else { STRIPS };
        let request = match random.below(7) {
            0 => return self.odd_start(control, area, strips),
            1 | 2 => Request::Allocate { task: self.odd_task(), size: self.odd_size() },
            3 | 4 => Request::Free { task: self.odd_task(), unit: self.odd_unit() },
            5 => Request::Leave { task: self.odd_task() },
            _ => Request::Step { task: self.odd_task() },
        };
        Call { control, area, strips, request }
    }

    fn odd_start(&mut self, control: u64, area: u64, strips: u64) -> Call {
        let random = &mut self.driver.random;
        let tasks = if random.one_in(2) { random.number() } else { random.below(10) };
        let valid = control == CONTROL && (1..=REGIONS as u64).contains(&(area / REGION)) && area % REGION == 0;
        let accepted = valid && strips == STRIPS && (1..=8).contains(&tasks);
        let tasks = if accepted { tasks + 8 } else { tasks };
        Call { control, area, strips, request: Request::Start { tasks } }
    }

    fn odd_task(&mut self) -> u64 {
        let tasks = self.tasks();
        let random = &mut self.driver.random;
        if tasks == 0 || random.percent(15) {
            random.number()
        } else {
            random.below(tasks)
        }
    }

    fn odd_size(&mut self) -> u64 {
        let random = &mut self.driver.random;
        match random.below(3) {
            0 => 0,
            1 => STRIPS + 1 + (random.next() >> random.below(64)) % (u64::MAX - STRIPS),
            _ => random.number(),
        }
    }

    /// A unit: one of the strips' memory, any number, any unit of the area, one beside a held block, the first behind a
    /// region's last block, or any block of a class in use.
    fn odd_unit(&mut self) -> u64 {
        if self.driver.random.percent(10 + self.style.strips / 2) {
            return self.odd_strip_unit();
        }
        let held = self.block_to_free();
        let random = &mut self.driver.random;
        let class = random.pick(&self.in_use);
        let region = random.below(REGIONS as u64 + 1) * UNITS_PER_REGION;
        match (random.below(5), held) {
            (0, _) => random.number(),
            (1, _) => random.below(self.driver.lent.area.len() as u64 / 8),
            (2, Some(held)) => held.unit.wrapping_add(random.below(3)).wrapping_sub(1),
            (3, _) => region + tail(class),
            _ => region + random.below(per_region(class)) * units(class),
        }
    }

    /// A unit of the strips' memory: where a piece begins, beside or inside it, where a slot begins, any, or past it.
    fn odd_strip_unit(&mut self) -> u64 {
        let random = &mut self.driver.random;
        let pieces = &self.driver.pool.strips.pieces;
        let piece = &pieces[random.below(pieces.len() as u64) as usize];
        let first = unit_of(piece.place);
        match random.below(6) {
            0 => first,
            1 => first + random.pick(&[1, 8, 63]),
            2 => unit_of(piece.place + random.below(piece.slots() as u64) as usize),
            3 => unit_of(random.below(SLOTS as u64) as usize),
            4 => FIRST_UNIT + random.below(FIRST_UNIT),
            _ => random.pick(&[16_383, 16_384, 16_385, 16_448, 24_576, FIRST_UNIT + 65_536, FIRST_UNIT + (1 << 32)]),
        }
    }
}
