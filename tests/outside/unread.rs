//! What no call but a start reads or writes: the bytes of control that belong to no field, and the cache entries that
//! no class has. With other bytes there every call answers the same and changes the same.

use crate::checks::{Checks, Parted};
use crate::classes::CLASSES;
use crate::damage::{self, Bytes};
use crate::fourteen_cases::{held, held_strip};
use crate::layout::*;
use crate::library::{self, Lent};
use crate::memory::Side;
use crate::pool::{self, Request};
use crate::random::Random;
use crate::strips::STRIPS;
use std::sync::LazyLock;

const UNREAD: &str = "unread: other bytes where no field of a class is change no call";
const STATES: u64 = 12;
const CALLS: u64 = 300;

/// For each byte of control, whether no call but a start reads or writes it.
static OUTSIDE: LazyLock<Vec<bool>> = LazyLock::new(|| {
    let mut outside = outside_fields();
    for column in [TOP, COUNT] {
        for task in 0..pool::TASKS {
            let bytes = |class| column.first + column.width * cache_index(task, class);
            outside[bytes(CLASSES)..bytes(CACHE_STRIDE)].fill(true);
        }
    }
    outside
});

/// Goes on from states in the middle of a run, each with its own bytes there and with others.
pub fn round(seed: u64, checks: &mut Checks) {
    let mut random = Random::new(seed ^ 0x0B5E_55ED);
    for _ in 0..STATES {
        let bytes = damage::valid(&mut random);
        let _ = go_on(&bytes, &mut random, checks);
    }
}

fn go_on(bytes: &Bytes, random: &mut Random, checks: &mut Checks) -> Result<(), Parted> {
    let mut noise = vec![0; bytes.control.len()];
    random.fill(&mut noise);
    let lent = |control: &[u8]| Lent::closed(control, &bytes.area, bytes.strips, Side::EndsAtGuard);
    let (mut one, mut other) = (lent(&bytes.control), lent(&with_noise(&bytes.control, &noise)));
    for _ in 0..CALLS {
        let request = request(one.control.bytes(), one.area.bytes(), random);
        let answer = library::call(&mut one, request);
        let again = library::call(&mut other, request);
        let same = answer == again
            && with_noise(one.control.bytes(), &noise) == other.control.bytes()
            && one.area.bytes() == other.area.bytes();
        checks.hold(UNREAD, same, || format!("{request:?}: {answer:?} and {again:?}"))?;
    }
    Ok(())
}

/// The control memory with other bytes where no call but a start reads or writes.
fn with_noise(control: &[u8], noise: &[u8]) -> Vec<u8> {
    let bytes = control.iter().zip(noise).zip(OUTSIDE.iter());
    bytes.map(|((&byte, &other), &outside)| if outside { other } else { byte }).collect()
}

/// A step of a task that has a request; else the beginning of one.
fn request(control: &[u8], area: &[u8], random: &mut Random) -> Request {
    let task = random.below(get(control, TASKS, 0));
    let bytes = Bytes { control: control.to_vec(), area: area.to_vec(), strips: STRIPS as usize };
    let unit = if random.one_in(4) { held_strip(&bytes) } else { held(&bytes) };
    match unit {
        _ if get(control, TASK_PLACE, task as usize) != 0 => Request::Step { task },
        _ if random.one_in(12) => Request::Leave { task },
        Some(unit) if random.one_in(2) => Request::Free { task, unit },
        _ if random.one_in(4) => Request::Allocate { task, size: random.next() % STRIPS >> random.below(9) | 257 },
        _ => Request::Allocate { task, size: random.from_to(1, 256) },
    }
}
