//! Written schedules for strips: the bench row, every order, all slots, the refusals and the lengths.

use crate::checks::Parted;
use crate::directed::{allocate, free, start, steps_to_the_end};
use crate::driver::Driver;
use crate::pool::{Answer, Call, Request, CONTROL};
use crate::strips::{unit_of, FIRST_UNIT, LAST_UNIT, ORDERS, SLOT, SLOTS, STRIPS, UNITS_PER_SLOT, WHOLE};

pub fn expect(driver: &mut Driver, name: &str, got: (u64, Answer), due: (u64, Answer)) -> Result<(), Parted> {
    driver.checks.hold(&format!("directed: {name}"), got == due, || format!("{got:?} where {due:?} is due"))
}

/// "The bench row for 257 becomes a strip of 512": the first strip is the first slot, at its first step, and the next
/// one lies one slot further. The largest size is the whole memory, and one more is 9.
pub fn first_strips(driver: &mut Driver) -> Result<(), Parted> {
    start(driver, 1, 1)?;
    let first = allocate(driver, 0, 257)?;
    expect(driver, "257 bytes are a strip at unit 8,192, at the first step", first, (1, (20, FIRST_UNIT)))?;
    let second = allocate(driver, 0, 257)?;
    expect(driver, "the next one begins 512 bytes further", second, (1, (20, FIRST_UNIT + UNITS_PER_SLOT)))?;
    let block = allocate(driver, 0, 256)?;
    expect(driver, "256 bytes are a small block as before", block, (26, (20, 480)))?;
    start(driver, 1, 1)?;
    for (size, due) in [(65_537, 9), (u64::MAX, 9), (0, 8)] {
        let answer = driver.ask(Request::Allocate { task: 0, size })?;
        expect(driver, "sizes that are no strip", (size, answer), (size, (due, 0)))?;
    }
    let whole = allocate(driver, 0, 65_536)?;
    expect(driver, "65,536 bytes are the whole memory", whole, (1, (20, FIRST_UNIT)))?;
    let none = allocate(driver, 0, 257)?;
    expect(driver, "then 257 bytes end with 16", none, (1, (16, 0)))?;
    let given = free(driver, 0, FIRST_UNIT)?;
    expect(driver, "a strip's free finishes at its first step", given, (1, (20, 0)))?;
    driver.compare_structure()
}

/// Of each order: its smallest and its largest size, then as many as there are, 16, and all of them given back by
/// another task, from the middle on.
pub fn every_order(driver: &mut Driver) -> Result<(), Parted> {
    for order in 0..ORDERS {
        start(driver, 2, 1)?;
        let bytes = SLOT << order;
        let count = 1 << (WHOLE - order);
        let mut units = Vec::new();
        for number in 0..count {
            let size = if number % 2 == 0 { bytes } else { (bytes / 2 + 1).max(257) };
            let got = allocate(driver, 0, size)?;
            let due = (1, (20, unit_of(number << order)));
            expect(driver, "strips of one order lie one behind the other", got, due)?;
            units.push(got.1 .1);
        }
        for small in 0..=order {
            let none = allocate(driver, 1, SLOT << small)?;
            expect(driver, "all slots taken is 16 for every size", none, (1, (16, 0)))?;
        }
        units.rotate_left(count / 2);
        for unit in units {
            free(driver, 1, unit)?;
        }
        let whole = allocate(driver, 1, STRIPS)?;
        expect(driver, "all strips given back are one piece again", whole, (1, (20, FIRST_UNIT)))?;
    }
    Ok(())
}

/// All slots one by one, then every second one back: half of the memory is free and no two slots beside each other.
/// With the others the halves join, once for each order at the last.
pub fn all_slots(driver: &mut Driver) -> Result<(), Parted> {
    start(driver, 3, 2)?;
    for _ in 0..SLOTS {
        allocate(driver, 0, SLOT)?;
    }
    for slot in (0..SLOTS).step_by(2) {
        free(driver, 1, unit_of(slot))?;
    }
    let none = allocate(driver, 2, SLOT + 1)?;
    expect(driver, "half of the slots free, and no two of a pair: 513 bytes end with 16", none, (1, (16, 0)))?;
    let again = allocate(driver, 2, SLOT)?;
    expect(driver, "the lowest slot is taken first", again, (1, (20, FIRST_UNIT)))?;
    free(driver, 2, FIRST_UNIT)?;
    for slot in (1..SLOTS).step_by(2).rev() {
        driver.ask(Request::Free { task: 1, unit: unit_of(slot) })?;
        let before = allocate(driver, 2, STRIPS)?;
        expect(driver, "a strip whose free has begun is not free", before, (1, (16, 0)))?;
        steps_to_the_end(driver, 1)?;
        driver.compare_structure()?;
    }
    let whole = allocate(driver, 2, STRIPS)?;
    expect(driver, "all slots given back are one piece again", whole, (1, (20, FIRST_UNIT)))
}

/// "A unit from 8,192 where no strip starts is 10, and one whose free has begun is 11": every unit, with a strip of two
/// slots in hand, one whose free has begun, and the rest free.
pub fn units_of_strips(driver: &mut Driver) -> Result<(), Parted> {
    start(driver, 3, 16)?;
    allocate(driver, 0, 2 * SLOT)?;
    let begun = allocate(driver, 0, 2 * SLOT)?.1 .1;
    driver.ask(Request::Free { task: 0, unit: begun })?;
    for unit in (FIRST_UNIT + 1..=LAST_UNIT + 70).chain([32_768, 65_535, 65_536 + FIRST_UNIT, u64::MAX]) {
        let answer = driver.ask(Request::Free { task: 1, unit })?;
        let due = if unit == begun { 11 } else { 10 };
        expect(driver, "units of the strips' memory", (unit, answer), (unit, (due, 0)))?;
    }
    steps_to_the_end(driver, 0)?;
    let answer = driver.ask(Request::Free { task: 1, unit: begun })?;
    expect(driver, "a strip that was given back is none", (0, answer), (0, (10, 0)))?;
    let taken = allocate(driver, 1, SLOT)?;
    expect(driver, "the smallest sufficient piece is taken", taken, (1, (20, begun)))?;
    driver.compare_structure()
}

/// "a second area of another length is 2": behind the tests 1 and 4, before 3 in a start and 5 in other calls.
pub fn lengths(driver: &mut Driver) -> Result<(), Parted> {
    let area = driver.lent.area.len() as u64;
    let requests = [
        Request::Start { tasks: 1 },
        Request::Allocate { task: 0, size: 300 },
        Request::Free { task: 0, unit: FIRST_UNIT },
        Request::Leave { task: 0 },
        Request::Step { task: 0 },
        Request::Start { tasks: 9 },
        Request::Allocate { task: 9, size: 0 },
        Request::Free { task: 9, unit: 16_384 },
        Request::Leave { task: 9 },
        Request::Step { task: 9 },
    ];
    for started in [false, true] {
        if started {
            start(driver, 1, area / 4096)?;
        }
        for strips in [0, 1, 512, 4096, 32_768, 65_535, 65_537, 66_048, 131_072] {
            for request in requests {
                let is_start = matches!(request, Request::Start { .. });
                let due = if started || is_start { 2 } else { 4 };
                let answer = driver.call(Call { control: CONTROL, area, strips, request })?;
                expect(driver, "another length of the strips' memory", (strips, answer), (strips, (due, 0)))?;
                let answer = driver.call(Call { control: CONTROL - 1, area, strips, request })?;
                expect(driver, "control comes before it", (strips, answer), (strips, (1, 0)))?;
            }
        }
    }
    driver.compare_structure()
}
