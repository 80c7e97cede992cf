//! The stand: the paper's example, what was decided where the paper leaves it open, and the program itself where it
//! has been built.

use crate::checks::{Checks, Parted};
use crate::random::Random;
use crate::stand::{self, Stand, LIMIT};
use std::io::Write;
use std::process::{Command, Stdio};

const EXAMPLE: &[u8] = &[1, 1, 1, 2, 0, 0, 1, 5, 0, 0x64, 0, 3, 0, 0xE0, 1, 5, 0, 1, 0, 3, 0, 0xE0, 1];
const EXAMPLE_OUTPUT: &str =
    "record kind code value\n0 1 0 0\n1 2 0 0\n2 5 20 480\n3 3 0 0\n4 5 20 0\n5 3 11 0\ntotal 2 3 1\n";
const SCHEDULES: u64 = 60;

/// A name, an input and its output.
type Decided = (&'static str, Vec<u8>, String);

/// Inputs whose output follows from the paper's words and the decisions, with that output after the line of names.
fn decided() -> Vec<Decided> {
    let long = [4u8, 0].repeat(LIMIT / 2 + 10);
    let many: String = (0..LIMIT / 2).map(|record| format!("{record} 4 4 0\n")).collect();
    let mut over = [4u8, 0].repeat(LIMIT / 2 - 1);
    over.extend([1, 1, 1]);
    let almost: String = (0..LIMIT / 2 - 1).map(|record| format!("{record} 4 4 0\n")).collect();
    let last = LIMIT / 2 - 1;
    vec![
        ("empty input", vec![], "total 0 0 0\n".to_string()),
        ("unknown kind", vec![0, 1, 1], "0 0 15 0\ntotal 0 0 1\n".to_string()),
        ("unknown kind 7 after a start", vec![1, 1, 1, 7], "0 1 0 0\n1 7 15 0\ntotal 0 1 1\n".to_string()),
        ("cut record", vec![1, 1], "0 1 15 0\ntotal 0 0 1\n".to_string()),
        ("kind alone", vec![5], "0 5 15 0\ntotal 0 0 1\n".to_string()),
        ("five regions, nine tasks", vec![1, 9, 5], "0 1 2 0\ntotal 0 0 1\n".to_string()),
        ("no region", vec![1, 0, 0], "0 1 2 0\ntotal 0 0 1\n".to_string()),
        ("nine tasks", vec![1, 9, 4], "0 1 3 0\ntotal 0 0 1\n".to_string()),
        ("run of 0 before a start", vec![5, 200, 0, 0], "0 5 0 0\ntotal 0 1 0\n".to_string()),
        ("run of 1 before a start", vec![5, 0, 1, 0], "0 5 4 0\ntotal 0 0 1\n".to_string()),
        ("run without a request", vec![1, 1, 1, 5, 0, 9, 0], "0 1 0 0\n1 5 7 0\ntotal 0 1 1\n".to_string()),
        ("more than 65,536 bytes", long, format!("{many}total 0 0 {}\n", LIMIT / 2)),
        ("cut by 65,536 bytes", over, format!("{almost}{last} 1 15 0\ntotal 0 0 {}\n", LIMIT / 2)),
    ]
}

/// The same for strips and for leaving.
fn decided_requests() -> Vec<Decided> {
    vec![
        (
            "257 bytes are a strip, given back in one step",
            vec![1, 1, 1, 2, 0, 1, 1, 4, 0, 3, 0, 0, 32, 4, 0, 3, 0, 0, 32],
            "0 1 0 0\n1 2 0 0\n2 4 20 8192\n3 3 0 0\n4 4 20 0\n5 3 10 0\ntotal 2 3 1\n".to_string(),
        ),
        (
            "65,535 bytes are all of it, and then there is no strip",
            vec![1, 1, 1, 2, 0, 255, 255, 5, 0, 9, 0, 2, 0, 1, 1, 5, 0, 9, 0, 4, 0],
            "0 1 0 0\n1 2 0 0\n2 5 20 8192\n3 2 0 0\n4 5 16 0\n5 4 7 0\ntotal 1 3 2\n".to_string(),
        ),
        ("leaving without its task", vec![1, 1, 1, 6], "0 1 0 0\n1 6 15 0\ntotal 0 1 1\n".to_string()),
        ("leaving before a start", vec![6, 0], "0 6 4 0\ntotal 0 0 1\n".to_string()),
        (
            "leaving with nothing cached finishes in its first step",
            vec![1, 1, 1, 6, 0, 6, 0, 4, 0, 4, 0, 6, 1],
            "0 1 0 0\n1 6 0 0\n2 6 6 0\n3 4 20 0\n4 4 7 0\n5 6 5 0\ntotal 1 2 3\n".to_string(),
        ),
        (
            "leaving with fifteen blocks cached and one in hand finishes at step 23",
            vec![1, 1, 1, 2, 0, 0, 1, 5, 0, 26, 0, 6, 0, 5, 0, 22, 0, 4, 0],
            "0 1 0 0\n1 2 0 0\n2 5 20 480\n3 6 0 0\n4 5 0 0\n5 4 20 0\ntotal 2 4 0\n".to_string(),
        ),
    ]
}

/// The checks of the stand over the plain pool, without the program.
pub fn by_itself(checks: &mut Checks) {
    let got = stand::output(EXAMPLE);
    let _ = checks.hold("stand: the paper's example", got == EXAMPLE_OUTPUT, || got.clone());
    for (name, input, lines) in decided().into_iter().chain(decided_requests()) {
        let expected = format!("record kind code value\n{lines}");
        let got = stand::output(&input);
        let _ = checks.hold(&format!("stand: {name}"), got == expected, || got.chars().take(200).collect());
    }
}

/// Compares the program's output with the plain pool's on the examples, on random and on damaged schedules.
pub fn against_program(program: &str, seed: u64, checks: &mut Checks) {
    let mut random = Random::new(seed ^ 0x57A4D);
    let _ = compare(program, EXAMPLE, checks);
    for (_, input, _) in decided().into_iter().chain(decided_requests()) {
        let _ = compare(program, &input, checks);
    }
    for _ in 0..SCHEDULES {
        let mut input = schedule(&mut random);
        let _ = compare(program, &input, checks);
        damage(&mut input, &mut random);
        let _ = compare(program, &input, checks);
    }
}

fn compare(program: &str, input: &[u8], checks: &mut Checks) -> Result<(), Parted> {
    let got = output_of(program, input).unwrap_or_else(|error| format!("no output: {error}"));
    let expected = stand::output(input);
    checks.hold("stand: the program prints what the plain pool answers", got == expected, || {
        let line = got.lines().zip(expected.lines()).position(|(one, other)| one != other);
        let line = line.unwrap_or(got.lines().count().min(expected.lines().count()));
        format!("line {line}: {:?} where {:?} is due", got.lines().nth(line), expected.lines().nth(line))
    })
}

fn output_of(program: &str, input: &[u8]) -> std::io::Result<String> {
    let mut child = Command::new(program).stdin(Stdio::piped()).stdout(Stdio::piped()).spawn()?;
    let mut pipe = child.stdin.take().expect("a pipe was asked for");
    let bytes = input.to_vec();
    // The program may stop reading before the end, so that a failed write is no failure of the test.
    let writer = std::thread::spawn(move || drop(pipe.write_all(&bytes)));
    let output = child.wait_with_output()?;
    let _ = writer.join();
    if !output.status.success() {
        return Ok(format!("status {}", output.status));
    }
    Ok(String::from_utf8_lossy(&output.stdout).into_owned())
}

/// A schedule whose frees mostly name blocks that were handed out, found by following it on the plain pool.
fn schedule(random: &mut Random) -> Vec<u8> {
    let (mut stand, mut bytes, mut held) = (Stand::new(), Vec::new(), Vec::new());
    let records = random.pick(&[5, 50, 500, 4000, 20_000]);
    let large = random.one_in(2);
    let strips = random.pick(&[0, 3, 20, 90]);
    let tasks = random.from_to(1, 8) as u8;
    for number in 0..records {
        let record = if number == 0 {
            vec![1, tasks, random.from_to(1, 4) as u8]
        } else {
            record(random, tasks, (large, strips), &mut held)
        };
        let answer = stand.treat(record[0], &record[1..]);
        if answer.0 == 20 && answer.1 != 0 {
            held.push(answer.1);
        }
        bytes.extend(record);
    }
    bytes
}

/// A record: with large blocks or any, and in so many of a hundred cases about strips.
fn record(random: &mut Random, tasks: u8, (large, strips): (bool, u64), held: &mut Vec<u64>) -> Vec<u8> {
    let task = if random.one_in(40) { random.next() as u8 } else { random.below(u64::from(tasks)) as u8 };
    let strip = random.percent(strips);
    let size = match strip {
        true => (random.next() % 65_536 >> random.below(9)).max(257),
        false if large => random.from_to(193, 257),
        false => random.below(260),
    };
    let words = |kind: u8, word: u64| vec![kind, task, word as u8, (word >> 8) as u8];
    match random.below(20) {
        0 if random.one_in(60) => vec![1, random.below(10) as u8, random.below(7) as u8],
        0..=4 => words(2, size),
        5..=8 if !held.is_empty() => {
            let index = random.below(held.len() as u64) as usize;
            let unit = if random.one_in(10) { held[index] } else { held.swap_remove(index) };
            words(3, unit)
        }
        9 if strip => words(3, 8192 + random.below(8300) / 32 * 32),
        9 => words(3, random.below(2200)),
        10 | 11 => vec![4, task],
        12 if random.one_in(2) => vec![6, task],
        12 => words(5, random.below(4)),
        _ => words(5, random.pick(&[30, 100, 1000, 65_535])),
    }
}

/// Changes some bytes, cuts the end or adds to it.
fn damage(bytes: &mut Vec<u8>, random: &mut Random) {
    for _ in 0..random.below(6) {
        let place = random.below(bytes.len() as u64) as usize;
        bytes[place] = if random.one_in(2) { random.below(8) as u8 } else { random.next() as u8 };
    }
    if random.one_in(2) {
        bytes.truncate(random.below(bytes.len() as u64 + 1) as usize);
    }
    if random.one_in(4) {
        bytes.extend((0..random.below(2000)).map(|_| random.below(7) as u8));
    }
}
