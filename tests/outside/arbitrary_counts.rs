//! What the calls on arbitrary memories reached.

use crate::checks::Checks;
use crate::classes::CLASSES;
use crate::coverage::{reached, PerPlace, EXCHANGES, HEADS, KINDS};
use crate::pool::PLACES;
use std::collections::BTreeMap;

/// The codes that the paper gives to each kind of call, 14 with them.
pub const CODES: [&[u64]; KINDS.len()] = [
    &[0, 1, 2, 3],
    &[0, 1, 2, 4, 5, 6, 8, 9, 14],
    &[0, 1, 2, 4, 5, 6, 10, 11, 14],
    &[0, 1, 2, 4, 5, 6, 14],
    &[0, 20, 1, 2, 4, 5, 7, 12, 13, 14, 16],
];

/// How often each code was answered, by kind of call, and 14 by the place of the task that stepped.
#[derive(Default)]
pub struct Counts {
    pub codes: [[u64; 21]; KINDS.len()],
    pub fourteen_at: PerPlace,
    pub went_on_at: PerPlace,
    /// The classes of the requests that were stepped.
    pub classes: BTreeMap<u64, u64>,
    /// Exchanges of leaving that led to another class, and to its last step.
    pub led: [u64; 2],
    /// Lost exchanges, and those where the task's number was 4,294,967,295.
    pub lost: PerPlace,
    pub lost_at_most: PerPlace,
    /// Ends of requests whose number of lost exchanges was above 0, by code.
    pub told: [u64; 21],
}

impl Counts {
    pub fn print(&self) {
        for (kind, name) in KINDS.iter().enumerate() {
            let codes: Vec<String> = (0..21)
                .filter(|&code| self.codes[kind][code] > 0)
                .map(|code| format!("{code} x {}", self.codes[kind][code]))
                .collect();
            println!("arbitrary memories, codes of {name}: {}", codes.join(", "));
        }
        println!("arbitrary memories, 14 at places 0 to 36: {:?}", self.fourteen_at.0);
        println!("arbitrary memories, steps done at places 0 to 36: {:?}", self.went_on_at.0);
        let at = |row: &PerPlace| EXCHANGES.map(|(place, _)| row.0[place]);
        println!("arbitrary memories, lost exchanges at places {:?}: {:?}", EXCHANGES.map(|at| at.0), at(&self.lost));
        println!("of these where the number was 4,294,967,295: {:?}", at(&self.lost_at_most));
        println!("arbitrary memories, returns that led to leaving's next class, its last step: {:?}", self.led);
    }

    /// Every code that the paper gives to a kind of call, 14 with them, has to occur.
    pub fn report(&self, checks: &mut Checks) {
        let occurs = |kind: usize| CODES[kind].iter().all(|&code| self.codes[kind][code as usize] > 0);
        let all = (0..KINDS.len()).all(occurs);
        let _ = checks.hold("arbitrary: each code of each kind of call occurs", all, || "see the counts".to_string());
        let last = CLASSES as u64 - 1;
        let edges = [last, last + 1, last + 2, last + 3, 255].iter().all(|class| self.classes.contains_key(class));
        let _ = checks
            .hold("arbitrary: steps of the last class and of some past it", edges, || format!("{:?}", self.classes));
        let led = self.led.iter().all(|&times| times > 0);
        let _ =
            checks.hold("arbitrary: leaving goes on with another class and ends", led, || format!("{:?}", self.led));
        for (place, what) in EXCHANGES {
            reached(checks, &format!("lost exchange in arbitrary memories: {what}"), self.lost.0[place]);
        }
        let beyond = |places: &[(usize, &str)]| places.iter().map(|(place, _)| self.lost_at_most.0[*place]).sum();
        let (heads, anchors) = EXCHANGES.split_at(HEADS);
        reached(checks, "lost exchanges of heads beyond 4,294,967,295 in arbitrary memories", beyond(heads));
        reached(checks, "lost exchanges of anchors beyond 4,294,967,295 in arbitrary memories", beyond(anchors));
        for code in [20, 13, 16] {
            let name = format!("lost exchanges told in arbitrary memories at {code}");
            reached(checks, &name, self.told[code]);
        }
        let deep = (1..PLACES).all(|place| self.went_on_at.0[place] > 0);
        let _ = checks.hold("arbitrary: steps are done at each place", deep, || "see the counts".to_string());
    }
}
