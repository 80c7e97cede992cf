//! The styles of random schedules. Each is biased towards other collisions; together they reach every step.

use crate::classes::CLASSES;
use crate::pool::REGIONS;
use crate::strips::WHOLE;

/// Which held block is freed next.
#[derive(Clone, Copy, PartialEq, Eq, Debug)]
pub enum Order {
    Any,
    /// The lowest unit first, so that a cache fills with the blocks of one region.
    Rising,
    /// The most recent first.
    Newest,
}

/// Which task does the next call.
#[derive(Clone, Copy, PartialEq, Eq, Debug)]
pub enum Turn {
    Any,
    /// One after the other, so that all stand at the same step.
    Around,
    /// The same task for some calls.
    Bursts(u64),
}

#[derive(Clone)]
pub struct Style {
    pub name: &'static str,
    pub tasks: (u64, u64),
    pub regions: (u64, u64),
    /// The smallest and the largest block of the classes to choose from, and how many classes are in use at a time.
    pub blocks: (u64, u64),
    pub at_once: u64,
    /// In how many of a hundred cases a strip is asked for, and the smallest and the largest of its orders.
    pub strips: u64,
    pub orders: (usize, usize),
    /// One in this many beginnings is that of leaving.
    pub leave: u64,
    pub turn: Turn,
    pub order: Order,
    /// In how many of a hundred cases a task that stands before an exchange lets another go first.
    pub stall: u64,
    /// One in this many calls stops a task for a long time, mostly one that stands before an exchange.
    pub freeze: u64,
    /// One in this many calls turns from filling to emptying or back, beside the turns where nothing is left.
    pub swing: u64,
    /// One in this many calls has odd numbers or lengths, and one in this many is a start.
    pub odd: u64,
    pub restart: u64,
    pub calls: u64,
}

const BASE: Style = Style {
    name: "",
    tasks: (1, 8),
    regions: (1, REGIONS as u64),
    blocks: (8, 256),
    at_once: 3,
    strips: 0,
    orders: (0, WHOLE),
    leave: 80,
    turn: Turn::Any,
    order: Order::Any,
    stall: 30,
    freeze: 500,
    swing: 2000,
    odd: 40,
    restart: 20_000,
    calls: 40_000,
};

pub const STYLES: &[Style] = &[
    Style { name: "everything at random", at_once: CLASSES as u64, strips: 12, ..BASE },
    Style { name: "few regions, large blocks", regions: (1, 3), blocks: (160, 256), at_once: 2, stall: 60, ..BASE },
    Style {
        name: "one region, many tasks",
        tasks: (4, 8),
        regions: (1, 1),
        blocks: (128, 256),
        stall: 50,
        freeze: 100,
        ..BASE
    },
    Style {
        name: "all tasks in step",
        tasks: (2, 8),
        blocks: (192, 256),
        at_once: 1,
        turn: Turn::Around,
        order: Order::Rising,
        ..BASE
    },
    Style {
        name: "bursts with long stops",
        tasks: (2, 8),
        regions: (2, 6),
        blocks: (160, 256),
        at_once: 2,
        turn: Turn::Bursts(40),
        order: Order::Rising,
        freeze: 60,
        ..BASE
    },
    Style {
        name: "fill, empty, other class",
        tasks: (1, 2),
        regions: (REGIONS as u64, REGIONS as u64),
        blocks: (96, 256),
        at_once: 1,
        turn: Turn::Bursts(30),
        order: Order::Rising,
        stall: 20,
        freeze: 0,
        swing: 0,
        restart: 0,
        calls: 60_000,
        ..BASE
    },
    Style {
        name: "small blocks, long chains",
        tasks: (1, 4),
        regions: (1, 5),
        blocks: (8, 48),
        at_once: 2,
        turn: Turn::Bursts(200),
        order: Order::Rising,
        swing: 15_000,
        odd: 80,
        ..BASE
    },
    Style {
        name: "returns that collide",
        tasks: (3, 8),
        regions: (3, 8),
        blocks: (224, 256),
        at_once: 1,
        turn: Turn::Around,
        stall: 40,
        freeze: 40,
        swing: 600,
        ..BASE
    },
    Style {
        name: "few blocks, quick changes",
        tasks: (2, 6),
        regions: (2, 5),
        blocks: (256, 256),
        at_once: 1,
        order: Order::Rising,
        stall: 60,
        freeze: 30,
        swing: 150,
        ..BASE
    },
    Style {
        name: "stops before an exchange",
        tasks: (3, 6),
        regions: (2, 4),
        blocks: (192, 256),
        at_once: 2,
        turn: Turn::Bursts(20),
        order: Order::Rising,
        freeze: 0,
        swing: 300,
        ..BASE
    },
    Style { name: "newest freed first", blocks: (80, 256), at_once: 2, order: Order::Newest, swing: 700, ..BASE },
    Style { name: "many starts", restart: 300, odd: 15, blocks: (112, 256), strips: 40, swing: 200, ..BASE },
    Style { name: "strips of every order", strips: 90, odd: 12, freeze: 60, swing: 150, ..BASE },
    Style {
        name: "small strips until none is left",
        tasks: (2, 8),
        strips: 100,
        orders: (0, 1),
        freeze: 200,
        swing: 0,
        restart: 9000,
        ..BASE
    },
    Style {
        name: "large strips, long stops",
        tasks: (2, 8),
        strips: 100,
        orders: (2, WHOLE),
        turn: Turn::Bursts(6),
        freeze: 20,
        swing: 60,
        ..BASE
    },
    Style {
        name: "strips beside blocks",
        tasks: (2, 6),
        regions: (1, 6),
        blocks: (112, 256),
        strips: 40,
        orders: (0, 4),
        order: Order::Newest,
        stall: 40,
        freeze: 100,
        swing: 400,
        ..BASE
    },
    Style {
        name: "tasks that leave",
        tasks: (2, 8),
        regions: (1, 4),
        blocks: (160, 256),
        leave: 5,
        stall: 50,
        freeze: 60,
        swing: 300,
        odd: 20,
        ..BASE
    },
    Style {
        name: "all leave in step",
        tasks: (2, 8),
        regions: (1, 6),
        blocks: (192, 256),
        at_once: 2,
        leave: 4,
        turn: Turn::Around,
        stall: 20,
        freeze: 100,
        swing: 200,
        ..BASE
    },
    Style {
        name: "many classes, then leaving",
        regions: (8, REGIONS as u64),
        at_once: CLASSES as u64,
        strips: 5,
        leave: 25,
        turn: Turn::Bursts(60),
        swing: 500,
        restart: 6000,
        ..BASE
    },
];

/// The same style without starts.
pub fn without_restarts(style: &Style) -> Style {
    Style { restart: 0, ..style.clone() }
}

/// The style of this name.
pub fn named(name: &str) -> &'static Style {
    STYLES.iter().find(|style| style.name == name).expect("a style of this name")
}
