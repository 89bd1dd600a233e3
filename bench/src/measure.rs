//! One input on all sides, its answers compared, and the time of each kind of call on each side.
use crate::every;
use crate::inputs::{Input, Key};
use crate::original::{Built, Original};
use crate::ours::{Ours, call_records};
use original::{MachineState, PREFIX, machine};
use std::hint::black_box;
use std::time::Instant;

/// Calls below this are timed together, in turns that last about so long.
const SHORT_NS: f64 = 20_000.0;
const TURNS_NS: f64 = 100_000.0;
/// builds of a round
const BUILDS: usize = 8;

/// What is measured: a build; calls with argument 1 unbound, each on the index as built, which it expands; the same calls on the index
/// that they leave; and calls with every argument bound, on that index.
#[derive(Clone, Copy, PartialEq, Eq, Debug)]
pub enum What {
    Build,
    First,
    Later,
    Bound,
}

#[derive(Clone, Copy, PartialEq, Eq, Debug)]
pub enum Side {
    Ours,
    Rust,
    Every,
}

pub const WHATS: [What; 4] = [What::Build, What::First, What::Later, What::Bound];

impl What {
    pub fn word(self) -> &'static str {
        ["build", "first", "later", "bound"][self as usize]
    }

    /// The sides that this can be measured on: trying every rule knows neither building nor expanding.
    pub fn sides(self) -> &'static [Side] {
        match self {
            What::Build | What::First => &[Side::Ours, Side::Rust],
            What::Later | What::Bound => &[Side::Ours, Side::Rust, Side::Every],
        }
    }
}

impl Side {
    pub fn word(self) -> &'static str {
        ["ours", "rust", "every"][self as usize]
    }
}

/// The calls of one shape, as each side takes them.
struct Calls<'a> {
    keys: &'a [Vec<Key>],
    records: Vec<Vec<u8>>,
    machines: Vec<MachineState>,
}

impl<'a> Calls<'a> {
    fn new(keys: &'a [Vec<Key>]) -> Self {
        let records: Vec<Vec<u8>> = keys.iter().map(|c| call_records(c)).collect();
        let machines = records.iter().map(|c| machine(c)).collect();
        Calls { keys, records, machines }
    }
}

pub struct Sides<'a> {
    input: &'a Input,
    ours: Ours,
    original: Original,
    unbound: Calls<'a>,
    bound: Calls<'a>,
    out: Vec<u32>,
    /// the Rust's last build, so that dropping it is not measured
    built: Option<Built>,
    /// whether the indexes are as the calls leave them
    expanded: bool,
}

impl<'a> Sides<'a> {
    pub fn new(input: &'a Input) -> Self {
        let unbound = Calls::new(&input.unbound);
        let bound = Calls::new(&input.bound);
        let ours = Ours::new(input);
        let original = Original::new(&ours.code, &ours.starts, input.arity);
        let mut sides = Sides { input, ours, original, unbound, bound, out: vec![], built: None, expanded: false };
        sides.compare();
        sides
    }

    /// Ours and the Rust's give the same clauses for each call, first and later; the clauses that agree with the call are among them.
    fn compare(&mut self) {
        for calls in [&self.unbound, &self.bound, &self.unbound, &self.bound] {
            for (i, call) in calls.keys.iter().enumerate() {
                let (case, count) = self.ours.walk(&calls.records[i]);
                let original = self.original.walk(&calls.machines[i]);
                assert_eq!(case, original, "cases differ");
                let ours: Vec<usize> = self.ours.out[..count].iter().map(|&o| o as usize).collect();
                let rust: Vec<usize> = self.original.out.iter().map(|o| o - PREFIX).collect();
                assert_eq!(ours, rust, "clauses differ");
                every::walk(self.input, call, &mut self.out);
                assert!(!self.out.is_empty(), "a call without clauses");
                assert!(self.out.iter().all(|&o| ours.contains(&(o as usize))), "an agreeing clause is not selected");
            }
        }
        self.expanded = true;
    }

    /// The indexes as all calls leave them, made from the built ones.
    fn expand(&mut self) {
        if !self.expanded {
            self.ours.renew();
            self.original.renew();
            self.compare();
        }
    }

    /// How many calls of a kind, or builds, a round has.
    pub fn calls(&self, what: What) -> usize {
        if what == What::Build { BUILDS } else { self.input.bound.len() }
    }

    /// What comes before a measurement and is no part of it.
    fn prepare(&mut self, what: What, side: Side) {
        match (what, side) {
            (What::Build, _) => self.built = None,
            (What::First, Side::Ours) => self.ours.renew(),
            (What::First, _) => self.original.renew(),
            _ => self.expand(),
        }
        self.expanded &= matches!(what, What::Later | What::Bound);
    }

    /// What is measured: call i of a kind on one side, or a build.
    fn step(&mut self, what: What, side: Side, i: usize) {
        let calls = if what == What::Bound { &self.bound } else { &self.unbound };
        match (what, side) {
            (What::Build, Side::Ours) => self.ours.build(),
            (What::Build, _) => self.built = Some(self.original.build()),
            (_, Side::Ours) => _ = black_box(self.ours.walk(&calls.records[i])),
            (_, Side::Rust) => _ = black_box(self.original.walk(&calls.machines[i])),
            (_, Side::Every) => every::walk(self.input, &calls.keys[i], &mut self.out),
        }
    }

    fn time(&mut self, what: What, side: Side, from: usize, times: usize) -> f64 {
        let calls = self.calls(what);
        let start = Instant::now();
        (from..from + times).for_each(|i| self.step(what, side, i % calls));
        start.elapsed().as_nanos() as f64 / times as f64
    }

    /// Nanoseconds of call i or of a build. A short call that changes nothing is not timed alone: all calls take turns for a while.
    pub fn sample(&mut self, what: What, side: Side, i: usize) -> f64 {
        self.prepare(what, side);
        let once = self.time(what, side, i, 1);
        if matches!(what, What::Build | What::First) || once > SHORT_NS {
            return once;
        }
        let turns = (TURNS_NS / once / self.calls(what) as f64).clamp(1.0, 50.0) as usize;
        self.time(what, side, 0, turns * self.calls(what))
    }
}

/// callgrind collects within this function only.
#[inline(never)]
#[unsafe(no_mangle)]
pub extern "Rust" fn counted(f: &mut dyn FnMut()) {
    f()
}

/// A round of one kind on one side, for callgrind; prints the records of our index and the pairs of keys in its switches.
pub fn only(input: &Input, what: &str, side: &str) {
    let what = *WHATS.iter().find(|w| w.word() == what).expect("build, first, later or bound");
    let side = *what.sides().iter().find(|s| s.word() == side).expect("ours, rust or every");
    let mut sides = Sides::new(input);
    for i in 0..sides.calls(what) {
        sides.prepare(what, side);
        counted(&mut || sides.step(what, side, i));
    }
    println!("{} {}", sides.ours.count, sides.ours.pairs());
}
