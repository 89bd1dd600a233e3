//! All inputs: rounds in which the sides take turns, then tables and a file of figures.
use crate::inputs::{ARITIES, CLAUSES, Input};
use crate::measure::{Side, Sides, WHATS, What};
use std::fmt::Write;

const ROUNDS: usize = 25;
const FILE: &str = "bench/out/times.csv";

struct Row {
    clauses: usize,
    arity: usize,
    keys: &'static str,
    what: What,
    side: Side,
    min: f64,
    median: f64,
}

/// One round: every call on every side, the sides taking turns.
fn round(sides: &mut Sides, samples: &mut [Vec<Vec<f64>>], kinds: &[(What, Side)]) {
    for what in WHATS {
        for i in 0..sides.calls(what) {
            for (&(_, side), s) in kinds.iter().zip(&mut *samples).filter(|((w, _), _)| *w == what) {
                s[i].push(sides.sample(what, side, i));
            }
        }
    }
}

/// Of each call the minimum and the median of the rounds, then their means over the calls.
fn measured(input: &Input) -> Vec<Row> {
    let mut sides = Sides::new(input);
    let kinds: Vec<(What, Side)> = WHATS.iter().flat_map(|&w| w.sides().iter().map(move |&s| (w, s))).collect();
    let mut samples: Vec<_> = kinds.iter().map(|&(what, _)| vec![vec![]; sides.calls(what)]).collect();
    (0..ROUNDS).for_each(|_| round(&mut sides, &mut samples, &kinds));
    let row = |(&(what, side), s): (&(What, Side), &mut Vec<Vec<f64>>)| {
        s.iter_mut().for_each(|rounds| rounds.sort_by(f64::total_cmp));
        let mean = |place: usize| s.iter().map(|rounds| rounds[place]).sum::<f64>() / s.len() as f64;
        let (clauses, arity, keys) = (input.clauses, input.arity, input.keys_word());
        Row { clauses, arity, keys, what, side, min: mean(0), median: mean(ROUNDS / 2) }
    };
    kinds.iter().zip(&mut samples).map(row).collect()
}

/// Microseconds, to three digits or so.
fn figure(ns: f64) -> String {
    let digits = if ns < 1e3 {
        3
    } else if ns < 1e4 {
        2
    } else {
        1
    };
    format!("{:.digits$}", ns / 1e3)
}

fn ratio(x: f64) -> String {
    if x < 10.0 { format!("{x:.1}") } else { format!("{x:.0}") }
}

fn table(rows: &[Row], what: What) {
    let title = match what {
        What::Build => "Build",
        What::First => "First calls (argument 1 unbound, on the index as built: each expands)",
        What::Later => "Later calls (the same, on the index that they leave)",
        What::Bound => "Calls with every argument bound (on that index)",
    };
    println!("\n{title}: µs per call, minimum (median) of {ROUNDS} rounds\n");
    let every = what.sides().contains(&Side::Every);
    let (more, bar) = if every { (" every rule | ours / every rule |", "---|---|") } else { ("", "") };
    println!("| keys | arity | clauses | ours | Rust | ours / Rust |{more}\n|---|---|---|---|---|---|{bar}");
    let rows: Vec<&Row> = rows.iter().filter(|r| r.what == what).collect();
    for r in rows.chunk_by(|a, b| a.clauses == b.clauses) {
        let (first, ours, rust) = (r[0], r[0].min, r[1].min);
        let mut line = format!("| {} | {} | {} |", first.keys, first.arity, first.clauses);
        for side in &r[..2] {
            write!(line, " {} ({}) |", figure(side.min), figure(side.median)).unwrap();
        }
        write!(line, " {} |", ratio(ours / rust)).unwrap();
        if every {
            write!(line, " {} ({}) | {} |", figure(r[2].min), figure(r[2].median), ratio(ours / r[2].min)).unwrap();
        }
        println!("{line}");
    }
}

fn minimum(rows: &[Row], input: (usize, usize, &str), what: What, side: Side) -> f64 {
    let of = |r: &&Row| (r.clauses, r.arity, r.keys, r.what, r.side) == (input.0, input.1, input.2, what, side);
    rows.iter().find(of).unwrap().min
}

/// Ours over the Rust's, and over trying every rule, for every input.
fn ratios(rows: &[Row]) {
    println!("\nRatios of the minima, ours / Rust and ours / every rule\n");
    println!("| keys | arity | clauses | build | first | later | bound | later / every rule | bound / every rule |");
    println!("|---|---|---|---|---|---|---|---|---|");
    for r in rows.iter().filter(|r| r.what == What::Build && r.side == Side::Ours) {
        let of = |what, side| minimum(rows, (r.clauses, r.arity, r.keys), what, side);
        let to = |what, side| ratio(of(what, Side::Ours) / of(what, side));
        let mut line = format!("| {} | {} | {} |", r.keys, r.arity, r.clauses);
        WHATS.iter().for_each(|&what| write!(line, " {} |", to(what, Side::Rust)).unwrap());
        println!("{line} {} | {} |", to(What::Later, Side::Every), to(What::Bound, Side::Every));
    }
}

/// By what factor the minimum grows where there are four times as many clauses.
fn growth(rows: &[Row], arity: usize) {
    println!("\nGrowth of the minimum from step to step of clauses, arity {arity}\n");
    println!("| keys | what | side | 16 to 64 | 64 to 256 | 256 to 1,024 |\n|---|---|---|---|---|---|");
    for keys in ["few", "many"] {
        for what in WHATS {
            for &side in what.sides() {
                let of = |clauses| minimum(rows, (clauses, arity, keys), what, side);
                let steps: Vec<String> = CLAUSES.windows(2).map(|c| format!("{:.1}", of(c[1]) / of(c[0]))).collect();
                println!("| {keys} | {} | {} | {} |", what.word(), side.word(), steps.join(" | "));
            }
        }
    }
}

pub fn all() {
    let mut rows = vec![];
    for many in [false, true] {
        for arity in ARITIES {
            for clauses in CLAUSES {
                rows.extend(measured(&Input::new(clauses, arity, many)));
            }
        }
    }
    let mut text = String::from("clauses,arity,keys,what,side,min_ns,median_ns\n");
    for r in &rows {
        let (what, side) = (r.what.word(), r.side.word());
        writeln!(text, "{},{},{},{what},{side},{:.1},{:.1}", r.clauses, r.arity, r.keys, r.min, r.median).unwrap();
    }
    std::fs::write(FILE, text).expect(FILE);
    WHATS.iter().for_each(|&what| table(&rows, what));
    ratios(&rows);
    growth(&rows, 4);
}
