//! The differential harness: the archive, the original Rust files and a restatement of document 01 in one process.
//! See README.md.
mod boundary;
mod chance;
mod checked;
mod damage;
mod exhaustive;
mod lent;
mod limits;
mod programs;
mod random;
mod reshape;
mod runs;
mod shown;
mod small;
mod switches;
mod tally;
mod with_rust;

use checked::Difference;
use std::panic::{AssertUnwindSafe, catch_unwind};
use std::path::Path;
use std::process::ExitCode;
use std::time::Instant;
use tally::{Tally, grouped};

const USAGE: &str = "usage: oracle [WALKS [SEED [all|exhaustive|boundary|random|programs]]]";
/// The folder of the programs; without it their part is left out.
const PROGRAMS: &str = "ORACLE_PROGRAMS";
/// Walks to an input of each kind of the programs' part.
const WALKS_TO_INPUT: u64 = 50;

/// A part's differences; a fault inside it is one too.
fn caught(part: impl FnOnce() -> Result<(), Difference>) -> Result<(), Difference> {
    catch_unwind(AssertUnwindSafe(part)).unwrap_or_else(|fault| {
        let said = fault.downcast_ref::<String>().cloned();
        let said = said.or_else(|| fault.downcast_ref::<&str>().map(|text| text.to_string()));
        Err(format!("panic: {}", said.unwrap_or_default()))
    })
}

/// Inputs from seed on, each from its own seed, until so many walks were compared with the Rust in answer and whole index.
fn random_part(walks: u64, seed: u64, tally: &mut Tally) -> Result<(), Difference> {
    let (before, mut seed) = (tally.with_rust, seed);
    let trace = std::env::var_os("ORACLE_TRACE").is_some();
    while tally.with_rust - before < walks {
        if trace {
            eprintln!("seed {seed}");
        }
        caught(|| random::input(seed, tally)).map_err(|d| format!("seed {seed} (oracle/run 1 {seed} random): {d}"))?;
        seed = seed.wrapping_add(1);
    }
    Ok(())
}

/// The stored replays, so many random inputs of each kind, and inputs at the limits.
fn programs_part(folder: &Path, inputs: u64, seed: u64, tally: &mut Tally) -> Result<(), Difference> {
    timed("programs, stored", tally, |tally| {
        tally.programs += replays::stored::all(false)? as u64;
        Ok(())
    })?;
    for kind in runs::KINDS {
        timed(kind.name, tally, |tally| runs::run(folder, &kind, inputs, seed, tally))?;
    }
    timed("programs, limits", tally, |tally| limits::run(folder, tally))
}

fn timed(
    name: &str,
    tally: &mut Tally,
    part: impl FnOnce(&mut Tally) -> Result<(), Difference>,
) -> Result<(), Difference> {
    let (before, began) = (tally.inputs(), Instant::now());
    caught(|| part(tally)).map_err(|difference| format!("{name}: {difference}"))?;
    println!("{name}: {} inputs, {:.1} s", grouped(tally.inputs() - before), began.elapsed().as_secs_f64());
    Ok(())
}

fn run(walks: u64, seed: u64, part: &str, tally: &mut Tally) -> Result<(), Difference> {
    let wanted = |name| part == "all" || part == name;
    if wanted("exhaustive") {
        timed("small exhaustive", tally, exhaustive::run)?;
    }
    if wanted("boundary") {
        timed("boundary", tally, boundary::run)?;
        timed("boundary, large switches", tally, switches::run)?;
        timed("boundary, 1,024 clauses", tally, |tally| boundary::large(40, tally))?;
    }
    if wanted("random") {
        timed("random", tally, |tally| random_part(walks, seed, tally))?;
    }
    if let Some(folder) = std::env::var_os(PROGRAMS).filter(|_| wanted("programs")) {
        programs_part(Path::new(&folder), walks.div_ceil(WALKS_TO_INPUT), seed, tally)?;
    }
    let unreached = tally.unreached();
    if part == "all" && !unreached.is_empty() {
        return Err(format!("no input was refused with {unreached:?}"));
    }
    Ok(())
}

fn main() -> ExitCode {
    let args: Vec<String> = std::env::args().skip(1).collect();
    let number = |at: usize, otherwise: u64| args.get(at).map_or(Ok(otherwise), |text| text.parse());
    let part = args.get(2).map_or("all", |text| text.as_str());
    let known = ["all", "exhaustive", "boundary", "random", "programs"].contains(&part) && args.len() <= 3;
    let (Ok(walks), Ok(seed), true) = (number(0, 1_000_000), number(1, 1), known) else {
        eprintln!("{USAGE}");
        return ExitCode::from(2);
    };
    println!("walks {}, seed {seed}, {part}", grouped(walks));
    let mut tally = Tally::default();
    let outcome = run(walks, seed, part, &mut tally);
    println!("{tally}");
    match outcome {
        Ok(()) => println!("no difference"),
        Err(difference) => {
            println!("first difference: {difference}");
            return ExitCode::FAILURE;
        }
    }
    ExitCode::SUCCESS
}
