//! The programs `lines` and `walks` as they stand compiled, beside the restatement and the Rust: what they read, print and end with.
use crate::chance::Chance;
use crate::checked::{Difference, same};
use crate::damage::{self, Handed, damage};
use crate::programs::{Size, program};
use crate::random::{reshaped, some_calls};
use crate::tally::Tally;
use replays::inputs::{Input, MOST, Reader};
use replays::printed::run as restated_run;
use replays::same::same_text;
use replays::stored::{framed, printed};
use restated::{Read, check_code};
use std::io::Write;
use std::path::Path;
use std::process::{Command, Output, Stdio};
use std::thread;

/// Inputs that one process gets.
const BATCH: u64 = 200;
/// Seconds that a process may take.
const SECONDS: &str = "300";

/// Random inputs of one kind.
pub struct Kind {
    pub name: &'static str,
    reader: Reader,
    make: fn(&mut Chance) -> Vec<u8>,
}

pub const KINDS: [Kind; 5] = [
    Kind { name: "programs, lines", reader: Reader::Lines, make: lines },
    Kind { name: "programs, lines, damaged", reader: Reader::Lines, make: damaged_lines },
    Kind { name: "programs, walks", reader: Reader::Walks, make: walks },
    Kind { name: "programs, walks, small room", reader: Reader::Walks, make: small_room },
    Kind { name: "programs, walks, damaged", reader: Reader::Walks, make: damaged_walks },
];

/// A program with its keys, and an input of `walks` with calls to it.
fn some_input(chance: &mut Chance) -> (Read, Input) {
    let most = chance.pick(&[3, 8, 8, 8, 8, 20, 60, 100]);
    let size = Size { clauses: chance.within(1, most), bits: chance.pick(&[1, 2, 2, 3, 6]) };
    let program = program(chance, size);
    let read = check_code(&program).expect("accepted code");
    let calls = some_calls(chance, &program, &read, size.bits, 8).concat();
    let out = program.starts.len() + chance.pick(&[0, 0, 1, 7]);
    let room = chance.pick(&[MOST, MOST, MOST + 1, u64::MAX]);
    (read, Input { program, calls, out, room, given: None })
}

fn lines(chance: &mut Chance) -> Vec<u8> {
    some_input(chance).1.bytes(Reader::Lines)
}

fn damaged_lines(chance: &mut Chance) -> Vec<u8> {
    let times = chance.pick(&[1, 1, 2, 4]);
    damaged(chance, lines, times)
}

/// Bytes changed, cut or added, records changed, swapped, taken out or put in.
fn damaged(chance: &mut Chance, make: fn(&mut Chance) -> Vec<u8>, times: usize) -> Vec<u8> {
    let mut data = make(chance);
    (0..times).for_each(|_| damage::code(chance, &mut data));
    data
}

fn walks(chance: &mut Chance) -> Vec<u8> {
    some_input(chance).1.bytes(Reader::Walks)
}

/// The records of an input's index before its calls and after them, with room for all.
fn grown(input: &Input) -> (Vec<u8>, Vec<u8>) {
    let run = restated_run(Input { room: MOST, ..input.clone() });
    let first = run.first.expect("an accepted program");
    let last = run.calls.iter().rev().find_map(|called| Some(called.answer.as_ref().ok()?.index.clone()));
    (first.clone(), last.unwrap_or(first))
}

/// An index for an input: grown by its calls, or one that no builder made.
fn some_index(chance: &mut Chance, input: &Input, read: &Read) -> Vec<u8> {
    let (_, grown) = grown(input);
    if chance.percent(50) { grown } else { reshaped(chance, &input.program, read, &grown) }
}

/// Room for the index before the calls, for the one after them, or for something between; some calls are refused.
fn small_room(chance: &mut Chance) -> Vec<u8> {
    let (read, mut input) = some_input(chance);
    if chance.percent(40) {
        let index = some_index(chance, &input, &read);
        let count = index.len() as u64 / 16;
        input.given = Some((index, count));
    }
    if chance.percent(30) {
        damage::bytes(chance, &mut input.calls, true);
    }
    let (first, last) = grown(&input);
    let (least, most) = (first.len() / 16, (last.len() / 16).max(first.len() / 16));
    let between = chance.within(least, most);
    input.room = chance.pick(&[least, least + 1, between, between, least.max(most - 1), most]) as u64;
    input.bytes(Reader::Walks)
}

/// Everything that a walk is handed damaged, and sometimes the input's bytes besides.
fn damaged_walks(chance: &mut Chance) -> Vec<u8> {
    let times = chance.pick(&[0, 0, 0, 1, 2]);
    damaged(chance, damaged_input, times)
}

fn damaged_input(chance: &mut Chance) -> Vec<u8> {
    let (read, input) = some_input(chance);
    let is_given = chance.percent(75);
    let index = if is_given { some_index(chance, &input, &read) } else { vec![] };
    let count = index.len() / 16;
    let room = count + chance.pick(&[0, 0, 1, 3, 10, 100]) + if is_given { 0 } else { chance.pick(&[0, 15, 100]) };
    let Input { program, calls, out, .. } = input;
    let mut handed = Handed { program, call: calls, index, count, out, room: 16 * room };
    if chance.percent(90) {
        damage(chance, &mut handed);
    }
    let Handed { program, call, index, count, out, room } = handed;
    let given = is_given.then_some((index, count as u64));
    Input { program, calls: call, out, room: room as u64 / 16, given }.bytes(Reader::Walks)
}

/// Runs a program; what it prints on standard output, after status 0 and nothing on standard error.
pub fn output(program: &Path, stdin: &[u8]) -> Result<String, Difference> {
    let mut command = Command::new("timeout");
    command.arg(SECONDS).arg(program).stdin(Stdio::piped()).stdout(Stdio::piped()).stderr(Stdio::piped());
    let mut child = command.spawn().map_err(|error| format!("{}: {error}", program.display()))?;
    let mut to = child.stdin.take().expect("a pipe");
    let done = thread::scope(|scope| {
        scope.spawn(move || _ = to.write_all(stdin)); // a program need not read all
        child.wait_with_output()
    });
    let Output { status, stdout, stderr } = done.map_err(|error| error.to_string())?;
    same("status and standard error", (status.code(), String::from_utf8_lossy(&stderr).as_ref()), (Some(0), ""))?;
    String::from_utf8(stdout).map_err(|error| error.to_string())
}

/// What a program must print of an input, by the restatement; the Rust agrees where it is accepted.
fn expected(reader: Reader, data: &[u8], tally: &mut Tally) -> Result<String, Difference> {
    let (run, text) = printed(reader, data)?;
    tally.programs += 1;
    tally.printed += text.lines().count() as u64;
    if let Err(number) = run.first {
        tally.printed_refused[number as usize] += 1;
    }
    for called in &run.calls {
        match &called.answer {
            Err(number) => tally.printed_refused[*number as usize] += 1,
            Ok(walked) => tally.printed_walks[usize::from(walked.stored)] += 1,
        }
    }
    Ok(text)
}

/// One input to a process.
pub fn alone(folder: &Path, reader: Reader, data: &[u8], tally: &mut Tally) -> Result<(), Difference> {
    let text = expected(reader, data, tally)?;
    same_text(reader.name(), &output(&folder.join(reader.name()), data)?, &text)
}

/// An input made from its seed.
fn made(kind: &Kind, seed: u64) -> Vec<u8> {
    let mut chance = Chance::new(seed);
    original::set_order(chance.number());
    (kind.make)(&mut chance)
}

fn of_seed(kind: &Kind, seed: u64, difference: Difference) -> Difference {
    let hex: String = made(kind, seed).iter().map(|byte| format!("{byte:02x}")).collect();
    format!("seed {seed} (oracle/run 50 {seed} programs): {difference}\ninput {hex}")
}

/// Inputs from seed on, a batch to a process, and the first of each batch alone.
pub fn run(folder: &Path, kind: &Kind, inputs: u64, seed: u64, tally: &mut Tally) -> Result<(), Difference> {
    for first in (0..inputs).step_by(BATCH as usize) {
        let seeds: Vec<u64> = (first..inputs.min(first + BATCH)).map(|i| seed.wrapping_add(i)).collect();
        batch(folder, kind, &seeds, tally)?;
        alone(folder, kind.reader, &made(kind, seeds[0]), tally).map_err(|d| of_seed(kind, seeds[0], d))?;
    }
    Ok(())
}

/// The inputs of these seeds as one list of replay_lines or replay_walks. What is longer than the longest does not fit in a list.
fn batch(folder: &Path, kind: &Kind, seeds: &[u64], tally: &mut Tally) -> Result<(), Difference> {
    let (mut list, mut listed, mut text) = (vec![], vec![], String::new());
    for &seed in seeds {
        let (data, of_seed) = (made(kind, seed), |difference| of_seed(kind, seed, difference));
        if data.len() > kind.reader.longest() {
            alone(folder, kind.reader, &data, tally).map_err(of_seed)?;
            continue;
        }
        let printed = expected(kind.reader, &data, tally).map_err(of_seed)?;
        text += &format!("input {}\n{printed}", listed.len());
        list.extend(framed(&data));
        listed.push(seed);
    }
    let name = format!("replay_{}", kind.reader.name());
    let found = output(&folder.join(&name), &list)?;
    same_text(&name, &found, &text).map_err(|difference| {
        let alike = text.lines().zip(found.lines()).take_while(|(a, b)| a == b).count();
        let begun = text.lines().take(alike + 1).filter(|line| line.starts_with("input ")).count();
        of_seed(kind, listed[begun.max(1) - 1], difference)
    })
}
