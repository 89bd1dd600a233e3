//! The random inputs: one for each seed.
use crate::chance::Chance;
use crate::checked::{self, Difference, same};
use crate::damage::{Handed, damage};
use crate::programs::{Size, call, program};
use crate::reshape::{Stuff, reshape};
use crate::shown;
use crate::tally::Tally;
use crate::with_rust::{self, FILL, Fresh};
use replays::beside::same_answer;
use restated::index::{read_index, written};
use restated::{Program, Read, check_code};

/// One input: a program and calls to it, with room and with little room, damaged, and with indexes handed in.
pub fn input(seed: u64, tally: &mut Tally) -> Result<(), Difference> {
    let mut chance = Chance::new(seed);
    original::set_order(chance.number());
    let size = Size::random(&mut chance);
    let p = program(&mut chance, size);
    tally.random += 1;
    input_of(&mut chance, &p, size, tally).map_err(|difference| format!("{difference}\n{}", shown::program(&p)))
}

fn input_of(chance: &mut Chance, p: &Program, size: Size, tally: &mut Tally) -> Result<(), Difference> {
    let large = size.clauses > 60;
    let room = if large { 1 << 20 } else { 1 << 17 };
    let built = match with_rust::build(p, room, tally)? {
        Err(number) if large && (number == 3 || number == 9) => return Ok(()),
        Err(number) => return Err(format!("a program made to be accepted is refused with {number}")),
        Ok(fresh) => fresh,
    };
    tight_builds(p, built.index.len(), chance.below(70), tally)?;

    let read = check_code(p).map_err(|number| format!("restatement refuses with {number}"))?;
    let calls = some_calls(chance, p, &read, size.bits, if large { 4 } else { 10 });
    let grown = walks(chance, p, built.clone(), &calls, tally)?;
    let least = built.index.len() / 16;
    for _ in 0..if large { 1 } else { 2 } {
        let room = chance.within(least, grown.index.len() / 16);
        small_room(p, built.clone(), &calls, 16 * room + chance.below(16), tally)?;
    }
    for _ in 0..if large { 1 } else { 6 } {
        let from = if chance.percent(50) { &grown.index } else { &built.index };
        damaged(chance, p, from, &calls, tally)?;
    }
    for _ in 0..if large { 1 } else { 4 } {
        handed_in(chance, p, &read, &grown.index, &calls, tally)?;
    }
    Ok(())
}

/// Calls, some of them made again.
pub fn some_calls(chance: &mut Chance, p: &Program, read: &Read, bits: usize, most: usize) -> Vec<Vec<u8>> {
    let mut calls: Vec<Vec<u8>> = vec![];
    for _ in 0..chance.within(1, most) {
        let again = !calls.is_empty() && chance.percent(15);
        let next = if again { calls[chance.below(calls.len())].clone() } else { call(chance, p, read, bits) };
        calls.push(next);
    }
    calls
}

/// The builder with a buffer that just fits and with ones that do not.
fn tight_builds(p: &Program, size: usize, slack: usize, tally: &mut Tally) -> Result<(), Difference> {
    for bytes in [size, size + slack, size - 1, size - 16, slack.min(size - 1)] {
        let built = checked::build(p, &mut vec![FILL; bytes], tally)?;
        same("whether the index fits", built.is_ok(), bytes >= size)?;
    }
    Ok(())
}

/// What demand 3 says of an answer: every agreeing clause is selected, each once, in source order.
pub fn selects(offsets: &[u32], agreeing: &[u32]) -> Result<(), Difference> {
    same("offsets rising", offsets.windows(2).all(|pair| pair[0] < pair[1]), true)?;
    match agreeing.iter().find(|offset| !offsets.contains(offset)) {
        Some(lost) => Err(format!("clause {lost} agrees but is not among the selected {offsets:?}")),
        None => Ok(()),
    }
}

/// A difference at the i-th of calls made one after another.
fn of_call(difference: Difference, i: usize, calls: &[Vec<u8>]) -> Difference {
    format!("{difference}\n{}", shown::records(&format!("call {i} of these"), &calls[..=i].concat()))
}

/// The calls one after another beside the Rust, each in a buffer that its index fits in, sometimes exactly.
fn walks(
    chance: &mut Chance,
    p: &Program,
    mut fresh: Fresh,
    calls: &[Vec<u8>],
    tally: &mut Tally,
) -> Result<Fresh, Difference> {
    for (i, call) in calls.iter().enumerate() {
        let before = fresh.index.len();
        let slack = if chance.percent(50) { 0 } else { chance.below(80) };
        let walked = with_rust::walk(p, &mut fresh, call, slack, tally).map_err(|d| of_call(d, i, calls))?;
        let agreeing = checked::witness(p, call, tally)?.map_err(|number| format!("witness refused with {number}"))?;
        selects(&walked.offsets, &agreeing)?;
        if calls[..i].contains(call) {
            same("the index after a call made again", fresh.index.len(), before)?;
            tally.repeated += 1;
        }
    }
    Ok(fresh)
}

/// The calls one after another in a buffer of fixed length that may be too small for the expansions: the answers are the
/// Rust's all the same, and a call made again leaves the index.
fn small_room(
    p: &Program,
    mut fresh: Fresh,
    calls: &[Vec<u8>],
    bytes: usize,
    tally: &mut Tally,
) -> Result<(), Difference> {
    let mut index = fresh.index.clone();
    let mut count = index.len() / 16;
    index.resize(bytes, FILL);
    for (i, call) in calls.iter().enumerate() {
        let answer = fresh.rust.walk(call);
        let before = index.clone();
        let walked = checked::walk(p, call, &mut index, count, p.starts.len(), tally)
            .map_err(|d| of_call(d, i, calls))?
            .map_err(|number| format!("a walk on the index built here is refused with {number}"))?;
        same_answer(&walked, &answer).map_err(|d| of_call(d, i, calls))?;
        count = walked.index.len() / 16;
        if calls[..i].contains(call) {
            same("the index after a call made again", index == before, true)?;
            tally.repeated += 1;
        }
        tally.answers_with_rust += 1;
    }
    Ok(())
}

/// Build, walk and witness on something damaged.
fn damaged(
    chance: &mut Chance,
    p: &Program,
    index: &[u8],
    calls: &[Vec<u8>],
    tally: &mut Tally,
) -> Result<(), Difference> {
    let call = calls[chance.below(calls.len())].clone();
    let (count, out) = (index.len() / 16, p.starts.len() + chance.below(2));
    let mut index = index.to_vec();
    index.resize(index.len() + chance.below(100), FILL);
    let mut handed = Handed { program: p.clone(), call, room: index.len(), index, count, out };
    damage(chance, &mut handed);
    let before = handed.clone();
    all_three(&mut handed, tally).map_err(|difference| format!("{difference}\n{}", shown::handed(&before)))
}

/// Build, walk and witness on whatever is handed in.
pub fn all_three(handed: &mut Handed, tally: &mut Tally) -> Result<(), Difference> {
    let p = &handed.program;
    let _ = with_rust::build(p, handed.room, tally)?;
    let _ = checked::witness(p, &handed.call, tally)?;
    let _ = with_rust::walk_handed_in(p, &handed.call, &mut handed.index, handed.count, handed.out, tally)?;
    Ok(())
}

/// An index that no builder made, from one that was built here.
pub fn reshaped(chance: &mut Chance, p: &Program, read: &Read, index: &[u8]) -> Vec<u8> {
    let stuff = Stuff { offsets: &read.offsets, arity: p.arity as usize, dynamic: p.dynamic() };
    let mut lines = read_index(p, read, index, index.len() / 16).expect("an index built here is well formed");
    reshape(chance, &stuff, &mut lines);
    written(&lines, p.dynamic())
}

/// Walks on an index that no builder made, some of them damaged besides.
fn handed_in(
    chance: &mut Chance,
    p: &Program,
    read: &Read,
    index: &[u8],
    calls: &[Vec<u8>],
    tally: &mut Tally,
) -> Result<(), Difference> {
    let mut index = reshaped(chance, p, read, index);
    let mut count = index.len() / 16;
    let more = if chance.percent(50) { 2000 } else { chance.below(160) };
    index.resize(index.len() + more, FILL);
    for _ in 0..3 {
        let call = &calls[chance.below(calls.len())];
        let before = index.clone();
        let walked = with_rust::walk_handed_in(p, call, &mut index, count, p.starts.len(), tally).map_err(|d| {
            let (call, index) = (shown::records("call", call), shown::records("handed-in index", &before));
            format!("{d}\ncount {count}\n{call}\n{index}")
        })?;
        match walked {
            Err(_) => break,
            Ok(walked) => count = walked.index.len() / 16,
        }
    }
    Ok(())
}
