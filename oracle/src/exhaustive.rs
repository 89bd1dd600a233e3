//! Small inputs, all of them.
use crate::checked::{self, Difference, same};
use crate::shown;
use crate::small::{LIST, atom, built, call, integer, program, show, structure, walked};
use crate::tally::Tally;
use crate::with_rust::{self, FILL};
use podrulka::Record;
use replays::beside::same_answer;
use restated::{Key, Program};

pub fn run(tally: &mut Tally) -> Result<(), Difference> {
    code_records(tally)?;
    call_records(tally)?;
    index_bytes(tally)?;
    on_demand_lines(tally)?;
    programs(tally)
}

/// One record of code of every opcode and sub, before a list in register 2 and a body record.
fn code_records(tally: &mut Tally) -> Result<(), Difference> {
    let mut p = Program { code: vec![], starts: vec![0], arity: 2, mask: 0, flags: 0, c: 2 };
    for kind in 0..=255 {
        for sub in 0..=255 {
            for half in [0, 1, 3, 4, 255, 256] {
                for word in 0..4 {
                    let first = Record::new(kind, sub, half, word, 5);
                    p.code = Record::bytes(&[first, Record::list_in(2), Record::BODY]);
                    tally.exhaustive += 1;
                    let _ = with_rust::build(&p, 80, tally).map_err(|d| format!("{d}\n{first:?}"))?;
                }
            }
        }
    }
    Ok(())
}

/// One record of a call of every sub, and calls of every length.
fn call_records(tally: &mut Tally) -> Result<(), Difference> {
    let p = show(0);
    let fresh = built(&p, 16 * 12, tally)?;
    let mut calls = vec![];
    for kind in [0, 1, 255] {
        for sub in 0..=255 {
            for half in [0, 1, 2, 255, 256] {
                for (word, long) in [(0, 0), (0, 1), (0, 7), (1, 0), (1, 7)] {
                    let argument = Record::new(kind, sub, half, word, long);
                    calls.push(Record::bytes(&[argument, Record::UNBOUND]));
                    calls.push(Record::bytes(&[Record::UNBOUND, argument]));
                }
            }
        }
    }
    calls.extend((0..=50).map(|length| vec![0; length]));
    for call in calls {
        let mut index = fresh.index.clone();
        tally.exhaustive += 1;
        let _ = with_rust::walk_handed_in(&p, &call, &mut index, 12, 3, tally).map_err(|d| format!("{d}\n{call:?}"))?;
        let _ = checked::witness(&p, &call, tally).map_err(|d| format!("{d}\n{call:?}"))?;
    }
    Ok(())
}

/// Every byte of some small indexes with every value, and every count.
fn index_bytes(tally: &mut Tally) -> Result<(), Difference> {
    let open = program(&[[atom(7), None, LIST], [atom(7), integer(1), LIST], [structure(7, 1), LIST, None]], 3, 0, 1);
    for flags in [0, 1, 2, 3] {
        for p in [show(flags), Program { flags, ..open.clone() }] {
            let mut fresh = built(&p, 1 << 12, tally)?;
            let (first, expanding) = match p.arity {
                2 => (call(&[None, LIST]), call(&[atom(7), atom(1)])),
                _ => (call(&[atom(7), None, LIST]), call(&[None, LIST, LIST])),
            };
            bytes_of(&p, &fresh.index, &expanding, tally)?;
            walked(&p, &mut fresh, &first, tally)?;
            bytes_of(&p, &fresh.index, &expanding, tally)?;
        }
    }
    Ok(())
}

fn bytes_of(p: &Program, index: &[u8], call: &[u8], tally: &mut Tally) -> Result<(), Difference> {
    let (count, room) = (index.len() / 16, index.len() + 48);
    let mut one = |index: &[u8], count: usize, at: usize| {
        let mut buffer = index.to_vec();
        buffer.resize(room, FILL);
        tally.exhaustive += 1;
        let walked = with_rust::walk_handed_in(p, call, &mut buffer, count, 3, tally);
        walked.map_err(|d| format!("{d}\ncount {count}, byte {at} of {index:?}"))
    };
    for count in 0..=room / 16 + 2 {
        let _ = one(index, count, 0)?;
    }
    for at in 0..index.len() {
        for value in 0..=255 {
            let mut index = index.to_vec();
            index[at] = value;
            let _ = one(&index, count, at)?;
        }
    }
    Ok(())
}

/// Handed-in indexes of one line with all three arguments on demand, over all programs of two and three clauses of a few
/// keys and open ones, at every capacity up to some records more: expansions to dead tables that fit or do not, with others
/// after them that would.
fn on_demand_lines(tally: &mut Tally) -> Result<(), Difference> {
    let calls: Vec<Vec<u8>> = choices(3, &[None, atom(1)]).iter().map(|choice| call(choice)).collect();
    for (clauses, keys) in [(2, &[None, atom(1), LIST][..]), (3, &[None, atom(1)])] {
        for choice in choices(3 * clauses, keys) {
            for flags in 0..4 {
                let p = program(&choice.chunks(3).collect::<Vec<_>>(), 3, flags, 1);
                tally.exhaustive += 1;
                on_demand_line(&p, &calls, tally).map_err(|d| format!("{d}\n{}", shown::program(&p)))?;
            }
        }
    }
    Ok(())
}

fn on_demand_line(p: &Program, calls: &[Vec<u8>], tally: &mut Tally) -> Result<(), Difference> {
    let tag = if p.dynamic() { 6 } else { 1 };
    let mut records = vec![Record::new(1, p.dynamic() as u8, 0, 0, 0)];
    records.extend((1..=3).map(|argument| Record::new(3, 0, argument, 0, 0)));
    records.extend(p.starts.iter().map(|start| Record::new(6, tag, 0, start + 1, 0)));
    for call in calls {
        for more in 0..6 {
            let mut index = Record::bytes(&records);
            index.resize(16 * (records.len() + more), FILL);
            let walked = with_rust::walk_handed_in(p, call, &mut index, records.len(), 3, tally)?;
            same("whether the index is well formed", walked.is_ok(), true)?;
        }
    }
    Ok(())
}

/// All programs of one to three clauses over a few keys, with all flags, and all calls over these keys.
fn programs(tally: &mut Tally) -> Result<(), Difference> {
    let seven = [None, atom(1), atom(2), integer(1), structure(1, 1), structure(1, 2), LIST];
    let six = [None, atom(1), atom(2), integer(1), structure(1, 1), LIST];
    let four = [None, atom(1), atom(2), LIST];
    for clauses in 1..=3 {
        all_programs(clauses, 1, 1, &seven, &[0], tally)?;
    }
    all_programs(1, 2, 1, &seven, &[0, 2], tally)?;
    all_programs(2, 2, 1, &six, &[0, 2], tally)?;
    all_programs(3, 2, 1, &four, &[0, 2], tally)?;
    all_programs(1, 2, 2, &six, &[0, 2], tally)?;
    all_programs(2, 2, 2, &four, &[0, 3], tally)
}

fn all_programs(
    clauses: usize,
    arity: usize,
    c: usize,
    keys: &[Option<Key>],
    masks: &[u32],
    tally: &mut Tally,
) -> Result<(), Difference> {
    let calls: Vec<Vec<u8>> = choices(arity, keys).iter().map(|choice| call(choice)).collect();
    for choice in choices(clauses * arity, keys) {
        let clauses: Vec<&[Option<Key>]> = choice.chunks(arity).collect();
        if clauses.iter().any(|clause| clause[c - 1].is_none()) {
            continue;
        }
        for (flags, &mask) in (0..16).flat_map(|flags| masks.iter().map(move |mask| (flags, mask))) {
            let p = Program { mask, ..program(&clauses, arity as u32, flags, c as u64) };
            tally.exhaustive += 1;
            one_program(&p, &calls, tally)
                .map_err(|d| format!("{d}\nclauses {clauses:?} flags {flags} mask {mask} c {c}"))?;
        }
    }
    Ok(())
}

/// All lists of so many keys.
fn choices(length: usize, keys: &[Option<Key>]) -> Vec<Vec<Option<Key>>> {
    let number = keys.len().pow(length as u32);
    let digits = |n: usize| (0..length as u32).map(|i| keys[n / keys.len().pow(i) % keys.len()]).collect();
    (0..number).map(digits).collect()
}

/// The build, and each call on the fresh index: with room, made again, and with no room to expand. The walk does not read
/// skip, so with it only the build is looked at.
fn one_program(p: &Program, calls: &[Vec<u8>], tally: &mut Tally) -> Result<(), Difference> {
    original::set_order(tally.exhaustive);
    let fresh = built(p, 1 << 11, tally)?;
    if p.skip() {
        return Ok(());
    }
    for call in calls {
        let mut grown = fresh.clone();
        walked(p, &mut grown, call, tally)?;
        if grown.index.len() > fresh.index.len() {
            let before = grown.index.len();
            with_rust::walk(p, &mut grown, call, 0, tally)?;
            same("the index after a call made again", grown.index.len(), before)?;
            tally.repeated += 1;
            let (mut index, count) = (fresh.index.clone(), fresh.index.len() / 16);
            let small = checked::walk(p, call, &mut index, count, p.starts.len(), tally)?
                .map_err(|n| format!("refused {n}"))?;
            same_answer(&small, &fresh.rust.clone().walk(call))?;
            same("the mark", small.stored, false)?;
            tally.answers_with_rust += 1;
        }
    }
    Ok(())
}
