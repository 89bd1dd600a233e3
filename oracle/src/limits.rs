//! Inputs of the programs at the ends of document 01's ranges and of the programs' own, each to a process of its own.
use crate::checked::Difference;
use crate::runs::alone;
use crate::small::{LIST, atom, call, program};
use crate::tally::Tally;
use replays::inputs::{Input, MOST, Reader};
use restated::{Key, Program, Record};
use std::path::Path;

type Named = (&'static str, Vec<u8>);

pub fn run(folder: &Path, tally: &mut Tally) -> Result<(), Difference> {
    let walks = [indexes(), clauses(), codes(), longest()].concat();
    for (name, data) in &walks {
        alone(folder, Reader::Walks, data, tally).map_err(|d| format!("{name}: {d}"))?;
    }
    for (name, data) in &longest_of_lines() {
        alone(folder, Reader::Lines, data, tally).map_err(|d| format!("{name}: {d}"))?;
    }
    Ok(())
}

/// An input of `walks` without an index, out as long as needed.
fn walks(program: Program, calls: Vec<u8>, room: u64) -> Vec<u8> {
    let out = program.starts.len();
    Input { program, calls, out, room, given: None }.bytes(Reader::Walks)
}

/// Keys of 32 arguments: the first and the last.
fn ends(first: Option<Key>, last: Option<Key>) -> Vec<Option<Key>> {
    let mut keys = vec![None; 32];
    (keys[0], keys[31]) = (first, last);
    keys
}

/// Built indexes of 65,535 records and of one more, and one that grows to 65,535. Clauses with a key at argument 1 alone have
/// dead tables everywhere: 33 records for each key, 64 for each clause and 33.
fn indexes() -> Vec<Named> {
    let full = |clauses: u64, keys: u64| {
        let clauses: Vec<_> = (0..clauses).map(|i| [atom(i % keys)]).collect();
        program(&clauses, 32, 2, 1)
    };
    let calls = [call(&ends(atom(3), None)), call(&[atom(3); 32])].concat();
    let clauses: Vec<_> = (0..1_024).map(|i| ends(atom(i % 60), atom(i))).collect();
    let firsts = [None, atom(4), atom(5), atom(6), atom(4)];
    let growing = firsts.map(|first| call(&ends(first, atom(7)))).concat();
    vec![
        ("an index of 65,535 records", walks(full(1_008, 30), calls, u64::MAX)),
        ("an index of 65,536 records", walks(full(991, 63), call(&[None; 32]), u64::MAX)),
        ("an index grown to 65,535 records", walks(program(&clauses, 32, 2, 1), growing, MOST)),
    ]
}

/// 1,024 clauses with all room and with some, and 1,025.
fn clauses() -> Vec<Named> {
    let third = |i: u64| if i % 2 == 1 { LIST } else { atom(i) };
    let clauses: Vec<_> = (0..1_024).map(|i| [atom(i % 7), atom(i % 11), third(i)]).collect();
    let (p, a) = (program(&clauses, 3, 0, 1), atom);
    let calls = [[None, a(4), a(5)], [a(3), a(5), None], [a(2), a(4), LIST], [None, None, LIST], [None, a(4), a(5)]];
    let calls = calls.map(|keys| call(&keys)).concat();
    let more: Vec<_> = (0..1_025).map(|i| [atom(i)]).collect();
    vec![
        ("1,024 clauses", walks(p.clone(), calls.clone(), MOST)),
        ("1,024 clauses, room 4,500", walks(p.clone(), calls.clone(), 4_500)),
        ("1,024 clauses, room 3,200", walks(p, calls, 3_200)),
        ("1,025 clauses", walks(program(&more, 1, 0, 1), call(&[None]), MOST)),
    ]
}

/// One clause in so many records.
fn one_clause(records: usize) -> Program {
    let mut p = program(&[[atom(7)]], 1, 0, 1);
    p.code.extend(Record::bytes(&vec![Record::BODY; records - 2]));
    p
}

fn two_calls() -> Vec<u8> {
    call(&[atom(7), None])
}

fn codes() -> Vec<Named> {
    vec![
        ("code of 32,768 records", walks(one_clause(32_768), two_calls(), MOST)),
        ("code of 32,769 records", walks(one_clause(32_769), two_calls(), MOST)),
    ]
}

/// An input as it is, one byte longer, and one record longer with c 0.
fn with_longer(names: [&'static str; 3], data: Vec<u8>) -> Vec<Named> {
    let byte = [&data[..], b"x"].concat();
    let mut record = [&data[..], &Record::BODY.to_bytes()].concat();
    record[8..16].fill(0);
    names.into_iter().zip([data, byte, record]).collect()
}

/// The longest input of `walks`: an index of three records handed in, with as many behind it as there is place for.
fn longest() -> Vec<Named> {
    let mut index = vec![Record::new(1, 0, 0, 0, 0), Record::new(3, 0, 1, 0, 0), Record::new(6, 1, 0, 1, 0)];
    index.resize(65_536 - 30_002 - 6, Record::new(9, 9, 9, 9, 9));
    let given = Some((Record::bytes(&index), 3));
    let input = Input { program: one_clause(30_002), calls: two_calls(), out: 1, room: 4, given };
    let data = input.bytes(Reader::Walks);
    assert_eq!(data.len(), Reader::Walks.longest());
    with_longer(["65,536 records", "65,536 records and a byte", "65,537 records, c 0"], data)
}

fn longest_of_lines() -> Vec<Named> {
    let data = Input { program: one_clause(4_094), calls: vec![], out: 0, room: 0, given: None }.bytes(Reader::Lines);
    assert_eq!(data.len(), Reader::Lines.longest());
    with_longer(["4,096 records", "4,096 records and a byte", "4,097 records, c 0"], data)
}
