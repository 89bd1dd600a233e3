//! The list of the program `replay_keys`: code, its refusal numbers and its clauses' keys, by the restatement.
//!
//! A case is a record 244 (half arity, word number of starts, long c), a record 245 (word number of code bytes), a record 241
//! for each start (word), then the code, filled up with zeros to whole records. Printed for each: `case N code A build B`, A and B the
//! refusal numbers or 0; if A is 0, for each clause its offset and for each argument sort, arity and bits of its key.
use crate::same::Difference;
use restated::{Program, Record, check_code, whole_index};
use std::fmt::Write;

/// What is printed of the cases, and how many they are.
pub fn text(stdin: &[u8]) -> Result<(String, usize), Difference> {
    let (mut text, mut left, mut number) = (String::new(), stdin, 0);
    while !left.is_empty() {
        let p = next_case(&mut left).ok_or(format!("no whole case {number}"))?;
        put_numbers(&mut text, "case", number, &p);
        put_keys(&mut text, &p);
        number += 1;
    }
    put_large(&mut text);
    Ok((text, number))
}

/// Takes the first case off what is left.
fn next_case(left: &mut &[u8]) -> Option<Program> {
    let mut take = |bytes: usize| left.split_off(..bytes);
    let head = Record::all(take(32)?);
    if (head[0].kind, head[1].kind) != (244, 245) {
        return None;
    }
    let starts = Record::all(take(16 * head[0].word as usize)?).iter().map(|r| r.word).collect();
    let length = head[1].word as usize;
    let code = take(length.next_multiple_of(16))?[..length].to_vec();
    Some(Program { code, starts, arity: head[0].half.into(), mask: 0, flags: 0, c: head[0].long })
}

fn put_numbers(text: &mut String, what: &str, number: usize, p: &Program) {
    let of = |refused: Option<u32>| refused.unwrap_or(0);
    let (code, build) = (of(check_code(p).err()), of(whole_index(p).err()));
    writeln!(text, "{what} {number} code {code} build {build}").unwrap();
}

fn put_keys(text: &mut String, p: &Program) {
    let Ok(read) = check_code(p) else { return };
    for &offset in &read.offsets {
        write!(text, "{offset}").unwrap();
        for key in (1..=p.arity as usize).map(|argument| read.key(offset, argument)) {
            let (sort, arity, bits) = key.map_or((0, 0, 0), |key| (key.sort, key.arity, key.bits));
            write!(text, " {sort},{arity},{bits}").unwrap();
        }
        text.push('\n');
    }
}

/// The cases that the program makes in memory: one clause of so many records, and so many clauses of one.
fn put_large(text: &mut String) {
    let of = |code: &[Record], starts| {
        let code = Record::bytes(code);
        Program { code, starts, arity: 1, mask: 0, flags: 0, c: 1 }
    };
    for number in [32_767, 32_768, 32_769] {
        let mut code = vec![Record::default(); number];
        (code[0], code[number - 1]) = (Record::list_in(1), Record::BODY);
        put_numbers(text, "records", number, &of(&code, vec![0]));
    }
    for number in [1_023, 1_024, 1_025] {
        put_numbers(text, "starts", number, &of(&vec![Record::BODY; number], (0..number as u32).collect()));
    }
}
