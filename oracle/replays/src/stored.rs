//! The stored replays: stdin and stdout of program crates, stdout made from stdin.
use crate::inputs::Reader;
use crate::keys;
use crate::printed::{Run, run};
use crate::same::{Difference, same_text};
use restated::Record;
use std::fs;

/// The crates with their programs' inputs; the last three have lists of them.
pub const CRATES: [&str; 5] = ["lines", "walks", "replay_lines", "replay_walks", "replay_keys"];
const FRAME: u8 = 246;

/// An input in a list: a record 246 with its length, then its bytes, filled up with zeros to whole records.
pub fn framed(data: &[u8]) -> Vec<u8> {
    let mut bytes = Record::new(FRAME, 0, 0, data.len() as u32, 0).to_bytes().to_vec();
    bytes.extend(data);
    bytes.resize(bytes.len().next_multiple_of(16), 0);
    bytes
}

/// The inputs of a list.
fn unframed(mut list: &[u8]) -> Result<Vec<&[u8]>, Difference> {
    let mut inputs = vec![];
    while !list.is_empty() {
        inputs.push(next_input(&mut list).ok_or(format!("no whole input {}", inputs.len()))?);
    }
    Ok(inputs)
}

/// Takes the first input off what is left.
fn next_input<'a>(left: &mut &'a [u8]) -> Option<&'a [u8]> {
    let head = Record::all(left.split_off(..16)?)[0];
    let length = head.word as usize;
    let data = left.split_off(..length.next_multiple_of(16))?;
    (head.kind == FRAME).then_some(&data[..length])
}

/// What a program prints of an input. With the feature rust, what is accepted is held against the Rust's answers.
pub fn printed(reader: Reader, data: &[u8]) -> Result<(Run, String), Difference> {
    let run = run(reader.read(data));
    #[cfg(feature = "rust")]
    crate::beside::same_run(&run)?;
    let text = run.text(reader);
    Ok((run, text))
}

/// The stdout of a crate, and how many inputs its stdin has.
fn stdout(name: &str, stdin: &[u8]) -> Result<(String, usize), Difference> {
    let (reader, is_list) = match name {
        "lines" => (Reader::Lines, false),
        "walks" => (Reader::Walks, false),
        "replay_lines" => (Reader::Lines, true),
        "replay_walks" => (Reader::Walks, true),
        _ => return keys::text(stdin),
    };
    if !is_list {
        return Ok((printed(reader, stdin)?.1, 1));
    }
    let (mut text, inputs) = (String::new(), unframed(stdin)?);
    for (number, data) in inputs.iter().enumerate() {
        let (_, of_input) = printed(reader, data).map_err(|d| format!("input {number}: {d}"))?;
        text += &format!("input {number}\n{of_input}");
    }
    Ok((text, inputs.len()))
}

fn file(name: &str, file: &str) -> String {
    format!("crates/{name}/{file}")
}

fn read(path: &str) -> Result<Vec<u8>, Difference> {
    fs::read(path).map_err(|error| format!("{path}: {error}"))
}

fn write(path: &str, bytes: &[u8]) -> Result<(), Difference> {
    fs::write(path, bytes).map_err(|error| format!("{path}: {error}"))
}

/// Compares the stored stdout of each crate, or writes it, in the repository's folder. Gives the number of all inputs.
pub fn all(writes: bool) -> Result<usize, Difference> {
    let mut number = 0;
    for name in CRATES {
        let path = file(name, "stdout");
        let (text, inputs) = stdout(name, &read(&file(name, "stdin"))?).map_err(|d| format!("{name}: {d}"))?;
        if writes {
            write(&path, text.as_bytes())?;
        }
        same_text(&path, &String::from_utf8_lossy(&read(&path)?), &text)?;
        println!("{path}: {inputs} inputs, {} lines, as the restatement has them", text.lines().count());
        number += inputs;
    }
    Ok(number)
}

/// Appends an input to a list, of lines or walks as those read it, of replay_keys as it stands in the list, and writes the list's
/// stdin and stdout. Gives the input's number.
pub fn add(name: &str, path: &str) -> Result<usize, Difference> {
    let (to, data) = (file(name, "stdin"), read(path)?);
    let mut stdin = read(&to)?;
    match name {
        "replay_lines" | "replay_walks" => stdin.extend(framed(&data)),
        "replay_keys" => stdin.extend(data),
        _ => return Err(format!("{name} has no list of inputs")),
    }
    let (text, inputs) = stdout(name, &stdin)?;
    write(&to, &stdin)?;
    write(&file(name, "stdout"), text.as_bytes())?;
    Ok(inputs - 1)
}
