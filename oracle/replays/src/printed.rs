//! What the programs `lines` and `walks` do with an input and print of it, by the restatement.
use crate::inputs::{Input, Reader};
use restated::{Case, Record, Walked, build, walk, whole_index};
use std::fmt::Write;

/// An input's answers.
pub struct Run {
    pub input: Input,
    /// The index before the calls, as it is printed, or the builder's refusal.
    pub first: Result<Vec<u8>, u32>,
    pub calls: Vec<Called>,
}

/// A call, the records of the index before it, and its answer.
pub struct Called {
    pub call: Vec<u8>,
    pub before: Vec<u8>,
    pub answer: Result<Walked, u32>,
}

/// Builds the index or takes the one handed in, and walks the calls one after another.
pub fn run(input: Input) -> Run {
    let room = 16 * input.room as usize;
    let (mut buffer, mut count) = match &input.given {
        Some((index, count)) => (index[..index.len().min(room)].to_vec(), *count as usize),
        None => match whole_index(&input.program).and_then(|index| build(&input.program, index, room)) {
            Err(number) => return Run { input, first: Err(number), calls: vec![] },
            Ok(built) => (built.index.clone(), built.index.len() / 16),
        },
    };
    buffer.resize(room, 0);
    let counted = |buffer: &[u8], count: usize| buffer[..count.saturating_mul(16).min(room)].to_vec();
    let (first, mut calls) = (counted(&buffer, count), vec![]);
    for call in input.each_call() {
        let before = counted(&buffer, count);
        let answer = walk(&input.program, call, &buffer, count, input.out);
        if let Ok(walked) = &answer {
            buffer[..walked.index.len()].copy_from_slice(&walked.index);
            count = walked.index.len() / 16;
        }
        calls.push(Called { call: call.to_vec(), before, answer });
    }
    Run { input, first: Ok(first), calls }
}

impl Run {
    /// The builder's variable offset.
    pub fn variable(&self) -> usize {
        if self.input.program.skip() { 2 } else { 1 }
    }

    pub fn text(&self, reader: Reader) -> String {
        let index = match &self.first {
            Err(number) => return refused(*number),
            Ok(index) => index,
        };
        let mut text = match &self.input.given {
            _ if reader == Reader::Lines => String::new(),
            Some((_, count)) => format!("given {count}\n"),
            None => format!("built {} {}\n", index.len() / 16, self.variable()),
        };
        put_records(&mut text, index);
        for called in &self.calls {
            match &called.answer {
                Err(number) => text += &refused(*number),
                Ok(walked) => put_walk(&mut text, walked),
            }
        }
        text
    }
}

fn refused(number: u32) -> String {
    format!("refused {number}\n")
}

fn put_records(text: &mut String, index: &[u8]) {
    for r in Record::all(index) {
        writeln!(text, "{} {} {} {} {}", r.kind, r.sub, r.half, r.word, r.long).unwrap();
    }
}

fn put_walk(text: &mut String, w: &Walked) {
    let case = match w.case {
        Case::Fail => "fail",
        Case::External => "external",
        Case::Sequence => "sequence",
        Case::Variadic => "variadic",
    };
    let (mark, records) = (if w.stored { "stored" } else { "unstored" }, w.index.len() / 16);
    write!(text, "walk {case} {} {} {} {mark} {records}", w.line, w.offsets.len(), w.tables).unwrap();
    w.offsets.iter().for_each(|offset| write!(text, " {offset}").unwrap());
    text.push('\n');
    put_records(text, &w.index);
}
