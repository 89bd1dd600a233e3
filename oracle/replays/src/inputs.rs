//! Inputs of the programs `lines` and `walks` (docs/FORMAT.md): put together, and taken apart as the programs do.
use restated::{Program, Record};

const SETTINGS: u8 = 240;
const START: u8 = 241;
const PLAN: u8 = 242;
const GIVEN: u8 = 243;
/// Records of the largest index.
pub const MOST: u64 = 65_535;

/// The program that reads an input.
#[derive(Debug, Clone, Copy, PartialEq)]
pub enum Reader {
    Lines,
    Walks,
}

/// What an input says. One of `lines` has no calls, and the room of that program.
#[derive(Debug, Clone)]
pub struct Input {
    pub program: Program,
    /// The records of all calls.
    pub calls: Vec<u8>,
    /// Places of out.
    pub out: usize,
    /// Records that the index has room for.
    pub room: u64,
    /// An index that is handed in, and the count that the first walk is told.
    pub given: Option<(Vec<u8>, u64)>,
}

impl Reader {
    pub fn name(self) -> &'static str {
        match self {
            Reader::Lines => "lines",
            Reader::Walks => "walks",
        }
    }

    /// Bytes of the longest input.
    pub fn longest(self) -> usize {
        match self {
            Reader::Lines => 16 * 4_096,
            Reader::Walks => 16 * 65_536,
        }
    }

    /// Takes an input apart. What is longer than the longest has a part of a record as its code.
    pub fn read(self, data: &[u8]) -> Input {
        let records = Record::all(data);
        let (mut program, past) = settings_and_starts(&records);
        let mut input = Input { program: program.clone(), calls: vec![], out: 0, room: 0, given: None };
        if data.len() > self.longest() {
            (input.program.starts, input.program.code) = (vec![], data[..1].to_vec());
            return input;
        }
        if self == Reader::Lines {
            program.code = data[(16 * past).min(data.len())..].to_vec();
            return Input { program, room: 4_096, ..input };
        }
        with_plan(data, &records, past, input)
    }
}

/// The settings, 0 where the first record is of another kind, the starts behind them, and the records up to there.
fn settings_and_starts(records: &[Record]) -> (Program, usize) {
    let first = records.first().copied().unwrap_or_default();
    let (flags, arity) = if first.kind == SETTINGS { (first.sub.into(), first.half.into()) } else { (0, 0) };
    let starts: Vec<u32> = records.iter().skip(1).take_while(|r| r.kind == START).map(|r| r.word).collect();
    let past = 1 + starts.len();
    (Program { code: vec![], starts, arity, mask: first.word, flags, c: first.long }, past)
}

/// The rest of an input of `walks`; `at` is the place of the plan.
fn with_plan(data: &[u8], records: &[Record], mut at: usize, mut input: Input) -> Input {
    let mut of_kind = |kind: u8| match records.get(at) {
        Some(record) if record.kind == kind => {
            at += 1;
            *record
        }
        _ => Record::default(),
    };
    let plan = of_kind(PLAN);
    let is_given = plan.sub & 1 == 1;
    let given = if is_given { of_kind(GIVEN) } else { Record::default() };
    let mut left = &data[(16 * at).min(data.len())..];
    let mut next = |number: u32| {
        let (taken, behind) = left.split_at(16 * (number as usize).min(left.len() / 16));
        left = behind;
        taken.to_vec()
    };
    input.calls = next(plan.word);
    let index = next(given.word);
    input.given = is_given.then_some((index, given.long));
    input.program.code = left.to_vec();
    Input { out: plan.half.into(), room: plan.long.min(MOST), ..input }
}

impl Input {
    /// The bytes of the input for a program.
    pub fn bytes(&self, reader: Reader) -> Vec<u8> {
        let p = &self.program;
        let mut records = vec![Record::new(SETTINGS, p.flags as u8, p.arity as u16, p.mask, p.c)];
        records.extend(p.starts.iter().map(|&start| Record::new(START, 0, 0, start, 0)));
        if reader == Reader::Lines {
            return [&Record::bytes(&records), &p.code[..]].concat();
        }
        let number = |bytes: &[u8]| (bytes.len() / 16) as u32;
        let is_given = u8::from(self.given.is_some());
        records.push(Record::new(PLAN, is_given, self.out as u16, number(&self.calls), self.room));
        let mut index = &[][..];
        if let Some((given, count)) = &self.given {
            records.push(Record::new(GIVEN, 0, 0, number(given), *count));
            index = given;
        }
        [&Record::bytes(&records), &self.calls[..], index, &p.code].concat()
    }

    /// The calls: arity records each, the last one maybe shorter.
    pub fn each_call(&self) -> impl Iterator<Item = &[u8]> {
        self.calls.chunks(16 * self.program.arity.max(1) as usize)
    }
}
