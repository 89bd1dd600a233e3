//! The worked show of document 01, its ten cases, and a refusal of each number.
use podrulka::{build, numbers, walk, witness, Built, Case, Record, Refusal, Settings, Walked};

const STARTS: [u32; 3] = [0, 3, 6];
const UNBOUND: Record = Record::UNBOUND;
const LIST: Record = Record::LIST;

/// Keys (atom 7, atom 1), (atom 8, list), (atom 7, atom 2).
fn clauses() -> Vec<Record> {
    let second = [Record::atom_in(2, 1), Record::list_in(2), Record::atom_in(2, 2)];
    let first = [7, 8, 7].map(|bits| Record::atom_in(1, bits));
    first.iter().zip(second).flat_map(|(&first, second)| [first, second, Record::BODY]).collect()
}

fn code() -> Vec<u8> {
    Record::bytes(&clauses())
}

/// The fresh index, in a buffer of so many records.
fn fresh(settings: &Settings, room: usize) -> (Vec<u8>, usize) {
    let mut index = vec![0xA5; 16 * room];
    let built = build(&code(), &STARTS, settings, 1, &mut index).unwrap();
    (index, built.count)
}

/// A call from the fresh index: what the walk says, and the selected clauses.
fn called(settings: &Settings, room: usize, call: &[Record]) -> (Walked, Vec<u32>) {
    let (mut index, count) = fresh(settings, room);
    let mut out = [99; 4];
    let walked = walk(&code(), &STARTS, settings, &Record::bytes(call), &mut index, count, &mut out).unwrap();
    assert!(out[walked.count..].iter().all(|&place| place == 99));
    assert!(index[16 * walked.records..].iter().all(|&byte| byte == 0xA5));
    (walked, out[..walked.count].to_vec())
}

fn plain() -> Settings {
    Settings::new(2)
}

#[test]
fn the_listing() {
    let (index, count) = fresh(&plain(), 64);
    let expected = [
        Record::new(1, 0, 0, 0, 0),
        Record::new(2, 0, 1, 0, 0),
        Record::new(5, 1, 0, 0x8000_0001, 7),
        Record::new(5, 1, 0, 4, 8),
        Record::new(3, 0, 2, 0, 0),
        Record::new(6, 1, 0, 1, 0),
        Record::new(6, 2, 0, 4, 0),
        Record::new(6, 4, 0, 7, 0),
        Record::new(1, 0, 0, 1, 0),
        Record::new(3, 0, 2, 0, 0),
        Record::new(6, 1, 0, 1, 0),
        Record::new(6, 4, 0, 7, 0),
    ];
    assert_eq!(Record::all(&index[..16 * count]), expected);
    assert!(index[16 * count..].iter().all(|&byte| byte == 0xA5));
}

#[test]
fn case_1_build() {
    let mut index = [0; 12 * 16];
    let built = build(&code(), &STARTS, &plain(), 1, &mut index);
    assert_eq!(built, Ok(Built { count: 12, variable_offset: 1 }));
    let skipping = Settings { skip: true, ..plain() };
    let built = build(&code(), &STARTS, &skipping, 1, &mut index);
    assert_eq!(built, Ok(Built { count: 12, variable_offset: 2 }));
}

#[test]
fn case_2_external() {
    let expected = Walked { case: Case::External, line: 0, count: 1, tables: 2, stored: true, records: 15 };
    assert_eq!(called(&plain(), 64, &[UNBOUND, LIST]), (expected, vec![4]));
}

#[test]
fn case_3_fail_after_expansion() {
    let expected = Walked { case: Case::Fail, line: 0, count: 0, tables: 2, stored: true, records: 14 };
    assert_eq!(called(&plain(), 64, &[Record::atom(7), Record::atom(9)]), (expected, vec![]));
}

#[test]
fn cases_4_and_7_fail_at_the_first_switch() {
    let expected = Walked { case: Case::Fail, line: 0, count: 0, tables: 1, stored: true, records: 12 };
    assert_eq!(called(&plain(), 64, &[Record::atom(9), UNBOUND]), (expected, vec![]));
    assert_eq!(called(&plain(), 64, &[Record::structure(7, 1), LIST]), (expected, vec![]));
}

#[test]
fn case_5_variadic() {
    let expected = Walked { case: Case::Variadic, line: 0, count: 3, tables: 2, stored: true, records: 12 };
    assert_eq!(called(&plain(), 64, &[UNBOUND, UNBOUND]), (expected, vec![1, 4, 7]));
}

#[test]
fn case_6_unstored() {
    let expected = Walked { case: Case::External, line: 0, count: 1, tables: 2, stored: false, records: 12 };
    assert_eq!(called(&plain(), 13, &[UNBOUND, LIST]), (expected, vec![4]));
}

#[test]
fn case_8_an_empty_dynamic_line() {
    let dynamic = Settings { dynamic: true, ..plain() };
    let (walked, selected) = called(&dynamic, 64, &[LIST, UNBOUND]);
    assert_eq!((walked.case, walked.line, walked.stored, selected), (Case::Sequence, 1, true, vec![]));
}

#[test]
fn a_sequence_names_its_line() {
    let (walked, selected) = called(&plain(), 64, &[Record::atom(7), UNBOUND]);
    assert_eq!((walked.case, walked.line, walked.tables, selected), (Case::Sequence, 1, 2, vec![1, 7]));
}

#[test]
fn a_witness_or_none() {
    let seen = |call: [Record; 2]| witness(&code(), &STARTS, &plain(), &Record::bytes(&call)).unwrap();
    assert_eq!(seen([UNBOUND, LIST]), Some(4));
    assert_eq!(seen([Record::atom(7), Record::atom(2)]), Some(7));
    assert_eq!(seen([Record::atom(7), LIST]), None);
}

/// What the builder says of changed clauses; its numbers beyond the first must be 0 and the index unchanged.
fn built_number(code: &[u8], starts: &[u32], arity: u32, c: u64, room: usize) -> u64 {
    let mut index = vec![0xA5; room];
    let [number, count, variable] = numbers::build(code, starts, arity, 0, 0, c, &mut index);
    assert!(number == 0 || (count, variable) == (0, 0));
    assert!(number == 0 || index.iter().all(|&byte| byte == 0xA5));
    number
}

#[test]
fn cases_9_and_10_and_refusals_of_the_builder() {
    let built = |code: &[u8], starts: &[u32], arity, c| built_number(code, starts, arity, c, 64 * 16);
    let changed = |at: usize, record| {
        let mut records = clauses();
        records[at] = record;
        Record::bytes(&records)
    };
    assert_eq!(built_number(&code(), &STARTS, 2, 1, 12 * 16), 0);
    assert_eq!(built_number(&code(), &STARTS, 2, 1, 11 * 16), 9);
    assert_eq!(built_number(&code(), &STARTS, 2, 1, 12 * 16 - 1), 9);
    assert_eq!(built_number(&code(), &STARTS, 2, 1, 0), 9);
    assert_eq!(built(&code(), &STARTS, 32, 1), 0);
    assert_eq!(built(&code(), &STARTS, 33, 1), 1);
    assert_eq!(built(&code(), &STARTS, 0, 1), 1);
    assert_eq!(built(&code(), &STARTS, 2, 3), 2);
    assert_eq!(built(&code(), &STARTS, 2, 1 << 32 | 1), 2);
    assert_eq!(built(&code()[..17], &STARTS, 2, 1), 3);
    assert_eq!(built(&code(), &[3, 3], 2, 1), 4);
    assert_eq!(built(&code(), &[], 2, 1), 4);
    assert_eq!(built(&[], &[], 2, 1), 4);
    assert_eq!(built(&changed(8, Record::list_in(2)), &STARTS, 2, 1), 5);
    assert_eq!(built(&changed(0, Record::new(18, 0, 4, 1, 7)), &STARTS, 2, 1), 6);
    assert_eq!(built(&changed(1, Record::list_in(1)), &STARTS, 2, 1), 7);
    assert_eq!(built(&changed(4, Record::BODY), &STARTS, 2, 2), 8);
}

/// What the walk says of a changed call, index or out.
fn walked_number(call: &[u8], count: usize, out: usize, change: impl FnOnce(&mut [u8])) -> u64 {
    let (mut index, _) = fresh(&plain(), 64);
    change(&mut index);
    let (before, mut out) = (index.clone(), vec![99; out]);
    let result = numbers::walk(&code(), &STARTS, 2, 0, 0, call, &mut index, count, &mut out);
    if result[0] != 0 {
        assert_eq!(result[1..], [0; 6]);
        assert_eq!(index, before);
        assert!(out.iter().all(|&place| place == 99));
    }
    result[0]
}

#[test]
fn refusals_of_the_walk() {
    let call = Record::bytes(&[UNBOUND, LIST]);
    assert_eq!(walked_number(&call, 12, 3, |_| ()), 0);
    assert_eq!(walked_number(&call[..15], 12, 3, |_| ()), 10);
    assert_eq!(walked_number(&[], 12, 3, |_| ()), 10);
    assert_eq!(walked_number(&Record::bytes(&[UNBOUND, Record::new(0, 5, 1, 0, 0)]), 12, 3, |_| ()), 10);
    assert_eq!(walked_number(&call, 12, 2, |_| ()), 11);
    assert_eq!(walked_number(&call, 12, 0, |_| ()), 11);
    assert_eq!(walked_number(&call, 0, 3, |_| ()), 12);
    assert_eq!(walked_number(&call, 11, 3, |_| ()), 0, "a line may have a later clause less");
    assert_eq!(walked_number(&call, 65, 3, |_| ()), 12);
    assert_eq!(walked_number(&call, usize::MAX, 3, |_| ()), 12);
    assert_eq!(walked_number(&call, 12, 3, |index| index[0] = 3), 12);
}

#[test]
fn refusals_have_words() {
    assert_eq!(
        Refusal::new(4).to_string(),
        "refused 4: no starts, more than 1,024, not strictly rising, or one at or past the code's end"
    );
    let refused = witness(&code(), &STARTS, &Settings::new(33), &[]);
    assert_eq!(refused, Err(Refusal::new(1)));
}

/// The words of the numbers are those of the header's `podrulka_message`, in its order.
#[test]
fn words_of_the_header() {
    let header = include_str!("../../include/podrulka.h");
    let message = header.split("podrulka_message(").nth(1).expect("podrulka_message in the header");
    let mut literals: Vec<String> = vec![];
    let mut parts = message.split('"');
    while let (Some(between), Some(literal)) = (parts.next(), parts.next()) {
        match literals.last_mut() {
            Some(last) if between.trim().is_empty() => last.push_str(literal), // one literal on two lines
            _ => literals.push(literal.to_string()),
        }
    }
    let words: Vec<&str> = (1..=12).map(|number| Refusal::new(number).reason()).collect();
    let first = literals.iter().position(|literal| literal == words[0]).expect("the words of 1");
    assert_eq!(literals[first..].iter().take(12).collect::<Vec<_>>(), words);
}
