//! What refuses the code, and where: each number with its place; and the size of an index before it is built.
use podrulka::{build, locate, numbers, size, walk, witness, Built, Place, Record, Refusal, Settings, Walked};
use podrulka::{MAX_INDEX, RECORD};

const BODY: Record = Record::BODY;
const PROLOGUE: Record = Record::new(3, 0, 0, 0, 0);

/// Four clauses, the second with a prologue; only the first two have keys at argument 2.
const STARTS: [u32; 4] = [1, 4, 8, 10];
fn clauses() -> Vec<Record> {
    let atom = Record::atom_in;
    let unread = [BODY];
    let first = [atom(1, 7), atom(2, 1), BODY];
    let second = [PROLOGUE, atom(1, 8), Record::list_in(2), BODY];
    let third = [atom(1, 7), BODY];
    let fourth = [Record::structure_in(1, 9, 3), PROLOGUE, BODY, BODY];
    [&unread[..], &first, &second, &third, &fourth].concat()
}

/// The clauses with some records changed.
fn changed(changes: &[(usize, Record)]) -> Vec<u8> {
    let mut records = clauses();
    for &(at, record) in changes {
        records[at] = record;
    }
    Record::bytes(&records)
}

fn at(number: u32, clause: usize, record: usize) -> Refusal {
    Refusal { number, place: Some(Place { clause, record }) }
}

/// What locate, build and size say with c, and locate, walk and witness without.
fn refused(code: &[u8], starts: &[u32], arity: u32, c: u64) -> (Option<Refusal>, Option<Refusal>) {
    let settings = Settings::new(arity);
    let (mut index, mut out) = (vec![0xA5; RECORD * 64], [0; 8]);
    let with_c = locate(code, starts, &settings, Some(c));
    assert_eq!(size(code, starts, &settings, c).err(), with_c);
    assert_eq!(build(code, starts, &settings, c, &mut index).err(), with_c);
    let without_c = locate(code, starts, &settings, None);
    let call = Record::bytes(&vec![Record::UNBOUND; arity.min(40) as usize]);
    assert_eq!(witness(code, starts, &settings, &call).err(), without_c);
    let walked = walk(code, starts, &settings, &call, &mut index, 0, &mut out).err();
    assert_eq!(walked, Some(without_c.unwrap_or(Refusal::new(12))), "the index has no records");
    (with_c, without_c)
}

/// Numbers 5 to 7 of changed clauses, the same with c and without.
fn fault(changes: &[(usize, Record)]) -> Refusal {
    let (with_c, without_c) = refused(&changed(changes), &STARTS, 2, 1);
    assert_eq!(with_c, without_c);
    with_c.expect("a refusal")
}

#[test]
fn nothing_refuses() {
    assert_eq!(refused(&changed(&[]), &STARTS, 2, 1), (None, None));
}

#[test]
fn a_clause_without_a_body_record_ends_at_its_last() {
    assert_eq!(fault(&[(3, PROLOGUE)]), at(5, 0, 3));
    assert_eq!(fault(&[(7, Record::list_in(2))]), at(5, 1, 7));
    assert_eq!(fault(&[(12, PROLOGUE), (13, PROLOGUE)]), at(5, 3, 13));
    assert_eq!(fault(&[(9, PROLOGUE), (7, PROLOGUE)]), at(5, 1, 7), "the first such clause");
}

#[test]
fn a_wrong_field_is_where_it_stands() {
    let (sort, bits, arity) = (Record::new(18, 0, 4, 1, 7), Record::new(17, 4, 0, 2, 0), Record::new(16, 0, 256, 1, 9));
    assert_eq!(fault(&[(1, sort)]), at(6, 0, 1));
    assert_eq!(fault(&[(6, bits)]), at(6, 1, 6));
    assert_eq!(fault(&[(10, arity)]), at(6, 3, 10));
    assert_eq!(fault(&[(10, arity), (6, bits), (5, sort)]), at(6, 1, 5), "the first such record");
    assert_eq!(fault(&[(7, Record::new(19, 5, 0, 0, 0))]), at(6, 1, 7), "also the clause's body record");
    assert_eq!(refused(&changed(&[(13, bits)]), &STARTS, 2, 1), (None, None), "nothing is read behind a body record");
    assert_eq!(refused(&changed(&[(0, bits)]), &STARTS, 2, 1), (None, None), "nor before the first clause");
}

#[test]
fn a_wrong_register_is_where_it_stands() {
    let in_register = |register| Record::atom_in(register, 1);
    assert_eq!(fault(&[(1, in_register(0))]), at(7, 0, 1));
    assert_eq!(fault(&[(2, in_register(1))]), at(7, 0, 2), "as the key before");
    assert_eq!(fault(&[(5, in_register(2)), (6, in_register(1))]), at(7, 1, 6), "below the key before");
    assert_eq!(fault(&[(10, in_register(3))]), at(7, 3, 10), "above the arity");
    assert_eq!(fault(&[(11, in_register(1)), (6, in_register(u32::MAX))]), at(7, 1, 6), "the first such record");
}

#[test]
fn the_first_clause_at_fault_is_named_and_its_5_comes_first() {
    let (register, field) = (Record::atom_in(0, 1), Record::new(18, 0, 0, 1, 7));
    assert_eq!(fault(&[(1, register), (5, field), (9, PROLOGUE)]), at(7, 0, 1));
    assert_eq!(fault(&[(5, field), (6, register), (9, PROLOGUE)]), at(6, 1, 5));
    assert_eq!(fault(&[(5, register), (6, field)]), at(7, 1, 5));
    assert_eq!(fault(&[(5, field), (7, PROLOGUE)]), at(5, 1, 7));
    assert_eq!(fault(&[(5, Record::new(18, 0, 0, 0, 7))]), at(6, 1, 5), "within a record 6 before 7");
}

#[test]
fn an_open_clause_is_named_with_its_body_record() {
    let code = changed(&[]);
    assert_eq!(refused(&code, &STARTS, 2, 2), (Some(at(8, 2, 9)), None));
    assert_eq!(refused(&code, &STARTS[3..], 2, 2), (Some(at(8, 0, 12)), None));
    assert_eq!(refused(&code, &STARTS[..2], 2, 2), (None, None));
    let later = changed(&[(10, Record::structure_in(3, 9, 3))]);
    let expected = at(7, 3, 10);
    assert_eq!(refused(&later, &STARTS, 2, 2), (Some(expected), Some(expected)), "every clause's 7 comes before an 8");
}

#[test]
fn the_other_numbers_have_no_place() {
    let code = changed(&[(1, PROLOGUE), (2, PROLOGUE), (3, PROLOGUE)]); // the first clause has no body record
    let both = |number| (Some(Refusal::new(number)), Some(Refusal::new(number)));
    assert_eq!(refused(&code, &STARTS, 0, 1), both(1));
    assert_eq!(refused(&code, &STARTS, 33, 0), both(1));
    assert_eq!(refused(&code[1..], &STARTS, 2, 1), both(3));
    assert_eq!(refused(&code, &[], 2, 1), both(4));
    assert_eq!(refused(&code, &[4, 4], 2, 1), both(4));
    for c in [0, 3, u64::MAX, 1 << 32 | 1] {
        assert_eq!(refused(&code, &STARTS, 2, c), (Some(Refusal::new(2)), Some(at(5, 0, 3))));
    }
}

/// Numbers alone have no place until it is asked for; a number that the code does not have keeps none.
#[test]
fn a_place_for_numbers() {
    let (code, settings) = (changed(&[]), Settings::new(2));
    let result = numbers::build(&code, &STARTS, 2, 0, 0, 2, &mut []);
    let refusal = Built::from_numbers(result).unwrap_err();
    assert_eq!(refusal, Refusal::new(8));
    assert_eq!(refusal.located(&code, &STARTS, &settings, Some(2)), at(8, 2, 9));
    assert_eq!(refusal.located(&code, &STARTS, &settings, None), refusal);
    let wrong = changed(&[(2, Record::atom_in(1, 1))]);
    let refusal = Walked::from_numbers(numbers::walk(&wrong, &STARTS, 2, 0, 0, &[], &mut [], 0, &mut [])).unwrap_err();
    assert_eq!((refusal, refusal.located(&wrong, &STARTS, &settings, None)), (Refusal::new(7), at(7, 0, 2)));
    for number in [4, 9, 12] {
        assert_eq!(Refusal::new(number).located(&wrong, &STARTS, &settings, None), Refusal::new(number));
    }
}

#[test]
fn places_have_words() {
    let said = fault(&[(6, Record::list_in(1))]).to_string();
    let reason = "a register that is 0, above the arity, or not above that of an earlier key of the clause";
    assert_eq!(said, format!("refused 7: {reason} (clause 1, record 6)"));
}

/// The size is the built index's count, in every room; a buffer of one record less is refused with 9.
#[test]
fn a_size_is_the_count_of_the_build() {
    let code = changed(&[]);
    for flags in 0..8 {
        let [dynamic, extensible, masked] = [1, 2, 4].map(|bit| flags & bit != 0);
        let settings = Settings { dynamic, extensible, mask: if masked { 2 } else { 0 }, ..Settings::new(2) };
        let records = size(&code, &STARTS, &settings, 1).unwrap();
        let mut index = vec![0; RECORD * records];
        let one_less = RECORD * (records - 1);
        assert_eq!(build(&code, &STARTS, &settings, 1, &mut index[..one_less]), Err(Refusal::new(9)));
        assert_eq!(build(&code, &STARTS, &settings, 1, &mut index).map(|built| built.count), Ok(records));
    }
    let dynamic_extensible = Settings { dynamic: true, extensible: true, ..Settings::new(2) };
    assert_eq!(size(&code, &STARTS, &Settings::new(2), 1), Ok(12));
    assert_eq!(size(&code, &STARTS, &dynamic_extensible, 1), Ok(27));
}

/// An index that no buffer holds: its size is said all the same.
#[test]
fn a_size_above_the_limit() {
    let clauses: Vec<Record> = (0..1024).flat_map(|i| [Record::atom_in(1, i), BODY]).collect();
    let (code, starts) = (Record::bytes(&clauses), (0..1024).map(|i| 2 * i).collect::<Vec<u32>>());
    let settings = Settings { dynamic: true, extensible: true, ..Settings::new(32) };
    // line 0: itself, its switch with 1,024 entries and the list's, 31 dead tables of 1,024 clauses, the clauses; then
    // 1,024 lines of one clause with 31 dead tables of one clause, and the list's line with 31 tables on demand
    let expected = 1 + (1 + 1025) + 31 * 1025 + 1024 + 1024 * (1 + 31 * 2 + 1) + (1 + 31);
    assert!(expected > MAX_INDEX);
    assert_eq!(size(&code, &starts, &settings, 1), Ok(expected));
    let mut index = vec![0; RECORD * expected];
    assert_eq!(build(&code, &starts, &settings, 1, &mut index), Err(Refusal::new(9)));
}
