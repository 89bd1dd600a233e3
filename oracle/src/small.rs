//! Small programs made by hand, and what every part runs on them.
use crate::checked::{self, Difference};
use crate::programs::argument;
use crate::random::selects;
use crate::tally::Tally;
use crate::with_rust::{self, Fresh};
use podrulka::Record;
use restated::{Key, Program};

pub const fn atom(bits: u64) -> Option<Key> {
    Some(Key { sort: 1, arity: 0, bits })
}

pub const fn integer(bits: u64) -> Option<Key> {
    Some(Key { sort: 2, arity: 0, bits })
}

pub const fn structure(bits: u64, arity: u16) -> Option<Key> {
    Some(Key { sort: 4, arity, bits })
}

pub const LIST: Option<Key> = Some(Key { sort: 5, arity: 0, bits: 0 });

/// A key's record in a register.
fn keyed(register: usize, key: Key) -> Record {
    match key.sort {
        4 => Record::structure_in(register as u32, key.bits, key.arity),
        5 => Record::list_in(register as u32),
        sort => Record::new(18, 0, sort.into(), register as u32, key.bits),
    }
}

/// A program of clauses given by their keys, a body record after each.
pub fn program<C: AsRef<[Option<Key>]>>(clauses: &[C], arity: u32, flags: u32, c: u64) -> Program {
    let (mut records, mut starts) = (vec![], vec![]);
    for clause in clauses {
        starts.push(records.len() as u32);
        let keys = clause.as_ref().iter().enumerate();
        records.extend(keys.filter_map(|(i, key)| key.map(|key| keyed(i + 1, key))));
        records.push(Record::BODY);
    }
    Program { code: Record::bytes(&records), starts, arity, mask: 0, flags, c }
}

pub fn call(keys: &[Option<Key>]) -> Vec<u8> {
    Record::bytes(&keys.iter().map(|&key| argument(key)).collect::<Vec<_>>())
}

/// The worked show's clauses.
pub fn show(flags: u32) -> Program {
    program(&[[atom(7), atom(1)], [atom(8), LIST], [atom(7), atom(2)]], 2, flags, 1)
}

/// The index built here and by the Rust; the program must be accepted.
pub fn built(p: &Program, bytes: usize, tally: &mut Tally) -> Result<Fresh, Difference> {
    with_rust::build(p, bytes, tally)?.map_err(|number| format!("refused with {number}"))
}

/// A walk beside the Rust's, with the witness and what demand 3 says of the answer.
pub fn walked(p: &Program, fresh: &mut Fresh, call: &[u8], tally: &mut Tally) -> Result<(), Difference> {
    let walked = with_rust::walk(p, fresh, call, 0, tally)?;
    let agreeing = checked::witness(p, call, tally)?.map_err(|number| format!("witness refused with {number}"))?;
    selects(&walked.offsets, &agreeing)
}
