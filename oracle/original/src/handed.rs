//! A well-formed index of document 01's records as the data types of the original text.
use crate::atom_table::Atom;
use crate::instructions::*;
use crate::offset_table::F64Table;
use crate::predicate::PREFIX;
use crate::reading::{Record, literal, records};
use crate::types::HeapCellValue;
use fxhash::{FxBuildHasher, FxHasher};
use hashbrown::hash_table::HashTable;
use indexmap::IndexSet;
use std::fmt::Debug;
use std::iter::Peekable;

/// The lines of an index.
pub fn lines_of(index: &[u8]) -> Vec<IndexingLine> {
    let mut left = records(index).peekable();
    let mut lines = vec![];
    while let Some(line) = left.next() {
        assert_eq!(line.kind, 1, "no line");
        let mut tables = vec![];
        while let Some(table) = left.next_if(|r| (2..=4).contains(&r.kind)) {
            tables.push(table_of(table, &mut left));
        }
        let offsets = run(&mut left, 6);
        lines.push(if line.sub == 0 {
            let offsets = offsets.iter().map(static_offset).collect();
            IndexingLine::StaticIndexedChoice(SecondLevelTable { tables: tables.into(), offsets })
        } else {
            let offsets = offsets.iter().map(dynamic_offset).collect();
            IndexingLine::DynamicIndexedChoice(SecondLevelTable { tables: tables.into(), offsets })
        });
    }
    lines
}

/// The next records of a kind.
fn run(left: &mut Peekable<impl Iterator<Item = Record>>, kind: u8) -> Vec<Record> {
    std::iter::from_fn(|| left.next_if(|r| r.kind == kind)).collect()
}

fn table_of(table: Record, left: &mut Peekable<impl Iterator<Item = Record>>) -> IndexedChoiceInstructionTable {
    let arg_num = table.half as usize;
    match table.kind {
        2 => switch_of(arg_num, &run(left, 5)),
        3 => IndexedChoiceInstructionTable::OnDemandTerm { arg_num },
        _ => {
            let mut indices = IndexSet::with_hasher(FxBuildHasher::default());
            indices.extend(run(left, 7).iter().map(|r| r.word as usize + PREFIX));
            IndexedChoiceInstructionTable::DeadIndices { arg_num, indices }
        }
    }
}

/// As `switch_on` of the original text: one entry stands by itself, more are a table.
fn switch_of(arg_num: usize, entries: &[Record]) -> IndexedChoiceInstructionTable {
    let of = |sorts: std::ops::RangeInclusive<u8>| entries.iter().filter(move |r| sorts.contains(&r.sub));
    let constants = of(1..=3).map(|r| (literal(r.sub as u16, r.long), pointer(r))).collect();
    let structures = of(4..=4).map(|r| ((Atom::Named(r.long), r.half as usize), pointer(r))).collect();
    let lists = of(5..=5).map(pointer).next();

    IndexedChoiceInstructionTable::SwitchOnTerm {
        arg_num,
        constants: term_pointer(constants, |&cell| hash(cell)),
        lists,
        structures: term_pointer(structures, |&(name, arity)| hash(HeapCellValue::atom_cell(name, arity))),
    }
}

fn hash(cell: HeapCellValue) -> u64 {
    cell.syntactic_hash(&F64Table, FxHasher::default())
}

fn term_pointer<K: Clone + Debug>(
    mut entries: Vec<(K, IndexingCodePtr)>,
    hash: impl Fn(&K) -> u64,
) -> TermIndexingCodePtr<K> {
    if entries.len() < 2 {
        return entries.pop().map(TermIndexingCodePtr::from).unwrap_or(TermIndexingCodePtr::Fail);
    }
    let mut table = HashTable::new();
    for (key, pointer) in entries {
        table.insert_unique(hash(&key), (key, pointer), |(key, _)| hash(key));
    }
    TermIndexingCodePtr::SwitchOnType(Box::new(table))
}

fn pointer(entry: &Record) -> IndexingCodePtr {
    let distance = (entry.word & 0x7fff_ffff) as usize;
    if entry.word >> 31 == 1 {
        IndexingCodePtr::internal(distance)
    } else {
        IndexingCodePtr::external(distance + PREFIX)
    }
}

fn static_offset(r: &Record) -> StaticIndexedChoiceInstructionOffset {
    use StaticIndexedChoiceInstructionOffset as S;
    let o = r.word as usize + PREFIX;
    match r.sub {
        1 => S::Try(o),
        2 => S::Retry(o),
        3 => S::DefaultRetry(o),
        4 => S::Trust(o),
        5 => S::DefaultTrust(o),
        tag => panic!("static tag {tag}"),
    }
}

fn dynamic_offset(r: &Record) -> Appended {
    let o = r.word as usize + PREFIX;
    match r.sub {
        6 => Appended::A(o),
        7 => Appended::Z(o),
        tag => panic!("dynamic tag {tag}"),
    }
}
