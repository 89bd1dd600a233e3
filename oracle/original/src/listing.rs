//! Shows the Rust's index in document 01's records. The Rust numbers an expansion's lines in the order of its hash tables;
//! `Numbering` says for each of them the number that document 01 gives it. The index itself is never touched.
use crate::indexing_iter::{TermIndexingCodePtrDowncast, downcast_term_indexing_code_ptr};
use crate::instructions::*;
use crate::predicate::PREFIX;
use crate::types::{HeapCellValue, HeapCellValueTag};
use std::fmt::Debug;

/// Places of the Rust's lines in document 01's order.
#[derive(Clone)]
pub struct Numbering {
    of: Vec<usize>,
}

#[derive(Clone, Copy, PartialEq, Eq, PartialOrd, Ord)]
enum Group {
    List,
    Structures,
    Literals,
}

#[derive(Clone, Copy)]
enum Pointer {
    External(usize),
    Line(usize), // the Rust's number of the line, absolute
}

struct Entry {
    group: Group,
    sort: u8,
    arity: usize,
    bits: u64,
    pointer: Pointer,
    first_clause: usize, // 0 for an empty line
}

pub fn put_offsets(line: &IndexingLine, out: &mut Vec<usize>) {
    match line {
        IndexingLine::StaticIndexedChoice(tbl) => out.extend(tbl.offsets.iter().map(|o| o.offset())),
        IndexingLine::DynamicIndexedChoice(tbl) => out.extend(tbl.offsets.iter().map(|o| o.offset())),
    }
}

fn first_offset(line: &IndexingLine) -> usize {
    match line {
        IndexingLine::StaticIndexedChoice(tbl) => tbl.offsets.front().map_or(0, |o| o.offset()),
        IndexingLine::DynamicIndexedChoice(tbl) => tbl.offsets.front().map_or(0, |o| o.offset()),
    }
}

fn tagged_offsets(line: &IndexingLine) -> Vec<(u8, usize)> {
    use StaticIndexedChoiceInstructionOffset as S;
    match line {
        IndexingLine::StaticIndexedChoice(tbl) => tbl
            .offsets
            .iter()
            .map(|o| match *o {
                S::Try(o) => (1, o),
                S::Retry(o) => (2, o),
                S::DefaultRetry(o) => (3, o),
                S::Trust(o) => (4, o),
                S::DefaultTrust(o) => (5, o),
            })
            .collect(),
        IndexingLine::DynamicIndexedChoice(tbl) => tbl
            .offsets
            .iter()
            .map(|o| match *o {
                Appended::A(o) => (6, o),
                Appended::Z(o) => (7, o),
            })
            .collect(),
    }
}

fn literal(cell: HeapCellValue) -> (u8, usize, u64) {
    let sort = match cell.get_tag() {
        HeapCellValueTag::Atom => 1,
        HeapCellValueTag::Fixnum => 2,
        HeapCellValueTag::F64Offset => 3,
        tag => panic!("no literal: {tag:?}"),
    };
    (sort, 0, cell.get_value())
}

fn structure((name, arity): (crate::atom_table::Atom, usize)) -> (u8, usize, u64) {
    let cell = HeapCellValue::atom_cell(name, arity);
    (4, cell.get_arity(), cell.get_value())
}

fn pairs<K: Copy + Debug>(term_ptr: &TermIndexingCodePtr<K>) -> Vec<(K, IndexingCodePtr)> {
    match downcast_term_indexing_code_ptr(term_ptr) {
        TermIndexingCodePtrDowncast::Ptr(key, ptr) => vec![(key, ptr)],
        TermIndexingCodePtrDowncast::Fail => vec![],
        TermIndexingCodePtrDowncast::Table(tbl) => tbl.iter().copied().collect(),
    }
}

/// A switch's entries, in no order.
fn entries(index: &[IndexingLine], line: usize, table: &IndexedChoiceInstructionTable) -> Vec<Entry> {
    let IndexedChoiceInstructionTable::SwitchOnTerm { constants, lists, structures, .. } = table else {
        return vec![];
    };

    let make = |group, (sort, arity, bits), ptr: IndexingCodePtr| {
        let o = ptr.offset() as usize;
        let (pointer, first_clause) = match ptr.tag() {
            IndexingCodePtrTag::External => (Pointer::External(o), o),
            IndexingCodePtrTag::Internal => (Pointer::Line(line + o), first_offset(&index[line + o])),
        };
        Entry { group, sort, arity, bits, pointer, first_clause }
    };

    let mut all = vec![];
    for (key, ptr) in pairs(constants) {
        all.push(make(Group::Literals, literal(key), ptr));
    }
    if let Some(ptr) = lists {
        all.push(make(Group::List, (5, 0, 0), *ptr));
    }
    for (key, ptr) in pairs(structures) {
        all.push(make(Group::Structures, structure(key), ptr));
    }
    all
}

impl Numbering {
    /// Of an index whose first `lines` lines have their numbers already.
    pub fn new(lines: usize) -> Self {
        Numbering { of: (0..lines).collect() }
    }

    pub fn of(&self, line: usize) -> usize {
        self.of[line]
    }

    /// After a build or a walk: each switch with lines that have no number yet was made by one expansion (or is the built
    /// one), which appended all its lines together. They keep their block and are put in order list, structures, literals,
    /// each by first clause.
    pub fn number_new_blocks(&mut self, index: &[IndexingLine]) {
        let known = self.of.len();
        if index.len() == known {
            return;
        }
        self.of.resize(index.len(), usize::MAX);

        for (number, line) in index.iter().enumerate() {
            for table in line.tables() {
                let new_lines = entries(index, number, table).into_iter().filter_map(|entry| match entry.pointer {
                    Pointer::Line(target) if target >= known => Some((entry.group, entry.first_clause, target)),
                    _ => None,
                });
                self.number_block(new_lines.collect());
            }
        }

        assert!(!self.of.contains(&usize::MAX), "a line of no switch");
    }

    fn number_block(&mut self, mut block: Vec<(Group, usize, usize)>) {
        let Some(first) = block.iter().map(|&(_, _, target)| target).min() else {
            return;
        };
        let past = block.iter().map(|&(_, _, target)| target + 1).max().unwrap();
        assert_eq!(past - first, block.len(), "a block with gaps");

        block.sort();
        for (place, (_, _, target)) in block.into_iter().enumerate() {
            assert_eq!(self.of[target], usize::MAX, "a line of two switches");
            self.of[target] = first + place;
        }
    }

    /// The index in document 01's records.
    pub fn bytes(&self, index: &[IndexingLine]) -> Vec<u8> {
        let mut at = vec![usize::MAX; index.len()]; // document 01's number to the Rust's
        for (line, &number) in self.of.iter().enumerate() {
            at[number] = line;
        }

        let mut out = vec![];
        for (number, &line) in at.iter().enumerate() {
            let dynamic = matches!(index[line], IndexingLine::DynamicIndexedChoice(_));
            put(&mut out, 1, dynamic as u8, 0, number, 0);
            for table in index[line].tables() {
                self.put_table(&mut out, index, line, number, table);
            }
            for (tag, offset) in tagged_offsets(&index[line]) {
                put(&mut out, 6, tag, 0, offset - PREFIX, 0);
            }
        }
        out
    }

    fn put_table(
        &self,
        out: &mut Vec<u8>,
        index: &[IndexingLine],
        line: usize,
        number: usize,
        table: &IndexedChoiceInstructionTable,
    ) {
        let arg = table.arg_num();
        match table {
            IndexedChoiceInstructionTable::SwitchOnTerm { .. } => {
                put(out, 2, 0, arg, 0, 0);
                let mut entries = entries(index, line, table);
                entries.sort_by_key(|e| (rank(e.group), e.first_clause));
                for e in entries {
                    let word = match e.pointer {
                        Pointer::External(o) => o - PREFIX,
                        Pointer::Line(target) => (1 << 31) | (self.of[target] - number),
                    };
                    put(out, 5, e.sort, e.arity, word, e.bits);
                }
            }
            IndexedChoiceInstructionTable::OnDemandTerm { .. } => put(out, 3, 0, arg, 0, 0),
            IndexedChoiceInstructionTable::DeadIndices { indices, .. } => {
                put(out, 4, 0, arg, 0, 0);
                for offset in indices.iter() {
                    put(out, 7, 0, 0, offset - PREFIX, 0);
                }
            }
        }
    }
}

/// Entries stand in the order literals, list, structures.
fn rank(group: Group) -> u8 {
    match group {
        Group::Literals => 0,
        Group::List => 1,
        Group::Structures => 2,
    }
}

fn put(out: &mut Vec<u8>, kind: u8, sub: u8, half: usize, word: usize, long: u64) {
    out.extend([kind, sub]);
    out.extend(u16::try_from(half).unwrap().to_le_bytes());
    out.extend(u32::try_from(word).unwrap().to_le_bytes());
    out.extend(long.to_le_bytes());
}
