//! A predicate with its index: hands code and calls to the original text and takes its answers apart.
use crate::forms::OptArgIndexKey;
use crate::handed::lines_of;
use crate::indexing::{CodeOffsets, Indexer};
use crate::indexing_iter::{IndexedClauseView, collect_opt_arg_index_keys};
use crate::instructions::*;
use crate::listing::{Numbering, put_offsets};
use crate::machine::MachineState;
use crate::machine::indexing_scan::SwitchOnTermResult;
use crate::machine::machine_indices::IndexingSpecs;
use crate::offset_table::F64Table;
use crate::reading::{instruction, machine, records};

/// Two choice instructions stand before the code, so that the Rust's `is_non_counted_bt` finds in them what the setting
/// says. All offsets of the Rust are greater by this number.
pub const PREFIX: usize = 2;

#[derive(Debug, Clone, Copy)]
pub struct Settings {
    pub arity: usize,
    pub mask: u32,
    pub dynamic: bool,
    pub extensible: bool,
    pub non_counted: bool,
    pub skip: bool,
}

#[derive(Debug, Clone, Copy, PartialEq, Eq)]
pub enum Case {
    Fail,
    External,
    Sequence,
    Variadic,
}

/// A walk's answer; `line` is 0 unless the case is Sequence.
#[derive(Debug, Clone, PartialEq, Eq)]
pub struct Answer {
    pub case: Case,
    pub line: usize,
    pub offsets: Vec<u32>,
    pub tables: usize,
}

#[derive(Clone)]
pub struct Predicate {
    code: Vec<Instruction>, // the index first, then the prefix, then the code
    numbering: Numbering,
    settings: Settings,
}

impl Predicate {
    /// Section 3: the fresh index, and the variable offset.
    pub fn build(code: &[u8], starts: &[u32], settings: &Settings, c: usize) -> (Predicate, usize) {
        let mut predicate = Predicate::new(with_prefix(code, settings), vec![], settings, Numbering::new(1));
        let (var_offset, lines) = predicate.fresh(starts, c);
        predicate.set_lines(lines);
        predicate.number_new_lines();
        (predicate, var_offset.offset())
    }

    /// Building alone: the variable offset, and the lines of the fresh index.
    pub fn fresh(&self, starts: &[u32], c: usize) -> (ExternalIndexingCodePtr, Vec<IndexingLine>) {
        if self.settings.dynamic {
            build::<DynamicIndexedChoiceInstruction>(&self.settings, starts, &self.code[1..], c)
        } else {
            build::<StaticIndexedChoiceInstruction>(&self.settings, starts, &self.code[1..], c)
        }
    }

    /// Puts lines in place of the index's. They keep the numbers of the lines before, so what follows is `select` alone.
    pub fn set_lines(&mut self, lines: Vec<IndexingLine>) {
        *index_mut(&mut self.code) = lines;
    }

    /// A well-formed index that was handed in.
    pub fn handed_in(code: &[u8], settings: &Settings, index: &[u8]) -> Predicate {
        let lines = lines_of(index);
        let numbering = Numbering::new(lines.len());
        Predicate::new(with_prefix(code, settings), lines, settings, numbering)
    }

    fn new(
        mut code: Vec<Instruction>,
        lines: Vec<IndexingLine>,
        settings: &Settings,
        numbering: Numbering,
    ) -> Predicate {
        let var_offset = ExternalIndexingCodePtr::Static(0); // the walk does not read it
        let specs = specs(settings);
        code.insert(0, Instruction::IndexingCode { arity: settings.arity, code: lines, specs, var_offset });
        Predicate { code, numbering, settings: *settings }
    }

    /// Section 5: walks for a call, expanding on demand.
    pub fn walk(&mut self, call: &[u8]) -> Answer {
        let (machine, mut selected) = (machine(call), vec![]);
        let end = self.select(&machine, &mut selected);
        let tables = count_tables(&machine, &self.code, self.settings.arity, end);
        self.number_new_lines();

        let (case, line) = match end {
            End::Fail => (Case::Fail, 0),
            End::External(_) => (Case::External, 0),
            End::Sequence(l) => (Case::Sequence, self.numbering.of(l)),
            End::Variadic => (Case::Variadic, 0),
        };
        let offsets = selected.into_iter().map(|o| (o - PREFIX) as u32).collect();
        Answer { case, line, offsets, tables }
    }

    /// Walking alone: its end, and the offsets of the selected clauses, greater by `PREFIX`.
    pub fn select(&mut self, machine: &MachineState, selected: &mut Vec<usize>) -> End {
        let end = walk(machine, &mut self.code, self.settings.extensible);
        selected.clear();
        match end {
            End::Fail => (),
            End::External(o) => selected.push(o),
            End::Sequence(l) => put_offsets(&index(&self.code)[l], selected),
            End::Variadic => put_offsets(&index(&self.code)[0], selected),
        }
        end
    }

    /// The index in document 01's records and order.
    pub fn index(&self) -> Vec<u8> {
        self.numbering.bytes(index(&self.code))
    }

    fn number_new_lines(&mut self) {
        self.numbering.number_new_blocks(index(&self.code));
    }
}

fn specs(settings: &Settings) -> IndexingSpecs {
    IndexingSpecs { arity: settings.arity, mask: settings.mask }
}

fn with_prefix(code: &[u8], settings: &Settings) -> Vec<Instruction> {
    let retry = if settings.non_counted { Instruction::DefaultRetryMeElse(0) } else { Instruction::RetryMeElse(0) };
    let mut all = vec![Instruction::TryMeElse(1), retry];
    all.extend(records(code).map(instruction));
    all
}

/// What the repository's compiler does for each clause of a predicate before `compute_indices`: hand in its keys, and its
/// key at the chosen argument.
fn build<I: Indexer>(
    settings: &Settings,
    starts: &[u32],
    code: &[Instruction], // with its prefix
    c: usize,
) -> (ExternalIndexingCodePtr, Vec<IndexingLine>) {
    let f64_tbl = F64Table;
    let mut code_offsets = CodeOffsets::<I>::new(&f64_tbl, settings.non_counted, settings.arity);

    for &start in starts {
        let index = start as usize + PREFIX;
        let keys = collect_opt_arg_index_keys(&code[index..]);
        let key = |i: usize| keys.get(i).copied().unwrap_or(OptArgIndexKey::None);

        for i in 0..settings.arity {
            code_offsets.map_clause_offset_to_arg_key(i, key(i), index);
        }
        code_offsets.index_key(key(c - 1), |is_initial_index, non_counted_bt| {
            I::compute_index(is_initial_index, index, non_counted_bt)
        });
    }

    code_offsets.compute_indices(settings.extensible, c - 1, &specs(settings), settings.skip)
}

/// How a walk ends in the Rust: at an offset, or with the offsets of a line.
#[derive(Debug, Clone, Copy, PartialEq)]
pub enum End {
    Fail,
    External(usize),
    Sequence(usize),
    Variadic,
}

fn walk(machine: &MachineState, code: &mut [Instruction], extensible: bool) -> End {
    let view = IndexedClauseView::try_from_code(code).unwrap();

    match machine.switch_on_term(view, extensible) {
        SwitchOnTermResult::Fail => End::Fail,
        SwitchOnTermResult::External(o) => End::External(o),
        SwitchOnTermResult::Internal(l) => End::Sequence(l),
        SwitchOnTermResult::DynamicInternal(l) => End::Sequence(l),
        SwitchOnTermResult::Variadic => End::Variadic,
    }
}

/// Walks once more, over a copy of the index that the walk left. Nothing is expanded now, so each switch and each
/// on-demand table looked at reads one register, once. A dead table reads none; in the copy it is an on-demand table of
/// argument arity + 1, which is unbound: passed in the same way, but with one read. The reads are the tables.
fn count_tables(machine: &MachineState, code: &[Instruction], arity: usize, first: End) -> usize {
    let mut copy = vec![code[0].clone()];
    let lines = index_mut(&mut copy);
    let before = lines.len();

    for line in lines.iter_mut() {
        for table in line.tables_mut() {
            if let IndexedChoiceInstructionTable::DeadIndices { .. } = table {
                *table = IndexedChoiceInstructionTable::OnDemandTerm { arg_num: arity + 1 };
            }
        }
    }

    machine.registers.reads.set(0);
    let again = walk(machine, &mut copy, false);

    assert_eq!(again, first, "the second walk ended elsewhere");
    assert_eq!(index_mut(&mut copy).len(), before, "the second walk expanded");
    machine.registers.reads.get()
}

fn index(code: &[Instruction]) -> &Vec<IndexingLine> {
    match &code[0] {
        Instruction::IndexingCode { code, .. } => code,
        _ => unreachable!(),
    }
}

fn index_mut(code: &mut [Instruction]) -> &mut Vec<IndexingLine> {
    match &mut code[0] {
        Instruction::IndexingCode { code, .. } => code,
        _ => unreachable!(),
    }
}
