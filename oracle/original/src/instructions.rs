//! The index's data types are the original text, taken over by build.rs; the
//! instructions themselves (generated in the repository) are a stand-in with
//! the variants that document 01 and the original text name.
use crate::atom_table::*;
use crate::forms::*;
use crate::machine::machine_errors::MachineStub;
use crate::machine::machine_indices::IndexingSpecs;
use crate::parser::ast::*;
use crate::types::*;

use fxhash::FxBuildHasher;
use hashbrown::hash_table::*;
use indexmap::IndexSet;
use modular_bitfield::{Specifier, bitfield};

use std::collections::VecDeque;
use std::fmt::Debug;
use std::rc::Rc;

include!(concat!(env!("OUT_DIR"), "/index_types.rs"));

#[derive(Debug, Clone)]
pub enum Instruction {
    TryMeElse(usize),
    RetryMeElse(usize),
    DefaultRetryMeElse(usize),
    DefaultTrustMe(usize),
    Allocate(usize),
    GetLevel(RegType),
    GetPrevLevel(RegType),
    GetCutPoint(RegType),
    DynamicElse(usize, Death, NextOrFail),
    DynamicInternalElse(usize, Death, NextOrFail),
    IndexingCode {
        arity: usize,
        code: Vec<IndexingLine>,
        specs: IndexingSpecs,
        var_offset: ExternalIndexingCodePtr,
    },
    RevJmpBy(usize),
    NeckCut,
    GetStructure(Level, Atom, usize, RegType),
    GetList(Level, RegType),
    GetConstant(Level, HeapCellValue, RegType),
    GetPartialString(Level, Rc<String>, RegType),
    GetVariable(RegType, usize),
    GetValue(RegType, usize),
    UnifyVariable(RegType),
    UnifyValue(RegType),
    UnifyLocalValue(RegType),
    UnifyVoid(usize),
    UnifyConstant(HeapCellValue),
    Proceed, // any body instruction
}

fn reg_type_into_functor(_: RegType) -> MachineStub {
    MachineStub
}

fn variadic_functor(_: Atom, _: usize, _: impl Iterator<Item = MachineStub>) -> MachineStub {
    MachineStub
}
