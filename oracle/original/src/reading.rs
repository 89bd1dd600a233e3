//! Records of code and calls as the instructions and cells of the original text.
use crate::atom_table::Atom;
use crate::forms::Level;
use crate::instructions::*;
use crate::machine::machine_indices::IndexingSpecs;
use crate::machine::{Arena, MachineState, Registers};
use crate::offset_table::F64Table;
use crate::parser::ast::RegType;
use crate::types::{HeapCellValue, HeapCellValueTag};
use std::cell::Cell;
use std::rc::Rc;

/// Document 01's record.
#[derive(Clone, Copy)]
pub struct Record {
    pub kind: u8,
    pub sub: u8,
    pub half: u16,
    pub word: u32,
    pub long: u64,
}

/// The records of bytes.
pub fn records(bytes: &[u8]) -> impl Iterator<Item = Record> + '_ {
    assert_eq!(bytes.len() % 16, 0, "part of a record");
    bytes.chunks(16).map(|b| Record {
        kind: b[0],
        sub: b[1],
        half: u16::from_le_bytes([b[2], b[3]]),
        word: u32::from_le_bytes(b[4..8].try_into().unwrap()),
        long: u64::from_le_bytes(b[8..16].try_into().unwrap()),
    })
}

pub fn literal(sort: u16, bits: u64) -> HeapCellValue {
    match sort {
        1 => HeapCellValue::atom_cell(Atom::Named(bits), 0),
        2 => HeapCellValue::new(HeapCellValueTag::Fixnum, bits),
        3 => HeapCellValue::new(HeapCellValueTag::F64Offset, bits),
        _ => panic!("literal of sort {sort}"),
    }
}

/// Document 01, sections 1 and 2. Operands that the index does not read are 0.
pub fn instruction(r: Record) -> Instruction {
    let temp = RegType::Temp(0);
    match r.kind {
        0 => Instruction::TryMeElse(0),
        1 => Instruction::Allocate(0),
        2 => Instruction::GetLevel(temp),
        3 => Instruction::GetPrevLevel(temp),
        4 => Instruction::GetCutPoint(temp),
        5 => Instruction::DynamicElse(0, Death::Infinity, NextOrFail::Fail(0)),
        6 => Instruction::DynamicInternalElse(0, Death::Infinity, NextOrFail::Fail(0)),
        7 => Instruction::IndexingCode {
            arity: 0,
            code: vec![],
            specs: IndexingSpecs { arity: 0, mask: 0 },
            var_offset: ExternalIndexingCodePtr::Static(0),
        },
        8 => Instruction::RevJmpBy(0),
        9 => Instruction::NeckCut,
        16..=19 => keyed(r),
        32 => Instruction::GetVariable(temp, 0),
        33 => Instruction::GetValue(temp, 0),
        34 => Instruction::UnifyVariable(temp),
        35 => Instruction::UnifyValue(temp),
        36 => Instruction::UnifyLocalValue(temp),
        37 => Instruction::UnifyVoid(0),
        38 => Instruction::UnifyConstant(literal(1, 0)),
        _ => Instruction::Proceed,
    }
}

fn keyed(r: Record) -> Instruction {
    let level = if r.sub & 1 == 0 { Level::Shallow } else { Level::Deep };
    let reg = if r.sub & 2 == 0 { RegType::Temp(r.word as usize) } else { RegType::Perm(r.word as usize) };

    match r.kind {
        16 => Instruction::GetStructure(level, Atom::Named(r.long), r.half as usize, reg),
        17 => Instruction::GetList(level, reg),
        // a body record's literal is not looked at, and its sort may be any
        18 if r.sub & 3 != 0 => Instruction::GetConstant(level, literal(1, 0), reg),
        // past the first body record any sort may stand; it is never read
        18 if !(1..=3).contains(&r.half) => Instruction::Proceed,
        18 => Instruction::GetConstant(level, literal(r.half, r.long), reg),
        _ => Instruction::GetPartialString(level, Rc::new(String::new()), reg),
    }
}

/// A machine whose registers hold a call's arguments.
pub fn machine(call: &[u8]) -> MachineState {
    let var = HeapCellValue::new(HeapCellValueTag::Var, 0);
    let mut cells = vec![var]; // registers count from 1
    let mut heap = vec![];

    for r in records(call) {
        cells.push(match r.sub {
            0 => var,
            1..=3 => literal(r.sub as u16, r.long),
            4 => {
                heap.push(HeapCellValue::atom_cell(Atom::Named(r.long), r.half as usize));
                HeapCellValue::new(HeapCellValueTag::Str, heap.len() as u64 - 1)
            }
            5 => HeapCellValue::new(HeapCellValueTag::Lis, 0),
            sort => panic!("call of sort {sort}"),
        });
    }
    cells.push(var); // the register of a dead table's copy, see `count_tables`

    let registers = Registers { cells, reads: Cell::new(0) };
    MachineState { registers, heap, arena: Arena { f64_tbl: F64Table } }
}
