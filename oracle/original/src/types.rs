//! Stand-in: a cell is a tag and 64 bits, with the arity beside them if it is
//! the head of a structure.
use crate::atom_table::Atom;
use crate::offset_table::F64Table;
use std::hash::Hasher;

#[derive(Debug, Clone, Copy, PartialEq, Eq)]
#[repr(u8)]
pub enum HeapCellValueTag {
    Str,
    Lis,
    AttrVar,
    StackVar,
    Var,
    PStrLoc,
    Atom,
    Fixnum,
    F64Offset,
    Cons,
}

#[derive(Debug, Clone, Copy)]
pub struct HeapCellValue {
    tag: HeapCellValueTag,
    arity: usize,
    bits: u64,
}

impl HeapCellValue {
    pub fn new(tag: HeapCellValueTag, bits: u64) -> Self {
        HeapCellValue { tag, arity: 0, bits }
    }

    pub fn atom_cell(name: Atom, arity: usize) -> Self {
        let Atom::Named(bits) = name else {
            panic!("{name:?} has no number");
        };
        HeapCellValue { tag: HeapCellValueTag::Atom, arity, bits }
    }

    pub fn get_tag(self) -> HeapCellValueTag {
        self.tag
    }

    pub fn get_value(self) -> u64 {
        self.bits
    }

    pub fn get_arity(self) -> usize {
        self.arity
    }

    pub fn is_var(self) -> bool {
        matches!(self.tag, HeapCellValueTag::AttrVar | HeapCellValueTag::StackVar | HeapCellValueTag::Var)
    }

    /// Document 01, section 2: equal sort, arity and bits; floats by bits too.
    pub fn syntactic_eq(self, _: &F64Table, other: HeapCellValue) -> bool {
        (self.tag, self.arity, self.bits) == (other.tag, other.arity, other.bits)
    }

    pub fn syntactic_hash(self, _: &F64Table, mut hasher: impl Hasher) -> u64 {
        hasher.write_u64(self.tag as u64);
        hasher.write_u64(self.arity as u64);
        hasher.write_u64(self.bits);
        hasher.finish()
    }
}
