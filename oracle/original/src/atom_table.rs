//! Stand-in: an atom is its 64-bit number; the atoms that the original text
//! names itself are apart from all of these.
use crate::types::{HeapCellValue, HeapCellValueTag};

#[derive(Debug, Clone, Copy, PartialEq, Eq, Hash)]
pub enum Atom {
    Named(u64),
    Reserved(&'static str),
}

/// A name with its arity, as it stands at the head of a structure.
#[derive(Debug, Clone, Copy)]
pub struct AtomCell {
    name: Atom,
    arity: usize,
}

impl AtomCell {
    pub fn from_cell(cell: HeapCellValue) -> Self {
        assert_eq!(cell.get_tag(), HeapCellValueTag::Atom);
        AtomCell { name: Atom::Named(cell.get_value()), arity: cell.get_arity() }
    }

    pub fn get_name_and_arity(self) -> (Atom, usize) {
        (self.name, self.arity)
    }
}
