//! Stand-in: the machine's registers, with a count of how often they are read.
use crate::offset_table::F64Table;
use crate::types::HeapCellValue;
use std::cell::Cell;
use std::ops::Index;

#[rustfmt::skip]
#[path = "../../../../../shared/docs/src/indexing_scan.rs"]
pub mod indexing_scan;

pub mod machine_errors {
    #[derive(Debug, Clone)]
    pub struct MachineStub;
}

pub mod machine_indices {
    use crate::forms::IndexingSpec;

    /// Document 01's mask: bit i set, argument i + 1 isn't indexed on demand.
    #[derive(Debug, Clone)]
    pub struct IndexingSpecs {
        pub arity: usize,
        pub mask: u32,
    }

    impl IndexingSpecs {
        pub fn get(&self, arg_index: usize) -> IndexingSpec {
            assert!(arg_index < self.arity, "a mask bit from the arity up");
            if self.mask >> arg_index & 1 == 1 {
                IndexingSpec::NoIndexing
            } else {
                IndexingSpec::OnDemand
            }
        }
    }
}

#[derive(Debug)]
pub struct Registers {
    pub cells: Vec<HeapCellValue>,
    pub reads: Cell<usize>,
}

impl Index<usize> for Registers {
    type Output = HeapCellValue;

    fn index(&self, reg: usize) -> &HeapCellValue {
        self.reads.set(self.reads.get() + 1);
        &self.cells[reg]
    }
}

#[derive(Debug)]
pub struct Arena {
    pub f64_tbl: F64Table,
}

#[derive(Debug)]
pub struct MachineState {
    pub registers: Registers,
    pub heap: Vec<HeapCellValue>,
    pub arena: Arena,
}

impl MachineState {
    pub fn deref(&self, cell: HeapCellValue) -> HeapCellValue {
        cell
    }

    pub fn store(&self, cell: HeapCellValue) -> HeapCellValue {
        cell
    }
}
