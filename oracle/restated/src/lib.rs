//! Document 01 said once more, in plain Rust over lists: the checks, the builder, the walk and the witness as functions
//! from what a call is handed to what it must give back. Written after the words of the document and of docs/DECISIONS.md;
//! nothing here is fast.
mod checks;
mod expansion;
pub mod index;
#[path = "../../../rust/src/records.rs"]
mod records;
mod walk;

pub use checks::{Key, Read, agreeing, call_keys, check_build, check_code, fault};
pub use records::Record;
pub use walk::{Case, Walked, walk};

use expansion::{Tagged, later_tables, static_tags, switch_over};
use index::{Line, capacity, written};

/// Bytes of a record.
pub const RECORD: usize = 16;

/// What the builder, the walk and the witness are handed of a predicate; c goes to the builder only.
#[derive(Debug, Clone)]
pub struct Program {
    pub code: Vec<u8>,
    pub starts: Vec<u32>,
    pub arity: u32,
    pub mask: u32,
    /// 1 dynamic, 2 extensible, 4 non-counted, 8 skip; other bits are not read.
    pub flags: u32,
    pub c: u64,
}

impl Program {
    pub fn dynamic(&self) -> bool {
        self.flags & 1 != 0
    }

    pub fn extensible(&self) -> bool {
        self.flags & 2 != 0
    }

    pub fn non_counted(&self) -> bool {
        self.flags & 4 != 0
    }

    pub fn skip(&self) -> bool {
        self.flags & 8 != 0
    }

    /// Bit i of the mask set: argument i + 1 is never indexed on demand.
    pub fn masked(&self, argument: usize) -> bool {
        self.mask >> (argument - 1) & 1 == 1
    }
}

/// An accepted build: the variable offset and the index's records.
#[derive(Debug)]
pub struct Built {
    pub variable: u64,
    pub index: Vec<u8>,
}

/// Section 3's records, whatever the room, with refusals 1 to 8.
pub fn whole_index(program: &Program) -> Result<Vec<u8>, u32> {
    let read = check_build(program)?;
    Ok(written(&fresh(program, &read, program.c as usize), program.dynamic()))
}

/// The build that writes these records, with refusal 9.
pub fn build(program: &Program, index: Vec<u8>, index_bytes: usize) -> Result<Built, u32> {
    if index.len() / 16 > capacity(index_bytes) {
        return Err(9);
    }
    Ok(Built { variable: if program.skip() { 2 } else { 1 }, index })
}

/// Section 3's index: line 0 with a switch on c, the on-demand tables and all offsets, then the switch's lines.
fn fresh(program: &Program, read: &Read, c: usize) -> Vec<Line> {
    let all: Vec<Tagged> = if program.dynamic() {
        read.offsets.iter().map(|&offset| (7, offset)).collect()
    } else {
        static_tags(&read.offsets, program.non_counted())
    };
    let (switch, lines) = switch_over(program, read, c, &all, 0, 1);
    let mut tables = vec![switch];
    tables.extend(later_tables(program, read, c, &all));
    let mut index = vec![Line { tables, offsets: all }];
    index.extend(lines);
    index
}

/// The witness's refusals, or the offsets of all clauses that agree with the call.
pub fn witnesses(program: &Program, call: &[u8]) -> Result<Vec<u32>, u32> {
    let read = check_code(program)?;
    let call = call_keys(call, program.arity).ok_or(10u32)?;
    Ok(agreeing(&read, &call))
}
