//! The original Rust's side: building and walking alone, by the oracle's driver.
use original::{End, ExternalIndexingCodePtr, IndexingLine, MachineState, Predicate, Settings};
use podrulka::Case;

pub type Built = (ExternalIndexingCodePtr, Vec<IndexingLine>);

pub struct Original {
    predicate: Predicate,
    starts: Vec<u32>,
    fresh: Vec<IndexingLine>,
    /// offsets of the selected clauses, greater by the driver's `PREFIX`
    pub out: Vec<usize>,
}

impl Original {
    pub fn new(code: &[u8], starts: &[u32], arity: usize) -> Self {
        let settings = Settings { arity, mask: 0, dynamic: false, extensible: false, non_counted: false, skip: false };
        let (predicate, _) = Predicate::build(code, starts, &settings, 1);
        let (_, fresh) = predicate.fresh(starts, 1);
        Original { predicate, starts: starts.to_vec(), fresh, out: vec![] }
    }

    #[inline(never)]
    pub fn build(&self) -> Built {
        self.predicate.fresh(&self.starts, 1)
    }

    /// Back to the index as it was built.
    pub fn renew(&mut self) {
        self.predicate.set_lines(self.fresh.clone());
    }

    /// The case; the offsets of the selected clauses go to out, as ours do.
    #[inline(never)]
    pub fn walk(&mut self, machine: &MachineState) -> Case {
        match self.predicate.select(machine, &mut self.out) {
            End::Fail => Case::Fail,
            End::External(_) => Case::External,
            End::Sequence(_) => Case::Sequence,
            End::Variadic => Case::Variadic,
        }
    }
}
