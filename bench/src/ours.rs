//! Our side: the archive's functions, through the Rust wrapper.
use crate::inputs::{Input, Key};
use podrulka::{Case, MAX_INDEX, RECORD, Record, Settings};

pub struct Ours {
    pub code: Vec<u8>,
    pub starts: Vec<u32>,
    settings: Settings,
    index: Vec<u8>,
    pub count: usize,
    pub out: Vec<u32>,
    fresh: Vec<u8>,
}

fn code_record(key: Key, register: u32) -> Record {
    match key.sort {
        1 => Record::atom_in(register, key.bits),
        2 => Record::integer_in(register, key.bits),
        _ => Record::structure_in(register, key.bits, key.arity),
    }
}

pub fn call_records(call: &[Key]) -> Vec<u8> {
    let records: Vec<Record> = call.iter().map(|k| Record::new(0, k.sort, k.arity, 0, k.bits)).collect();
    Record::bytes(&records)
}

impl Ours {
    pub fn new(input: &Input) -> Self {
        let mut code = vec![];
        for keys in input.keys.chunks(input.arity) {
            code.extend(keys.iter().zip(1..).map(|(&k, register)| code_record(k, register)));
            code.push(Record::BODY);
        }
        let mut ours = Ours {
            code: Record::bytes(&code),
            starts: (0..input.clauses).map(|i| input.start(i) as u32).collect(),
            settings: Settings::new(input.arity as u32),
            index: vec![0; MAX_INDEX * RECORD],
            count: 0,
            out: vec![0; input.clauses],
            fresh: vec![],
        };
        ours.build();
        ours.fresh = ours.index[..ours.count * RECORD].to_vec();
        ours
    }

    #[inline(never)]
    pub fn build(&mut self) {
        let built = podrulka::build(&self.code, &self.starts, &self.settings, 1, &mut self.index);
        self.count = built.expect("build").count;
    }

    /// Back to the index as it was built.
    pub fn renew(&mut self) {
        self.index[..self.fresh.len()].copy_from_slice(&self.fresh);
        self.count = self.fresh.len() / RECORD;
    }

    /// The case, and the number of the offsets in out.
    #[inline(never)]
    pub fn walk(&mut self, call: &[u8]) -> (Case, usize) {
        let Ours { code, starts, settings, index, out, .. } = self;
        let walked = podrulka::walk(code, starts, settings, call, index, self.count, out).expect("walk");
        assert!(walked.stored, "no room");
        self.count = walked.records;
        (walked.case, walked.count)
    }

    /// How many pairs of keys the switches of the index have: entries (kind 5) in a row, k of them, have k (k - 1) / 2.
    pub fn pairs(&self) -> usize {
        let kinds: Vec<u8> = Record::all(&self.index[..self.count * RECORD]).iter().map(|r| r.kind).collect();
        kinds.chunk_by(|a, b| a == b).filter(|run| run[0] == 5).map(|run| run.len() * (run.len() - 1) / 2).sum()
    }
}
