//! Clauses and calls, made from numbers: the same for every side.

pub const CLAUSES: [usize; 4] = [16, 64, 256, 1024];
pub const ARITIES: [usize; 3] = [2, 4, 8];
/// how many keys an argument has where they are few
pub const FEW: u64 = 8;
/// calls of each shape
pub const CALLS: usize = 16;

/// sort 1 atom, 2 integer, 4 structure; 0 is an unbound argument of a call
#[derive(Clone, Copy, PartialEq, Eq, Debug)]
pub struct Key {
    pub sort: u8,
    pub arity: u16,
    pub bits: u64,
}

pub const UNBOUND: Key = Key { sort: 0, arity: 0, bits: 0 };

pub struct Input {
    pub clauses: usize,
    pub arity: usize,
    pub many: bool,
    /// the clauses' keys, clause by clause
    pub keys: Vec<Key>,
    /// calls with every argument bound, to the keys of a clause
    pub bound: Vec<Vec<Key>>,
    /// the same with argument 1 unbound
    pub unbound: Vec<Vec<Key>>,
}

/// splitmix64, so that few keys fall on clauses in no order
fn mixed(x: u64) -> u64 {
    let x = x.wrapping_add(0x9e37_79b9_7f4a_7c15);
    let x = (x ^ x >> 30).wrapping_mul(0xbf58_476d_1ce4_e5b9);
    let x = (x ^ x >> 27).wrapping_mul(0x94d0_49bb_1331_11eb);
    x ^ x >> 31
}

/// Of four keys two are atoms, one is an integer and one a structure.
fn key(number: u64) -> Key {
    let sort = [1, 1, 2, 4][number as usize % 4];
    Key { sort, arity: if sort == 4 { 2 } else { 0 }, bits: 1000 + number }
}

impl Input {
    /// Many keys: no two clauses share one, at any argument. Few: one of eight, mixed.
    pub fn new(clauses: usize, arity: usize, many: bool) -> Self {
        let number = |i: u64, a: u64| if many { (7 * i + 13 * a) % clauses as u64 } else { mixed(32 * i + a) % FEW };
        let pairs = (0..clauses as u64).flat_map(|i| (0..arity as u64).map(move |a| (i, a)));
        let keys: Vec<Key> = pairs.map(|(i, a)| key(number(i, a))).collect();
        let step = clauses / CALLS;
        let bound: Vec<Vec<Key>> =
            (0..CALLS).map(|j| j * step + j % step).map(|i| keys[i * arity..][..arity].to_vec()).collect();
        let mut unbound = bound.clone();
        unbound.iter_mut().for_each(|call| call[0] = UNBOUND);
        Input { clauses, arity, many, keys, bound, unbound }
    }

    pub fn keys_word(&self) -> &'static str {
        if self.many { "many" } else { "few" }
    }

    /// Where clause i starts in the code: each clause is one record for each argument and a body record.
    pub fn start(&self, i: usize) -> usize {
        i * (self.arity + 1)
    }
}
