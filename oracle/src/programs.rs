//! Random programs that document 01 accepts, and calls to them.
use crate::chance::Chance;
use podrulka::Record;
use restated::{Key, Program, Read};

/// How large a random program may be.
#[derive(Clone, Copy)]
pub struct Size {
    pub clauses: usize,
    /// Distinct bits of keys.
    pub bits: usize,
}

impl Size {
    /// Mostly small; one in fifty of some dozens of clauses, one in a thousand of up to 1,024.
    pub fn random(chance: &mut Chance) -> Size {
        match chance.below(1000) {
            0 => Size { clauses: chance.within(100, 1024), bits: chance.pick(&[3, 40, 2000]) },
            1..=20 => Size { clauses: chance.within(9, 60), bits: chance.pick(&[2, 5, 30]) },
            _ => Size { clauses: chance.within(1, 8), bits: chance.pick(&[1, 2, 2, 3, 6]) },
        }
    }
}

/// A program: registers rise, and every clause has a key at c and a body record.
pub fn program(chance: &mut Chance, size: Size) -> Program {
    let few: u32 = chance.pick(&[1, 2, 2, 3, 3, 4, 5, 32]);
    let arity = if chance.percent(95) { few } else { chance.within(1, 32) as u32 };
    let c = if chance.percent(70) { 1 } else { chance.within(1, arity as usize) as u32 };
    let mask = match chance.below(5) {
        0 => chance.number() as u32,
        1 => (chance.number() & chance.number()) as u32,
        _ => 0,
    };
    let on = |chance: &mut Chance, flag: u32, hundredths| if chance.percent(hundredths) { flag } else { 0 };
    let other = if chance.percent(5) { (chance.number() as u32) & !15 } else { 0 };
    let flags = on(chance, 1, 40) | on(chance, 2, 40) | on(chance, 4, 30) | on(chance, 8, 20) | other;

    let arguments = arguments_in_use(chance, arity, c);
    let full = chance.pick(&[50, 80, 95, 100, 100]);
    let (mut records, mut starts) = (vec![], vec![]);
    if chance.percent(20) {
        records.push(any_record(chance));
    }
    for _ in 0..size.clauses {
        starts.push(records.len() as u32);
        clause(chance, &arguments, c, full, size.bits, &mut records);
    }
    Program { code: Record::bytes(&records), starts, arity, mask, flags, c: u64::from(c) }
}

/// The arguments that clauses may have keys at, c among them, rising: eight at most, or now and then all.
fn arguments_in_use(chance: &mut Chance, arity: u32, c: u32) -> Vec<u32> {
    let mut all: Vec<u32> = (1..=arity).filter(|&argument| argument != c).collect();
    if arity > 8 && chance.percent(90) {
        chance.shuffle(&mut all);
        all.truncate(chance.below(8));
    }
    all.push(c);
    all.sort();
    all
}

fn clause(chance: &mut Chance, arguments: &[u32], c: u32, full: usize, bits: usize, records: &mut Vec<Record>) {
    for &register in arguments {
        if register != c && !chance.percent(full) {
            continue;
        }
        while chance.percent(15) {
            records.push(quiet_record(chance));
        }
        records.push(Record { word: register, ..key_record(chance, bits) });
    }
    records.push(body_record(chance));
    while chance.percent(15) {
        records.push(any_record(chance));
    }
}

/// A prologue or argless record.
fn quiet_record(chance: &mut Chance) -> Record {
    let kind = chance.pick(&[0, 1, 2, 3, 4, 5, 6, 7, 8, 9, 32, 33, 34, 35, 36, 37, 38]);
    Record { kind, ..any_record(chance) }
}

/// A body record, keyed ones with a deep level or a permanent register among them.
fn body_record(chance: &mut Chance) -> Record {
    match chance.below(4) {
        0 => Record { kind: chance.pick(&[16, 17, 18, 19]), sub: chance.pick(&[1, 2, 3]), ..any_record(chance) },
        1 => Record { kind: chance.pick(&[10, 15, 20, 31, 39, 64, 128, 240, 255]), ..any_record(chance) },
        _ => Record::BODY,
    }
}

pub fn any_record(chance: &mut Chance) -> Record {
    let (a, long) = (chance.number(), chance.number());
    Record::new(a as u8, (a >> 8) as u8, (a >> 16) as u16 % 300, (a >> 32) as u32 % 40, long)
}

/// Bits of a key: mostly few, so that clauses share them.
fn some_bits(chance: &mut Chance, bits: usize) -> u64 {
    if chance.percent(97) {
        return chance.below(bits) as u64;
    }
    // signed zeros, a NaN, the ends
    let odd = [0, 1 << 63, u64::MAX, 0x7ff8_0000_0000_0000, (1 << 32) + 1, chance.number()];
    chance.pick(&odd)
}

/// A keyed record without its register.
fn key_record(chance: &mut Chance, bits: usize) -> Record {
    let long = some_bits(chance, bits);
    match chance.below(6) {
        0 => Record::new(16, 0, chance.pick(&[1, 1, 2, 3, 255]), 0, long),
        1 => Record::new(17, 0, chance.pick(&[0, 0, 7]), 0, chance.pick(&[0, long])),
        2 if chance.percent(50) => Record::new(19, 0, chance.pick(&[0, 0, 7]), 0, chance.pick(&[0, long])),
        _ => Record::new(18, 0, chance.pick(&[1, 1, 1, 2, 3]), 0, long),
    }
}

/// A call's record for a key.
pub fn argument(key: Option<Key>) -> Record {
    match key {
        None => Record::UNBOUND,
        Some(key) => Record::new(0, key.sort, key.arity, 0, key.bits),
    }
}

/// A call: unbound, the keys of some clause, or others.
pub fn call(chance: &mut Chance, p: &Program, read: &Read, bits: usize) -> Vec<u8> {
    let clause = chance.pick(&read.offsets);
    let unbound = chance.pick(&[10, 30, 60]);
    let mut records = vec![];
    for a in 1..=p.arity as usize {
        let other = if chance.percent(15) { chance.pick(&read.offsets) } else { clause };
        records.push(match read.key(other, a) {
            _ if chance.percent(unbound) => Record::UNBOUND,
            Some(key) if chance.percent(85) => argument(Some(key)),
            _ => other_argument(chance, bits),
        });
    }
    Record::bytes(&records)
}

fn other_argument(chance: &mut Chance, bits: usize) -> Record {
    let long = some_bits(chance, bits + 1);
    match chance.below(6) {
        0 => Record::UNBOUND,
        1 => Record::LIST,
        2 => Record::structure(long, chance.pick(&[1, 2, 255])),
        3 => Record::integer(long),
        4 => Record::float(long),
        _ => Record::atom(long),
    }
}
