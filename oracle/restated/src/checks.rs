//! Sections 1 and 2, the numbers 1, 3 to 7 and 10, the places of 5 to 8, and agreement of clause and call.
use super::{Program, Record};

/// A key: sort 1 atom, 2 integer, 3 float, 4 structure, 5 list.
#[derive(Debug, Clone, Copy, PartialEq, Eq, PartialOrd, Ord)]
pub struct Key {
    pub sort: u8,
    pub arity: u16,
    pub bits: u64,
}

/// The clauses' offsets, and their keys by argument.
#[derive(Debug)]
pub struct Read {
    pub offsets: Vec<u32>,
    pub keys: Vec<Vec<Option<Key>>>,
}

impl Read {
    /// The key of the clause with this offset at an argument.
    pub fn key(&self, offset: u32, argument: usize) -> Option<Key> {
        let clause = self.offsets.binary_search(&offset).expect("a known offset");
        self.keys[clause][argument - 1]
    }
}

#[derive(Clone, Copy, PartialEq)]
enum Class {
    Body,
    Prologue,
    Argless,
    Keyed,
}

/// Section 1's table. A keyed record whose level is not Shallow or whose register is not Temp is a body record.
fn class_of(r: &Record) -> Class {
    match r.kind {
        0..=9 => Class::Prologue,
        32..=38 => Class::Argless,
        16..=19 if r.sub & 3 == 0 => Class::Keyed,
        _ => Class::Body,
    }
}

/// Numbers 1 and 3 to 7, and the keys.
pub fn check_code(program: &Program) -> Result<Read, u32> {
    if !(1..=32).contains(&program.arity) {
        return Err(1);
    }
    read_code(program)
}

/// Numbers 1 to 8, and the keys.
pub fn check_build(program: &Program) -> Result<Read, u32> {
    if !(1..=32).contains(&program.arity) {
        return Err(1);
    }
    if program.c == 0 || program.c > u64::from(program.arity) {
        return Err(2);
    }
    let read = read_code(program)?;
    let open = read.keys.iter().any(|keys| keys[program.c as usize - 1].is_none());
    if open { Err(8) } else { Ok(read) }
}

/// Numbers 3 to 7, and the keys.
fn read_code(program: &Program) -> Result<Read, u32> {
    let (code, starts) = (&program.code, &program.starts);
    if code.len() % 16 != 0 || code.len() / 16 > 32_768 {
        return Err(3);
    }
    let records = Record::all(code);
    let rising = starts.windows(2).all(|pair| pair[0] < pair[1]);
    let inside = starts.iter().all(|&start| (start as usize) < records.len());
    if starts.is_empty() || starts.len() > 1_024 || !rising || !inside {
        return Err(4);
    }
    let ends = starts[1..].iter().map(|&start| start as usize).chain([records.len()]);
    let clauses = starts.iter().zip(ends).map(|(&start, end)| &records[start as usize..end]);
    let keys = clauses.map(|clause| clause_keys(clause, program.arity)).collect::<Result<_, _>>()?;
    Ok(Read { offsets: starts.iter().map(|start| start + 1).collect(), keys })
}

/// One clause's 5, then its 6 and 7 record by record, then its keys.
fn clause_keys(clause: &[Record], arity: u32) -> Result<Vec<Option<Key>>, u32> {
    let body = clause.iter().position(|r| class_of(r) == Class::Body).ok_or(5u32)?;
    let mut keys = vec![None; arity as usize];
    let mut last = 0;
    for r in &clause[..=body] {
        if wrong_fields(r) {
            return Err(6);
        }
        if class_of(r) == Class::Keyed {
            if r.word == 0 || r.word > arity || r.word <= last {
                return Err(7);
            }
            last = r.word;
            keys[last as usize - 1] = Some(key_in(r));
        }
    }
    Ok(keys)
}

/// What refuses, as locate reports it, given its number: with 5 to 8 the first clause that is refused and its record that is
/// first at fault. That of 6 and 7 is the last of the shortest beginning of the clause that a body record behind it does
/// not mend.
pub fn fault(program: &Program, number: u32) -> [u64; 3] {
    let (records, starts) = (Record::all(&program.code), &program.starts);
    let fails = |clause: &[Record]| clause_keys(&[clause, &[Record::BODY]].concat(), program.arity).is_err();
    for i in 0..if number < 5 { 0 } else { starts.len() } {
        let start = starts[i] as usize;
        let end = starts.get(i + 1).map_or(records.len(), |&next| next as usize);
        let clause = &records[start..end];
        let at = match clause_keys(clause, program.arity) {
            Err(5) => clause.len() - 1,
            Err(_) => (0..clause.len()).find(|&at| fails(&clause[..=at])).expect("a record at fault"),
            Ok(keys) if number == 8 && keys[program.c as usize - 1].is_none() => {
                clause.iter().position(|r| class_of(r) == Class::Body).expect("a body record")
            }
            Ok(_) => continue,
        };
        return [number.into(), i as u64, (start + at) as u64];
    }
    [number.into(), 0, 0]
}

/// Number 6.
fn wrong_fields(r: &Record) -> bool {
    if !(16..=19).contains(&r.kind) {
        return false;
    }
    let wrong_key = match r.kind {
        16 => !(1..=255).contains(&r.half),
        18 => !(1..=3).contains(&r.half),
        _ => false,
    };
    r.sub & 0xfc != 0 || r.sub & 3 == 0 && wrong_key
}

fn key_in(r: &Record) -> Key {
    match r.kind {
        16 => Key { sort: 4, arity: r.half, bits: r.long },
        18 => Key { sort: r.half as u8, arity: 0, bits: r.long },
        _ => Key { sort: 5, arity: 0, bits: 0 },
    }
}

/// Number 10: the call's keys by argument, none if unbound.
pub fn call_keys(call: &[u8], arity: u32) -> Option<Vec<Option<Key>>> {
    if call.len() != 16 * arity as usize {
        return None;
    }
    Record::all(call).iter().map(call_key).collect()
}

/// The inner none is an unbound argument, the outer a record that is not well made.
fn call_key(r: &Record) -> Option<Option<Key>> {
    if r.kind != 0 || r.word != 0 {
        return None;
    }
    let fields = match r.sub {
        0 | 5 => r.half == 0 && r.long == 0,
        1..=3 => r.half == 0,
        4 => (1..=255).contains(&r.half),
        _ => false,
    };
    let key = Key { sort: r.sub, arity: r.half, bits: r.long };
    fields.then_some((r.sub != 0).then_some(key))
}

/// The offsets of the clauses that agree with a call: at each argument one has no key or the keys are equal.
pub fn agreeing(read: &Read, call: &[Option<Key>]) -> Vec<u32> {
    let agrees = |keys: &Vec<Option<Key>>| {
        keys.iter().zip(call).all(|(clause, call)| clause.is_none() || call.is_none() || clause == call)
    };
    read.offsets.iter().zip(&read.keys).filter(|(_, keys)| agrees(keys)).map(|(&offset, _)| offset).collect()
}
