//! Everything that a build, a walk and a witness are handed, damaged in one place or several.
use crate::chance::Chance;
use crate::programs::any_record;
use podrulka::Record;
use restated::Program;

/// What is handed in. `room` is the length of the builder's buffer in bytes, `out` that of the walk's out.
#[derive(Debug, Clone)]
pub struct Handed {
    pub program: Program,
    pub call: Vec<u8>,
    pub index: Vec<u8>,
    pub count: usize,
    pub out: usize,
    pub room: usize,
}

/// Damages one thing, now and then two or three.
pub fn damage(chance: &mut Chance, handed: &mut Handed) {
    let times = chance.pick(&[1, 1, 1, 2, 3]);
    for _ in 0..times {
        match chance.below(14) {
            0..=2 => code(chance, &mut handed.program.code),
            3 => starts(chance, &mut handed.program),
            4 => settings(chance, &mut handed.program),
            5 => handed.program.c = other_c(chance, &handed.program),
            6 | 7 => bytes(chance, &mut handed.call, false),
            8 => handed.out = chance.below(handed.program.starts.len() + 2),
            9 => handed.count = other_count(chance, handed),
            10 => shorten(chance, handed),
            _ => index(chance, handed),
        }
    }
}

/// Code: a field, an order of records, a length.
pub fn code(chance: &mut Chance, code: &mut Vec<u8>) {
    match chance.below(6) {
        0 => bytes(chance, code, false),
        1 => length(chance, code),
        2 => with_records(code, |records| {
            // a clause may lose its body record
            let at = chance.below(records.len());
            records[at] = Record { kind: chance.pick(&[0, 9, 17, 32, 38]), ..records[at] };
        }),
        _ => with_records(code, |records| edit(chance, records)),
    }
}

/// Changes whole records, if there are any; odd bytes at the end stay.
fn with_records(bytes: &mut Vec<u8>, change: impl FnOnce(&mut Vec<Record>)) {
    let mut records = Record::all(bytes);
    if !records.is_empty() {
        let odd = bytes.split_off(16 * records.len());
        change(&mut records);
        *bytes = Record::bytes(&records);
        bytes.extend(odd);
    }
}

/// Records: a field of one changed, two swapped, one doubled or left out.
fn edit(chance: &mut Chance, records: &mut Vec<Record>) {
    let (at, other) = (chance.below(records.len()), chance.below(records.len()));
    match chance.below(12) {
        0 => records.swap(at, other),
        1 => records.insert(at, records[other]),
        2 => drop(records.remove(at)),
        3 => records[at] = any_record(chance),
        _ => records[at] = other_field(chance, records[at], records[other]),
    }
}

/// One field of a record: another record's, a neighbour, a boundary, anything.
fn other_field(chance: &mut Chance, record: Record, model: Record) -> Record {
    let mut r = record;
    let boundary = chance.pick(&[0u64, 1, 2, 3, 4, 5, 6, 7, 8, 16, 17, 18, 19, 31, 32, 33, 64, 255, 256, u64::MAX]);
    let changed = |chance: &mut Chance, old: u64, model: u64| match chance.below(6) {
        0 => old.wrapping_add(1),
        1 => old.wrapping_sub(1),
        2 => model,
        3 => old ^ (1 << chance.below(64)),
        4 => old ^ (1 << 31),
        _ => boundary,
    };
    match chance.below(5) {
        0 => r.kind = changed(chance, r.kind.into(), model.kind.into()) as u8,
        1 => r.sub = changed(chance, r.sub.into(), model.sub.into()) as u8,
        2 => r.half = changed(chance, r.half.into(), model.half.into()) as u16,
        3 => r.word = changed(chance, r.word.into(), model.word.into()) as u32,
        _ => r.long = changed(chance, r.long, model.long),
    }
    r
}

/// Bytes changed here and there, or the length.
pub fn bytes(chance: &mut Chance, bytes: &mut Vec<u8>, keep_length: bool) {
    if bytes.is_empty() || !keep_length && chance.percent(25) {
        return length(chance, bytes);
    }
    let at = chance.below(bytes.len());
    let near = at - at % 16 + chance.below(8); // kind, sub, half or word of its record
    match chance.below(4) {
        0 => bytes[at] = chance.number() as u8,
        1 => bytes[at] ^= 1 << chance.below(8),
        2 if near < bytes.len() => bytes[near] = chance.below(8) as u8,
        _ => bytes[at] = bytes[at].wrapping_add(1),
    }
}

fn length(chance: &mut Chance, bytes: &mut Vec<u8>) {
    let by = chance.pick(&[1, 8, 15, 16, 17, 32]);
    if chance.percent(50) {
        bytes.truncate(bytes.len().saturating_sub(by));
    } else {
        let more: Vec<u8> = (0..by).map(|_| chance.number() as u8 % 70).collect();
        bytes.extend(more);
    }
}

fn starts(chance: &mut Chance, program: &mut Program) {
    let end = (program.code.len() / 16) as u32;
    let starts = &mut program.starts;
    let at = chance.below(starts.len().max(1));
    match chance.below(8) {
        0 => starts.clear(),
        1 => starts.push(end + chance.below(2) as u32),
        2 => starts.push(chance.pick(&[0, end.wrapping_sub(1), u32::MAX])),
        3 => starts.insert(at, chance.below(end as usize + 1) as u32),
        _ if starts.is_empty() => (),
        4 => starts[at] = chance.below(end as usize + 1) as u32,
        5 => starts[at] = starts[at].wrapping_add(chance.pick(&[1, 2, u32::MAX])),
        6 => drop(starts.remove(at)),
        _ => {
            let other = chance.below(starts.len());
            starts.swap(at, other);
        }
    }
}

fn settings(chance: &mut Chance, program: &mut Program) {
    let arity = program.arity;
    match chance.below(4) {
        0 => program.flags ^= 1 << chance.below(6),
        1 => program.mask = chance.number() as u32,
        2 => program.arity = chance.pick(&[0, 1, 32, 33, 256, 1 << 31, u32::MAX]),
        _ => program.arity = chance.pick(&[arity.wrapping_add(1), arity.wrapping_sub(1)]),
    }
}

fn other_c(chance: &mut Chance, program: &Program) -> u64 {
    let arity = u64::from(program.arity);
    let (inside, any) = (chance.number() % arity.max(1) + 1, chance.number());
    chance.pick(&[0, arity + 1, inside, inside, program.c.wrapping_add(1 << 32), u64::MAX, any])
}

fn other_count(chance: &mut Chance, handed: &Handed) -> usize {
    let (count, room) = (handed.count, handed.index.len() / 16);
    let inside = chance.below(room + 1);
    chance.pick(&[
        0,
        1,
        count.wrapping_sub(1),
        count.wrapping_add(1),
        inside,
        room,
        room + 1,
        65_535,
        65_536,
        1 << 32,
        usize::MAX,
    ])
}

/// Buffers of other lengths: the walk's and the builder's.
fn shorten(chance: &mut Chance, handed: &mut Handed) {
    let exact = 16 * handed.count.min(70_000);
    let bytes = match chance.below(6) {
        0 => 0,
        1 => exact,
        2 => exact.saturating_sub(1),
        3 => exact.saturating_sub(16),
        4 => chance.below(exact + 1),
        _ => exact + chance.below(64),
    };
    handed.room = bytes;
    if chance.percent(50) {
        handed.index.resize(bytes, 0);
    }
}

/// The index: mostly records within the count.
fn index(chance: &mut Chance, handed: &mut Handed) {
    let within = (16 * handed.count.min(70_000)).min(handed.index.len());
    let beyond = handed.index.split_off(within);
    let before = handed.index.len() / 16;
    if chance.percent(25) && !handed.index.is_empty() {
        bytes(chance, &mut handed.index, true);
    } else {
        with_records(&mut handed.index, |records| edit(chance, records));
    }
    let after = handed.index.len() / 16;
    handed.index.extend(beyond);
    if after != before {
        handed.count = after;
    }
}
