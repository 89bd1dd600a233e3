//! Indexes that no builder made: an index's lines changed so that most of them are still well formed.
use crate::chance::Chance;
use restated::Key;
use restated::index::{Entry, INTERNAL, Line, Table, group};

/// What may stand in an index: the clauses' offsets, the arity and the mode.
pub struct Stuff<'a> {
    pub offsets: &'a [u32],
    pub arity: usize,
    pub dynamic: bool,
}

/// Changes some lines.
pub fn reshape(chance: &mut Chance, stuff: &Stuff, lines: &mut Vec<Line>) {
    for _ in 0..chance.within(1, 6) {
        let at = chance.below(lines.len());
        match chance.below(8) {
            0 => stray_line(chance, stuff, lines),
            7 => on_demand(stuff, &mut lines[at]),
            1 | 2 => offsets(chance, stuff, &mut lines[at].offsets),
            3 => add_table(chance, stuff, lines, at),
            _ => table(chance, stuff, lines, at),
        }
    }
}

/// Some of the clauses, rising, at least one.
fn some_clauses(chance: &mut Chance, stuff: &Stuff) -> Vec<u32> {
    let share = chance.pick(&[20, 50, 100]);
    let some: Vec<u32> = stuff.offsets.iter().copied().filter(|_| chance.percent(share)).collect();
    if some.is_empty() { vec![chance.pick(stuff.offsets)] } else { some }
}

fn some_tag(chance: &mut Chance, stuff: &Stuff) -> u8 {
    if stuff.dynamic { chance.pick(&[6, 7]) } else { chance.pick(&[1, 2, 3, 4, 5]) }
}

/// Other tags, other clauses, one clause less.
fn offsets(chance: &mut Chance, stuff: &Stuff, offsets: &mut Vec<(u8, u32)>) {
    match chance.below(3) {
        0 => offsets.iter_mut().for_each(|(tag, _)| *tag = some_tag(chance, stuff)),
        1 => *offsets = some_clauses(chance, stuff).into_iter().map(|o| (some_tag(chance, stuff), o)).collect(),
        _ if offsets.len() > 1 => drop(offsets.remove(chance.below(offsets.len()))),
        _ => (),
    }
}

/// A line that nothing points at yet.
fn stray_line(chance: &mut Chance, stuff: &Stuff, lines: &mut Vec<Line>) {
    let offsets = some_clauses(chance, stuff).into_iter().map(|o| (some_tag(chance, stuff), o)).collect();
    lines.push(Line { tables: vec![], offsets });
    let at = lines.len() - 1;
    for _ in 0..chance.below(3) {
        add_table(chance, stuff, lines, at);
    }
}

/// A table more at an argument that has none in the line.
fn add_table(chance: &mut Chance, stuff: &Stuff, lines: &mut [Line], at: usize) {
    let argument = chance.within(1, stuff.arity);
    let place = lines[at].tables.iter().position(|table| table.argument() >= argument);
    let place = place.unwrap_or(lines[at].tables.len());
    if lines[at].tables.get(place).is_some_and(|table| table.argument() == argument) {
        return;
    }
    let new = any_table(chance, stuff, lines, at, argument);
    lines[at].tables.insert(place, new);
}

/// The line's tables from its first argument on are all on demand, also over clauses without a key.
fn on_demand(stuff: &Stuff, line: &mut Line) {
    let first = line.tables.first().map_or(1, Table::argument);
    line.tables = (first..=stuff.arity).map(|argument| Table::OnDemand { argument }).collect();
}

fn any_table(chance: &mut Chance, stuff: &Stuff, lines: &[Line], at: usize, argument: usize) -> Table {
    match chance.below(4) {
        0 => Table::Dead { argument, clauses: if chance.percent(20) { vec![] } else { some_clauses(chance, stuff) } },
        1 => Table::Switch { argument, entries: some_entries(chance, stuff, lines, at, argument) },
        _ => Table::OnDemand { argument },
    }
}

/// A table left out, turned into another, or its entries changed.
fn table(chance: &mut Chance, stuff: &Stuff, lines: &mut [Line], at: usize) {
    if lines[at].tables.is_empty() {
        return;
    }
    let place = chance.below(lines[at].tables.len());
    let argument = lines[at].tables[place].argument();
    match chance.below(6) {
        0 => drop(lines[at].tables.remove(place)),
        1 | 2 => lines[at].tables[place] = any_table(chance, stuff, lines, at, argument),
        _ => {
            let pointer = some_pointer(chance, stuff, lines, at, argument);
            if let Table::Switch { entries, .. } = &mut lines[at].tables[place] {
                change_entries(chance, entries, pointer);
            }
        }
    }
}

fn change_entries(chance: &mut Chance, entries: &mut Vec<Entry>, pointer: u32) {
    if entries.is_empty() {
        return;
    }
    let at = chance.below(entries.len());
    match chance.below(4) {
        0 => {
            chance.shuffle(entries);
            entries.sort_by_key(|entry| group(entry.key.sort)); // any order within a group
        }
        1 => drop(entries.remove(at)),
        2 => entries[at].pointer = pointer,
        _ if entries[at].key.sort != 5 => entries[at].key.bits = chance.below(9) as u64,
        _ => (),
    }
}

/// A pointer to a clause or, mostly well formed, to a later line.
fn some_pointer(chance: &mut Chance, stuff: &Stuff, lines: &[Line], at: usize, argument: usize) -> u32 {
    let exceeds = |line: &Line| line.tables.iter().all(|table| table.argument() > argument);
    let right: Vec<usize> = (at + 1..lines.len()).filter(|&line| exceeds(&lines[line])).collect();
    if right.is_empty() || !stuff.dynamic && chance.percent(50) {
        return chance.pick(stuff.offsets);
    }
    let line = if chance.percent(5) { chance.within(at, lines.len()) } else { chance.pick(&right) };
    INTERNAL | (line - at) as u32
}

fn some_entries(chance: &mut Chance, stuff: &Stuff, lines: &[Line], at: usize, argument: usize) -> Vec<Entry> {
    let mut entries: Vec<Entry> = vec![];
    for _ in 0..chance.below(5) {
        let sort = chance.pick(&[1, 1, 2, 3, 4, 4, 5]);
        let arity = if sort == 4 { chance.pick(&[0, 1, 2, 255, 256, 65_535]) } else { 0 };
        let bits = if sort == 5 { 0 } else { chance.below(4) as u64 };
        let key = Key { sort, arity, bits };
        if entries.iter().all(|entry| entry.key != key) {
            entries.push(Entry { key, pointer: some_pointer(chance, stuff, lines, at, argument) });
        }
    }
    entries.sort_by_key(|entry| group(entry.key.sort));
    entries
}
