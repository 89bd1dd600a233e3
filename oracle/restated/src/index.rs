//! An index as lines of tables and offsets: reading one that was handed in (number 12) and writing it.
use super::{Key, Program, Read, Record};
use std::iter::Peekable;
use std::slice::Iter;

/// Bit 31 of a pointer.
pub const INTERNAL: u32 = 1 << 31;

#[derive(Debug, Clone)]
pub struct Line {
    pub tables: Vec<Table>,
    /// Tags and offsets.
    pub offsets: Vec<(u8, u32)>,
}

#[derive(Debug, Clone)]
pub enum Table {
    Switch { argument: usize, entries: Vec<Entry> },
    OnDemand { argument: usize },
    Dead { argument: usize, clauses: Vec<u32> },
}

#[derive(Debug, Clone, Copy)]
pub struct Entry {
    pub key: Key,
    pub pointer: u32,
}

impl Table {
    pub fn argument(&self) -> usize {
        match *self {
            Table::Switch { argument, .. } | Table::OnDemand { argument } | Table::Dead { argument, .. } => argument,
        }
    }

    /// Records of the table.
    pub fn size(&self) -> usize {
        match self {
            Table::Switch { entries, .. } => 1 + entries.len(),
            Table::OnDemand { .. } => 1,
            Table::Dead { clauses, .. } => 1 + clauses.len(),
        }
    }
}

impl Line {
    /// Records of the line.
    pub fn size(&self) -> usize {
        1 + self.tables.iter().map(Table::size).sum::<usize>() + self.offsets.len()
    }
}

/// Records that a buffer of so many bytes has room for.
pub fn capacity(bytes: usize) -> usize {
    (bytes / 16).min(65_535)
}

/// Literals, list, structures: the order of a switch's entries. None for a sort that there is not.
pub fn group(sort: u8) -> Option<u8> {
    match sort {
        1..=3 => Some(0),
        5 => Some(1),
        4 => Some(2),
        _ => None,
    }
}

/// The lines of an index's first count records; none if it is not well formed.
pub fn read_index(program: &Program, read: &Read, index: &[u8], count: usize) -> Option<Vec<Line>> {
    if count == 0 || count > capacity(index.len()) {
        return None;
    }
    let records = Record::all(&index[..16 * count]);
    let mut left = records.iter().peekable();
    let mut lines = vec![];
    while left.peek().is_some() {
        lines.push(read_line(program, read, &mut left, lines.len())?);
    }
    pointers_right(program, read, &lines).then_some(lines)
}

type Left<'a> = Peekable<Iter<'a, Record>>;

/// A line record, tables with rising arguments, offsets.
fn read_line(program: &Program, read: &Read, left: &mut Left, number: usize) -> Option<Line> {
    let line = Record::new(1, program.dynamic() as u8, 0, number as u32, 0);
    left.next_if(|&&r| r == line)?;

    let mut tables: Vec<Table> = vec![];
    while let Some(&head) = left.next_if(|r| (2..=4).contains(&r.kind)) {
        let argument = head.half as usize;
        let above = tables.last().map_or(0, Table::argument);
        if head != Record::new(head.kind, 0, head.half, 0, 0) || argument <= above || argument > program.arity as usize
        {
            return None;
        }
        tables.push(match head.kind {
            2 => Table::Switch { argument, entries: read_entries(left)? },
            3 => Table::OnDemand { argument },
            _ => Table::Dead {
                argument,
                clauses: read_offsets(read, left, 7, 0..=0)?.into_iter().map(|(_, o)| o).collect(),
            },
        });
    }

    let tags = if program.dynamic() { 6..=7 } else { 1..=5 };
    let offsets = read_offsets(read, left, 6, tags)?;
    (program.dynamic() || !offsets.is_empty()).then_some(Line { tables, offsets })
}

/// A switch's entries: fields, order of groups, keys distinct.
fn read_entries(left: &mut Left) -> Option<Vec<Entry>> {
    let mut entries: Vec<Entry> = vec![];
    while let Some(r) = left.next_if(|r| r.kind == 5) {
        let before = entries.last().and_then(|entry| group(entry.key.sort)).unwrap_or(0);
        let zeros = match r.sub {
            4 => true,
            5 => r.half == 0 && r.long == 0,
            _ => r.half == 0,
        };
        if group(r.sub)? < before || !zeros {
            return None;
        }
        entries.push(Entry { key: Key { sort: r.sub, arity: r.half, bits: r.long }, pointer: r.word });
    }
    let mut keys: Vec<Key> = entries.iter().map(|entry| entry.key).collect();
    keys.sort();
    keys.windows(2).all(|pair| pair[0] != pair[1]).then_some(entries)
}

/// Offsets or dead clauses: of known starts, strictly rising.
fn read_offsets(read: &Read, left: &mut Left, kind: u8, subs: std::ops::RangeInclusive<u8>) -> Option<Vec<(u8, u32)>> {
    let mut offsets: Vec<(u8, u32)> = vec![];
    while let Some(&r) = left.next_if(|r| r.kind == kind) {
        let rises = offsets.last().is_none_or(|&(_, last)| last < r.word);
        let known = read.offsets.binary_search(&r.word).is_ok();
        if r != Record::new(kind, r.sub, 0, r.word, 0) || !subs.contains(&r.sub) || !rises || !known {
            return None;
        }
        offsets.push((r.sub, r.word));
    }
    Some(offsets)
}

/// External pointers are known offsets and none if dynamic; internal ones lead to a later line whose arguments all exceed
/// the switch's.
fn pointers_right(program: &Program, read: &Read, lines: &[Line]) -> bool {
    let right = |number: usize, switch: usize, pointer: u32| {
        if pointer & INTERNAL == 0 {
            return !program.dynamic() && read.offsets.binary_search(&pointer).is_ok();
        }
        let distance = (pointer & !INTERNAL) as usize;
        let exceeds = |line: &Line| line.tables.iter().all(|table| table.argument() > switch);
        distance >= 1 && lines.get(number + distance).is_some_and(exceeds)
    };
    lines.iter().enumerate().all(|(number, line)| {
        line.tables.iter().all(|table| match table {
            Table::Switch { argument, entries } => entries.iter().all(|e| right(number, *argument, e.pointer)),
            _ => true,
        })
    })
}

/// The bytes of an index's records.
pub fn written(lines: &[Line], dynamic: bool) -> Vec<u8> {
    let mut out = vec![];
    let mut put =
        |kind, sub, half: usize, word, long| out.extend(Record::new(kind, sub, half as u16, word, long).to_bytes());
    for (number, line) in lines.iter().enumerate() {
        put(1, dynamic as u8, 0, number as u32, 0);
        for table in &line.tables {
            match table {
                Table::Switch { argument, entries } => {
                    put(2, 0, *argument, 0, 0);
                    entries.iter().for_each(|e| put(5, e.key.sort, e.key.arity as usize, e.pointer, e.key.bits));
                }
                Table::OnDemand { argument } => put(3, 0, *argument, 0, 0),
                Table::Dead { argument, clauses } => {
                    put(4, 0, *argument, 0, 0);
                    clauses.iter().for_each(|&clause| put(7, 0, 0, clause, 0));
                }
            }
        }
        line.offsets.iter().for_each(|&(tag, offset)| put(6, tag, 0, offset, 0));
    }
    out
}
