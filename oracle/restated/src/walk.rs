//! Section 5: the walk over lines, with expansion on demand while there is room.
use super::expansion::{switch_over, without_key};
use super::index::{Entry, INTERNAL, Line, Table, capacity, group, read_index, written};
use super::{Key, Program, RECORD, Read, call_keys, check_code};

#[derive(Debug, Clone, Copy, PartialEq, Eq)]
pub enum Case {
    Fail = 1,
    External = 2,
    Sequence = 3,
    Variadic = 4,
}

/// An accepted walk: its answer and the index that it leaves.
#[derive(Debug)]
pub struct Walked {
    pub case: Case,
    pub line: usize,
    pub offsets: Vec<u32>,
    pub tables: usize,
    pub stored: bool,
    pub index: Vec<u8>,
    /// Expansions to a switch and to a dead table, stored or not.
    pub switches: usize,
    pub deaths: usize,
}

impl Walked {
    /// The places of the walk's result.
    pub fn numbers(&self) -> [u64; 7] {
        let counts = [self.line, self.offsets.len(), self.tables, self.index.len() / RECORD];
        let [line, count, tables, records] = counts.map(|n| n as u64);
        [0, self.case as u64, line, count, tables, u64::from(!self.stored), records]
    }
}

/// The walk with its refusals 1, 3 to 7, 10, 11 and 12.
pub fn walk(program: &Program, call: &[u8], index: &[u8], count: usize, out: usize) -> Result<Walked, u32> {
    let read = check_code(program)?;
    let call = call_keys(call, program.arity).ok_or(10u32)?;
    if out < program.starts.len() {
        return Err(11);
    }
    let lines = read_index(program, &read, index, count).ok_or(12u32)?;
    let room = capacity(index.len());
    let walk = Walk { program, read, lines, kept: None, records: count, room, switches: 0, deaths: 0 };
    Ok(walk.run(&call))
}

struct Walk<'a> {
    program: &'a Program,
    read: Read,
    /// The index with every expansion of this call, stored or not.
    lines: Vec<Line>,
    /// What is stored, from the first expansion that did not fit on.
    kept: Option<Vec<Line>>,
    /// Records stored.
    records: usize,
    room: usize,
    switches: usize,
    deaths: usize,
}

impl Walk<'_> {
    fn run(mut self, call: &[Option<Key>]) -> Walked {
        let (mut line, mut place, mut tables) = (0, 0, 0);
        loop {
            let Some(table) = self.lines[line].tables.get(place) else {
                let offsets = self.lines[line].offsets.iter().map(|&(_, offset)| offset).collect();
                let case = if line == 0 { Case::Variadic } else { Case::Sequence };
                return self.ended(case, line, offsets, tables);
            };
            tables += 1;
            let Some(key) = call[table.argument() - 1] else {
                place += 1;
                continue;
            };
            if let Table::OnDemand { argument } = *table {
                self.expand(line, place, argument);
            }
            let Table::Switch { entries, .. } = &self.lines[line].tables[place] else {
                place += 1; // dead
                continue;
            };
            match followed(entries, key) {
                None => return self.ended(Case::Fail, 0, vec![], tables),
                Some(pointer) if pointer & INTERNAL == 0 => {
                    return self.ended(Case::External, 0, vec![pointer], tables);
                }
                Some(pointer) => (line, place) = (line + (pointer & !INTERNAL) as usize, 0),
            }
        }
    }

    /// Section 4, and what is stored of it.
    fn expand(&mut self, line: usize, place: usize, argument: usize) {
        let offsets = self.lines[line].offsets.clone();
        let clauses = without_key(&self.read, argument, &offsets);
        let (table, new_lines) = if clauses.is_empty() {
            self.switches += 1;
            switch_over(self.program, &self.read, argument, &offsets, line, self.lines.len())
        } else {
            self.deaths += 1;
            (Table::Dead { argument, clauses }, vec![])
        };
        let grown = self.records + table.size() - 1 + new_lines.iter().map(Line::size).sum::<usize>();
        if self.kept.is_none() && grown <= self.room {
            self.records = grown;
        } else if self.kept.is_none() {
            self.kept = Some(self.lines.clone());
        }
        self.lines[line].tables[place] = table;
        self.lines.extend(new_lines);
    }

    fn ended(self, case: Case, line: usize, offsets: Vec<u32>, tables: usize) -> Walked {
        let stored = self.kept.is_none();
        let kept = self.kept.unwrap_or(self.lines);
        let line = if line < kept.len() { line } else { 0 };
        let index = written(&kept, self.program.dynamic());
        assert_eq!(index.len(), 16 * self.records);
        Walked { case, line, offsets, tables, stored, index, switches: self.switches, deaths: self.deaths }
    }
}

/// The pointer that a switch's entries give a key, none for Fail.
fn followed(entries: &[Entry], key: Key) -> Option<u32> {
    let alike: Vec<&Entry> = entries.iter().filter(|entry| group(entry.key.sort) == group(key.sort)).collect();
    match alike[..] {
        [one] => Some(one.pointer), // a list's only entry is equal in any case
        _ => alike.iter().find(|entry| entry.key == key).map(|entry| entry.pointer),
    }
}
