//! Sections 3 and 4: the switch over a line's clauses, its new lines and their tables.
use super::index::{Entry, INTERNAL, Line, Table};
use super::{Key, Program, Read};

/// A tag and an offset.
pub type Tagged = (u8, u32);

/// First Try, others Retry or DefaultRetry; with two or more the last becomes Trust or DefaultTrust.
pub fn static_tags(offsets: &[u32], non_counted: bool) -> Vec<Tagged> {
    let (retry, trust) = if non_counted { (3, 5) } else { (2, 4) };
    let tag = |i| match i {
        0 => 1,
        _ if i + 1 == offsets.len() => trust,
        _ => retry,
    };
    offsets.iter().enumerate().map(|(i, &offset)| (tag(i), offset)).collect()
}

/// The tables of a line behind a switch on `switch`: one for each unmasked argument above it, on demand or, where some
/// clause has no key and the setting says extensible, dead.
pub fn later_tables(program: &Program, read: &Read, switch: usize, offsets: &[Tagged]) -> Vec<Table> {
    let unmasked = (switch + 1..=program.arity as usize).filter(|&argument| !program.masked(argument));
    let table = |argument| {
        let clauses = without_key(read, argument, offsets);
        match clauses.is_empty() {
            true => Some(Table::OnDemand { argument }),
            false if program.extensible() => Some(Table::Dead { argument, clauses }),
            false => None,
        }
    };
    unmasked.filter_map(table).collect()
}

/// The clauses among these that have no key at an argument.
pub fn without_key(read: &Read, argument: usize, offsets: &[Tagged]) -> Vec<u32> {
    offsets.iter().map(|&(_, offset)| offset).filter(|&offset| read.key(offset, argument).is_none()).collect()
}

/// The switch on an argument over clauses that all have a key there, in line `own` of an index of so many lines, and the
/// lines that go to the index's end.
pub fn switch_over(
    program: &Program,
    read: &Read,
    argument: usize,
    offsets: &[Tagged],
    own: usize,
    lines_before: usize,
) -> (Table, Vec<Line>) {
    let mut buckets: Vec<(Key, Vec<Tagged>)> = vec![]; // by first clause
    for &(tag, offset) in offsets {
        let key = read.key(offset, argument).expect("a key");
        match buckets.iter_mut().find(|(other, _)| *other == key) {
            Some((_, members)) => members.push((tag, offset)),
            None => buckets.push((key, vec![(tag, offset)])),
        }
    }
    if program.dynamic() && buckets.iter().all(|(key, _)| key.sort != 5) {
        buckets.push((Key { sort: 5, arity: 0, bits: 0 }, vec![]));
    }

    let mut lines = vec![];
    let mut entry = |(key, members): &(Key, Vec<Tagged>)| {
        if !program.dynamic() && members.len() == 1 {
            return Entry { key: *key, pointer: members[0].1 };
        }
        lines.push(new_line(program, read, argument, members));
        let number = lines_before + lines.len() - 1;
        Entry { key: *key, pointer: INTERNAL | (number - own) as u32 }
    };
    let mut of = |sorts: &[u8]| -> Vec<Entry> {
        buckets.iter().filter(|(key, _)| sorts.contains(&key.sort)).map(&mut entry).collect()
    };
    // lines are numbered list, structures, literals; entries stand literals, list, structures
    let (list, structures, literals) = (of(&[5]), of(&[4]), of(&[1, 2, 3]));
    (Table::Switch { argument, entries: [literals, list, structures].concat() }, lines)
}

/// Static tags are worked out anew; a dynamic offset keeps its own.
fn new_line(program: &Program, read: &Read, argument: usize, members: &[Tagged]) -> Line {
    let offsets = if program.dynamic() {
        members.to_vec()
    } else {
        let offsets: Vec<u32> = members.iter().map(|&(_, offset)| offset).collect();
        static_tags(&offsets, program.non_counted())
    };
    Line { tables: later_tables(program, read, argument, &offsets), offsets }
}
