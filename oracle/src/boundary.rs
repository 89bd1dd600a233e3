//! Boundary sizes: arity, clauses, code, capacity, out.
use crate::chance::Chance;
use crate::checked::{Difference, same};
use crate::damage::Handed;
use crate::programs;
use crate::random::all_three;
use crate::shown;
use crate::small::{LIST, atom, built, call, program, show, structure, walked};
use crate::tally::Tally;
use crate::with_rust::{self, FILL};
use podrulka::Record;
use restated::{Key, Program, check_code};

pub fn run(tally: &mut Tally) -> Result<(), Difference> {
    arities(tally)?;
    clauses(tally)?;
    code_lengths(tally)?;
    outs(tally)?;
    built_sizes(tally)?;
    handed_in_sizes(tally)
}

/// A difference with the program that it was found in.
fn of(p: &Program) -> impl Fn(Difference) -> Difference {
    move |difference| format!("{difference}\n{}", shown::program(p))
}

/// Build, walk and witness of a program on its own index; gives the builder's number.
fn all(p: &Program, call: &[u8], tally: &mut Tally) -> Result<u32, Difference> {
    tally.boundary += 1;
    let (index, number) = match with_rust::build(p, 1 << 20, tally).map_err(of(p))? {
        Ok(fresh) => (fresh.index, 0),
        Err(number) => (vec![FILL; 64], number),
    };
    let (count, out) = (index.len() / 16, p.starts.len());
    let mut handed = Handed { program: p.clone(), call: call.to_vec(), room: index.len(), index, count, out };
    all_three(&mut handed, tally).map_err(of(p))?;
    Ok(number)
}

/// Arities 0 to 34 with keys at every argument, and c around them; a walk of as many expansions as there are arguments.
fn arities(tally: &mut Tally) -> Result<(), Difference> {
    for arity in (0..=34).chain([255, 256, 1 << 31, u32::MAX]) {
        let keys = |last: u64| -> Vec<Option<Key>> {
            (1..=arity.min(40)).map(|a| if a < arity { atom(1) } else { atom(last) }).collect()
        };
        let clauses = [keys(1), keys(2), keys(1)];
        let bound = call(&keys(1));
        for flags in 0..4 {
            for c in [1, 0, u64::from(arity), u64::from(arity) + 1, u64::MAX] {
                let p = program(&clauses, arity, flags, c);
                let number = all(&p, &bound, tally)?;
                same("number 1", number == 1, !(1..=32).contains(&arity))?;
                same("number 2", number == 2, number != 1 && !(1..=u64::from(arity)).contains(&c))?;
            }
        }
    }
    Ok(())
}

/// 1,023 to 1,025 clauses: all keys alike, all distinct, in between; static and dynamic, with walks.
fn clauses(tally: &mut Tally) -> Result<(), Difference> {
    for number in [1, 1_023, 1_024, 1_025] {
        for distinct in [1, 7, 2_000] {
            let keys = |i: u64| match i % 5 {
                0 => [structure(i % distinct, 2), atom(i % 3)],
                4 => [LIST, atom(i % 2)],
                _ => [atom(i % distinct), structure(i % 2, 1)],
            };
            let clauses: Vec<_> = (0..number).map(keys).collect();
            for flags in 0..4 {
                let p = program(&clauses, 2, flags, 1);
                let refused = all(&p, &call(&[atom(1), structure(1, 1)]), tally)?;
                same("number 4", refused, if number > 1_024 { 4 } else { 0 })?;
                if refused == 0 {
                    some_walks(&p, tally)?;
                }
            }
        }
    }
    Ok(())
}

fn some_walks(p: &Program, tally: &mut Tally) -> Result<(), Difference> {
    let mut fresh = built(p, 1 << 20, tally)?;
    for keys in
        [[None, None], [None, LIST], [None, atom(1)], [LIST, atom(0)], [structure(0, 2), atom(2)], [atom(6), LIST]]
    {
        walked(p, &mut fresh, &call(&keys), tally).map_err(of(p))?;
    }
    Ok(())
}

/// Code of 32,768 and 32,769 records, and a byte more or less: one long clause, and many.
fn code_lengths(tally: &mut Tally) -> Result<(), Difference> {
    for records in [32_767, 32_768, 32_769] {
        for starts in [1usize, 1_024] {
            let mut code = vec![Record::new(0, 0, 0, 0, 0); records];
            let starts: Vec<u32> = (0..starts).map(|i| (i * (records / starts)) as u32).collect();
            let ends = starts[1..].iter().map(|&start| start as usize).chain([records]);
            for (&start, end) in starts.iter().zip(ends) {
                code[start as usize] = Record::atom_in(1, u64::from(start) % 600);
                code[end - 1] = Record::BODY;
            }
            let p = Program { code: Record::bytes(&code), starts, arity: 2, mask: 0, flags: 0, c: 1 };
            let number = all(&p, &call(&[atom(0), LIST]), tally)?;
            same("number 3", number, if records > 32_768 { 3 } else { 0 })?;
            for odd in [p.code.len() - 1, p.code.len() - 15] {
                let part = Program { code: p.code[..odd].to_vec(), ..p.clone() };
                same("number 3", all(&part, &call(&[atom(0), LIST]), tally)?, 3)?;
            }
        }
    }
    Ok(())
}

/// Out with as many places as there are clauses, one fewer, none.
fn outs(tally: &mut Tally) -> Result<(), Difference> {
    let many: Vec<_> = (0..1_024).map(|i| [atom(i % 9), None]).collect();
    for p in [show(0), program(&many, 2, 0, 1)] {
        let fresh = built(&p, 1 << 20, tally)?;
        let clauses = p.starts.len();
        for out in [0, 1, clauses - 1, clauses, clauses + 1] {
            tally.boundary += 1;
            let (mut index, count) = (fresh.index.clone(), fresh.index.len() / 16);
            let walked = with_rust::walk_handed_in(&p, &call(&[None, None]), &mut index, count, out, tally)?;
            same("number 11", walked.err(), (out < clauses).then_some(11))?;
        }
    }
    Ok(())
}

/// A dynamic, extensible program whose built index has exactly so many records: n clauses, each with one key at argument 1,
/// have 97 n + 66 at arity 32, and a key more at argument 2 takes two records away.
fn of_size(size: usize) -> Program {
    let mut n = (size - 66).div_ceil(97);
    if (97 * n + 66) % 2 != size % 2 {
        n += 1;
    }
    let more = (97 * n + 66 - size) / 2;
    let clauses: Vec<_> = (0..n).map(|i| [atom(i as u64), if i < more { atom(1) } else { None }]).collect();
    program(&clauses, 32, 3, 1)
}

/// Built indexes of about 65,535 records, in buffers that they just fit in and longer ones.
fn built_sizes(tally: &mut Tally) -> Result<(), Difference> {
    for size in [65_533, 65_534, 65_535, 65_536, 65_537] {
        let p = of_size(size);
        for room in [16 * size - 1, 16 * size, 16 * 65_535, 16 * 65_536, 16 * 70_000 + 5] {
            tally.boundary += 1;
            let number = match with_rust::build(&p, room, tally)? {
                Err(number) => number,
                Ok(mut fresh) => {
                    let mut keys = vec![None; 32];
                    keys[0] = atom(0);
                    keys[1] = atom(1); // an expansion that exceeds the limit
                    walked(&p, &mut fresh, &call(&keys), tally).map_err(of(&p))?;
                    same("records", fresh.index.len(), 16 * size)?;
                    0
                }
            };
            let fits = size <= 65_535 && room >= 16 * size;
            same("number 9", number, if fits { 0 } else { 9 })?;
        }
    }
    Ok(())
}

/// The show's index with stray lines behind it, up to 65,535 records and one more; case 2 of the show wants three.
fn handed_in_sizes(tally: &mut Tally) -> Result<(), Difference> {
    let p = show(0);
    let fresh = built(&p, 16 * 12, tally)?;
    for count in [65_531, 65_532, 65_533, 65_534, 65_535, 65_536] {
        for room in [16 * count - 1, 16 * count, 16 * 65_535, 16 * 65_536, 16 * 70_000] {
            let mut index = with_stray_lines(&fresh.index, count);
            index.resize(room, FILL);
            tally.boundary += 1;
            let walked = with_rust::walk_handed_in(&p, &call(&[None, LIST]), &mut index, count, 3, tally)?;
            let capacity = (room / 16).min(65_535);
            match walked {
                Err(number) => same("number 12", (number, count > capacity), (12, true))?,
                Ok(walked) => same("the mark", walked.stored, count + 3 <= capacity)?,
            }
        }
    }
    Ok(())
}

/// Lines of one clause, the last of two if the count is odd.
fn with_stray_lines(index: &[u8], count: usize) -> Vec<u8> {
    let mut records = Record::all(index);
    let mut number = 2;
    while records.len() < count {
        records.push(Record::new(1, 0, 0, number, 0));
        records.push(Record::new(6, 1, 0, 1, 0));
        if count - records.len() == 1 {
            records.push(Record::new(6, 4, 0, 4, 0));
        }
        number += 1;
    }
    Record::bytes(&records)
}

/// Programs of 1,024 clauses from seeds of their own, some calls each.
pub fn large(seeds: u64, tally: &mut Tally) -> Result<(), Difference> {
    for seed in 0..seeds {
        let chance = &mut Chance::new(seed);
        original::set_order(seed);
        let size = programs::Size { clauses: 1_024, bits: chance.pick(&[2, 50, 5_000]) };
        let p = programs::program(chance, size);
        tally.boundary += 1;
        let Ok(mut fresh) = with_rust::build(&p, 1 << 20, tally)? else {
            continue; // too much code or too large an index
        };
        let read = check_code(&p).map_err(|number| format!("restatement refuses with {number}"))?;
        for _ in 0..4 {
            let call = programs::call(chance, &p, &read, 50);
            walked(&p, &mut fresh, &call, tally).map_err(of(&p))?;
        }
    }
    Ok(())
}
