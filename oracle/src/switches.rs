//! Handed-in indexes with one large switch: keys all distinct, and two of them equal at all sorts of places.
use crate::checked::{Difference, same};
use crate::programs::argument;
use crate::small::{atom, program};
use crate::tally::Tally;
use crate::with_rust;
use podrulka::Record;
use restated::{Key, Program};

const SIZES: [usize; 15] = [1, 2, 31, 32, 33, 34, 64, 66, 1_023, 1_024, 1_025, 1_026, 2_048, 5_000, 65_532];

pub fn run(tally: &mut Tally) -> Result<(), Difference> {
    original::set_order(0); // tables of this size are filled at their end
    let p = program(&[[atom(1)]], 1, 0, 1);
    for size in SIZES {
        for (name, keys) in key_lists(size) {
            one_switch(&p, &keys, tally).map_err(|d| format!("{d}\n{size} entries, {name}"))?;
        }
    }
    Ok(())
}

/// Lists of distinct keys in the order of groups: near together, far apart with common divisors, told apart by sort, by
/// arity or by group alone.
fn key_lists(size: usize) -> Vec<(&'static str, Vec<Key>)> {
    let list = |key: fn(u64) -> Key| (0..size as u64).map(key).collect::<Vec<Key>>();
    let mut lists = vec![
        ("atoms", list(|i| Key { sort: 1, arity: 0, bits: i })),
        ("atoms far apart", list(|i| Key { sort: 1, arity: 0, bits: i << 32 | 7 })),
        ("sorts", list(|i| Key { sort: 1 + (i % 3) as u8, arity: 0, bits: i / 3 })),
        ("arities", list(|i| Key { sort: 4, arity: i as u16, bits: 9 })),
    ];
    if size <= 5_000 {
        lists.push(("atoms with common divisors", list(|i| Key { sort: 1, arity: 0, bits: i * 1_021 * 16_381 })));
        lists.push(("atoms apart by a modulus", list(|i| Key { sort: 1, arity: 0, bits: i * 4_294_967_291 })));
    }
    let half = size as u64 / 2;
    let literals = (0..half).map(|bits| Key { sort: 2, arity: 0, bits });
    let structures = (half + 1..size as u64).map(|i| Key { sort: 4, arity: 1, bits: i - half - 1 });
    let groups = literals.chain([Key { sort: 5, arity: 0, bits: 0 }]).chain(structures).collect();
    lists.push(("groups", groups));
    lists
}

/// The keys as they are, and with one of them equal to an earlier one.
fn one_switch(p: &Program, keys: &[Key], tally: &mut Tally) -> Result<(), Difference> {
    let size = keys.len();
    let last = size - 1;
    same("whether distinct keys are well formed", walked(p, keys, tally)?, true)?;
    let pairs = [
        (0, 1),
        (0, last),
        (last.saturating_sub(1), last),
        (size / 2, size / 2 + 1),
        (0, 33),
        (last.saturating_sub(40), last),
    ];
    for (first, second) in pairs {
        if first < second && second < size {
            let mut keys = keys.to_vec();
            keys[second] = keys[first];
            same("whether equal keys are well formed", walked(p, &keys, tally)?, false)?;
        }
    }
    Ok(())
}

/// Whether a walk is accepted on an index of one line with a switch of these keys; some calls are made.
fn walked(p: &Program, keys: &[Key], tally: &mut Tally) -> Result<bool, Difference> {
    let mut records = vec![Record::new(1, 0, 0, 0, 0), Record::new(2, 0, 1, 0, 0)];
    records.extend(keys.iter().map(|key| Record::new(5, key.sort, key.arity, 1, key.bits)));
    records.push(Record::new(6, 1, 0, 1, 0));
    let mut accepted = false;
    // a structure's arity in a call is 1 to 255
    let callable = |key: &&Key| key.sort != 4 || (1..=255).contains(&key.arity);
    let calls = [keys.iter().find(callable).copied(), keys.iter().rev().find(callable).copied(), atom(u64::MAX)];
    for call in calls {
        let mut index = Record::bytes(&records);
        tally.boundary += 1;
        let call = argument(call).to_bytes();
        accepted = with_rust::walk_handed_in(p, &call, &mut index, records.len(), 1, tally)?.is_ok();
        if !accepted {
            break;
        }
    }
    Ok(accepted)
}
