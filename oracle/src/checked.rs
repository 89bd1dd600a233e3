//! One call of the archive, compared in every number and byte with the restatement.
use crate::lent::Lent;
use crate::tally::Tally;
use podrulka::{Refusal, numbers};
pub use replays::same::{Difference, same, same_bytes};
use restated::{Built, Program, Walked};

/// What out's places hold before a walk.
const OUT: u32 = 0xdead_beef;

/// The records of an accepted call stand in front, and the rest of the buffer is as it was.
fn same_buffer(what: &str, after: &[u8], records: &[u8], before: &[u8]) -> Result<(), Difference> {
    same_bytes(what, &after[..records.len()], records)?;
    same_bytes(&format!("{what}, beyond the records"), &after[records.len()..], &before[records.len()..])
}

/// A refusal: its number, zeros, and no byte changed.
fn refused<const N: usize>(what: &str, result: [u64; N], number: u32, tally: &mut Tally) -> Result<(), Difference> {
    let mut expected = [0; N];
    expected[0] = u64::from(number);
    same(what, result, expected)?;
    tally.refused[number as usize] += 1;
    Ok(())
}

/// The size of the index, whatever the room, and what refuses, with c and without, beside the restatement's.
fn size_and_fault(p: &Program, code: &[u8], whole: &Result<Vec<u8>, u32>, tally: &mut Tally) -> Result<(), Difference> {
    let sized = numbers::size(code, &p.starts, p.arity, p.mask, p.flags, p.c);
    match whole {
        Ok(index) => same("size", sized, [0, index.len() as u64 / 16])?,
        Err(number) => same("size", sized, [u64::from(*number), 0])?,
    }
    let with_c = (p.c != 0).then(|| (p.c, whole.as_ref().err().copied())); // the archive's 0 is no c
    for (c, number) in with_c.into_iter().chain([(0, restated::check_code(p).err())]) {
        let located = numbers::locate(code, &p.starts, p.arity, p.mask, p.flags, c);
        same("what refuses", located, restated::fault(p, number.unwrap_or(0)))?;
        tally.places += u64::from(located[0] >= 5);
    }
    tally.sizes += u64::from(whole.is_ok());
    Ok(())
}

/// Runs the builder, size and locate; the answer is the restatement's, found equal.
pub fn build(p: &Program, index: &mut [u8], tally: &mut Tally) -> Result<Result<Built, u32>, Difference> {
    let before = index.to_vec();
    let shift = index.len() + p.starts.len();
    let (code, mut lent) = (Lent::of(&p.code, shift / 3), Lent::of(index, shift));
    let result = numbers::build(&code, &p.starts, p.arity, p.mask, p.flags, p.c, &mut lent);
    index.copy_from_slice(&lent);
    same("bytes around the index", lent.alone(), true)?;
    let whole = restated::whole_index(p);
    size_and_fault(p, &code, &whole, tally)?;
    let expected = whole.and_then(|whole| restated::build(p, whole, index.len()));
    match &expected {
        Err(number) => {
            refused("build", result, *number, tally)?;
            same("a refused build's index", index == before, true)?;
            tally.builds_refused += 1;
        }
        Ok(built) => {
            same("build", result, [0, built.index.len() as u64 / 16, built.variable])?;
            same_buffer("built index", index, &built.index, &before)?;
            tally.builds += 1;
        }
    }
    let typed = podrulka::Built::from_numbers(result).map(|b| (b.count, u64::from(b.variable_offset)));
    let meant = expected.as_ref().map(|b| (b.index.len() / 16, b.variable));
    same("build by the wrapper", typed, meant.map_err(|&number| Refusal::new(number)))?;
    Ok(expected)
}

/// Runs the walk; the answer is the restatement's, found equal.
pub fn walk(
    p: &Program,
    call: &[u8],
    index: &mut [u8],
    count: usize,
    out: usize,
    tally: &mut Tally,
) -> Result<Result<Walked, u32>, Difference> {
    let expected = restated::walk(p, call, index, count, out);
    let before = index.to_vec();
    let shift = index.len() + p.starts.len() + out;
    let (code, call, mut lent) = (Lent::of(&p.code, shift / 2), Lent::of(call, shift / 3), Lent::of(index, shift));
    let mut places = vec![OUT; out + 2]; // one more on either side
    let out = 1..out + 1;
    let out_lent = &mut places[out.clone()];
    let result = numbers::walk(&code, &p.starts, p.arity, p.mask, p.flags, &call, &mut lent, count, out_lent);
    index.copy_from_slice(&lent);
    same("bytes around the index", lent.alone(), true)?;
    same("places around out", (places[0], places[out.end]), (OUT, OUT))?;
    let out = &places[out];
    match &expected {
        Err(number) => {
            refused("walk", result, *number, tally)?;
            same("a refused walk's index", index == before, true)?;
            same("a refused walk's out", out.iter().all(|&place| place == OUT), true)?;
            tally.walks_refused += 1;
        }
        Ok(walked) => {
            same("walk", result, walked.numbers())?;
            same_buffer("walked index", index, &walked.index, &before)?;
            let selected = walked.offsets.len();
            same("out", &out[..selected], &walked.offsets[..])?;
            same("out's rest", out[selected..].iter().all(|&place| place == OUT), true)?;
            tally.walked(walked);
        }
    }
    same("walk by the wrapper", podrulka::Walked::from_numbers(result), typed(&expected))?;
    Ok(expected)
}

/// The restatement's answer in the wrapper's type.
fn typed(expected: &Result<Walked, u32>) -> Result<podrulka::Walked, Refusal> {
    let w = expected.as_ref().map_err(|&number| Refusal::new(number))?;
    let case = match w.case {
        restated::Case::Fail => podrulka::Case::Fail,
        restated::Case::External => podrulka::Case::External,
        restated::Case::Sequence => podrulka::Case::Sequence,
        restated::Case::Variadic => podrulka::Case::Variadic,
    };
    let (count, records) = (w.offsets.len(), w.index.len() / 16);
    Ok(podrulka::Walked { case, line: w.line, count, tables: w.tables, stored: w.stored, records })
}

/// Runs the witness: some agreeing clause's offset, 0 only if no clause agrees. Gives all agreeing clauses.
pub fn witness(p: &Program, call: &[u8], tally: &mut Tally) -> Result<Result<Vec<u32>, u32>, Difference> {
    let result = numbers::witness(&p.code, &p.starts, p.arity, p.mask, p.flags, call);
    let expected = restated::witnesses(p, call);
    match &expected {
        Err(number) => {
            refused("witness", result, *number, tally)?;
            tally.witnesses_refused += 1;
        }
        Ok(agreeing) => {
            let [number, offset] = result;
            same("witness", number, 0)?;
            let right =
                if offset == 0 { agreeing.is_empty() } else { agreeing.iter().any(|&o| u64::from(o) == offset) };
            if !right {
                return Err(format!("witness: here {offset}, agreeing are {agreeing:?}"));
            }
            tally.witnesses += 1;
            tally.witnesses_none += u64::from(offset == 0);
        }
    }
    Ok(expected)
}
