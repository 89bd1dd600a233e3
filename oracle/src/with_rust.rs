//! The archive beside the original Rust files: builds, walks on built indexes, walks on handed-in ones.
use crate::checked::{self, Difference, same, same_bytes};
use crate::tally::Tally;
use original::Predicate;
use podrulka::{MAX_INDEX, numbers};
use replays::beside::{same_answer, same_handed_in, settings};
use restated::{Program, Walked};

/// The byte of a buffer that no call has written.
pub const FILL: u8 = 0xa5;

/// A built index here and there.
#[derive(Clone)]
pub struct Fresh {
    pub index: Vec<u8>,
    pub rust: Predicate,
}

/// Builds here and there in a buffer of so many bytes; a refusal's number if it is refused here. The size is the Rust's
/// also where the buffer is too small.
pub fn build(p: &Program, bytes: usize, tally: &mut Tally) -> Result<Result<Fresh, u32>, Difference> {
    let mut buffer = vec![FILL; bytes];
    let built = match checked::build(p, &mut buffer, tally)? {
        Err(number) if number != 9 => return Ok(Err(number)),
        built => built,
    };
    let (rust, variable) = Predicate::build(&p.code, &p.starts, &settings(p), p.c as usize);
    let index = rust.index();
    let sized = numbers::size(&p.code, &p.starts, p.arity, p.mask, p.flags, p.c);
    same("the Rust's size", sized, [0, index.len() as u64 / 16])?;
    let built = match built {
        Err(number) => return Ok(Err(number)),
        Ok(built) => built,
    };
    same("the Rust's variable offset", built.variable, variable as u64)?;
    same_bytes("the Rust's index", &built.index, &index)?;
    tally.records += index.len() as u64 / 16;
    Ok(Ok(Fresh { index, rust }))
}

/// Walks here and there on an index that both built, in a buffer that has room for the Rust's index and `slack` bytes
/// more. The index here is the Rust's again afterwards, unless that has outgrown 65,535 records.
pub fn walk(
    p: &Program,
    fresh: &mut Fresh,
    call: &[u8],
    slack: usize,
    tally: &mut Tally,
) -> Result<Walked, Difference> {
    let answer = fresh.rust.walk(call);
    let after = fresh.rust.index();
    let count = fresh.index.len() / 16;
    fresh.index.resize(after.len().min(16 * MAX_INDEX) + slack, FILL);
    let walked = checked::walk(p, call, &mut fresh.index, count, p.starts.len() + slack % 3, tally)?
        .map_err(|number| format!("a walk on the index built here is refused with {number}"))?;
    fresh.index.truncate(walked.index.len());
    same_answer(&walked, &answer)?;
    if after.len() > 16 * MAX_INDEX {
        tally.answers_with_rust += 1;
        return Ok(walked);
    }
    same("the Rust's line", walked.line, answer.line)?;
    same("the mark", walked.stored, true)?;
    same_bytes("the Rust's index after the walk", &walked.index, &after)?;
    tally.with_rust += 1;
    tally.records += after.len() as u64 / 16;
    Ok(walked)
}

/// A walk on whatever was handed in. If it is accepted, the Rust walks on the same records too.
pub fn walk_handed_in(
    p: &Program,
    call: &[u8],
    index: &mut [u8],
    count: usize,
    out: usize,
    tally: &mut Tally,
) -> Result<Result<Walked, u32>, Difference> {
    let before = index.to_vec();
    let walked = match checked::walk(p, call, index, count, out, tally)? {
        Err(number) => return Ok(Err(number)),
        Ok(walked) => walked,
    };
    same_handed_in(p, call, &before[..16 * count], &walked)?;
    if walked.stored {
        tally.records += walked.index.len() as u64 / 16;
        tally.handed_in += 1;
    } else {
        tally.answers_with_rust += 1;
    }
    Ok(Ok(walked))
}
