//! The restatement's answers beside those of the original Rust.
use crate::printed::{Called, Run};
use crate::same::{Difference, same, same_bytes};
use original::{Answer, Predicate, Settings};
use restated::{Case, Program, Walked};

pub fn settings(p: &Program) -> Settings {
    Settings {
        arity: p.arity as usize,
        mask: p.mask,
        dynamic: p.dynamic(),
        extensible: p.extensible(),
        non_counted: p.non_counted(),
        skip: p.skip(),
    }
}

/// Case, offsets and tables beside the Rust's.
pub fn same_answer(walked: &Walked, rust: &Answer) -> Result<(), Difference> {
    let case = match rust.case {
        original::Case::Fail => Case::Fail,
        original::Case::External => Case::External,
        original::Case::Sequence => Case::Sequence,
        original::Case::Variadic => Case::Variadic,
    };
    same("the Rust's case", walked.case, case)?;
    same("the Rust's offsets", &walked.offsets, &rust.offsets)?;
    same("the Rust's tables", walked.tables, rust.tables)
}

/// An accepted walk on an index that was handed in, whose records these are: the Rust walks on them too. Its entries stand in no
/// order of their own, so both indexes are put in the order of keys first.
pub fn same_handed_in(p: &Program, call: &[u8], index: &[u8], walked: &Walked) -> Result<(), Difference> {
    let mut rust = Predicate::handed_in(&p.code, &settings(p), index);
    let answer = rust.walk(call);
    same_answer(walked, &answer)?;
    if !walked.stored {
        return Ok(());
    }
    same("the Rust's line", walked.line, answer.line)?;
    same_bytes("the Rust's handed-in index after the walk", &by_keys(&walked.index), &by_keys(&rust.index()))
}

/// The records of an index with each switch's entries in the order of group and key.
fn by_keys(index: &[u8]) -> Vec<u8> {
    let mut records: Vec<[u8; 16]> = index.chunks_exact(16).map(|chunk| chunk.try_into().unwrap()).collect();
    for run in records.chunk_by_mut(|a, b| a[0] == 5 && b[0] == 5) {
        if run[0][0] == 5 {
            run.sort_by_key(|r| (r[1], [r[2], r[3]], <[u8; 8]>::try_from(&r[8..]).unwrap()));
        }
    }
    records.concat()
}

/// A run's accepted answers beside the Rust's: the built index with its variable offset, and each walk.
pub fn same_run(run: &Run) -> Result<(), Difference> {
    let p = &run.input.program;
    let walks = run.calls.iter().filter_map(|called| Some((called, called.answer.as_ref().ok()?)));
    let index = match &run.first {
        Err(_) => return Ok(()),
        Ok(_) if run.input.given.is_some() => {
            let handed_in = |called: &Called, walked| same_handed_in(p, &called.call, &called.before, walked);
            return walks.into_iter().try_for_each(|(called, walked)| handed_in(called, walked));
        }
        Ok(index) => index,
    };
    let (mut rust, variable) = Predicate::build(&p.code, &p.starts, &settings(p), p.c as usize);
    same("the Rust's variable offset", run.variable(), variable)?;
    same_bytes("the Rust's index", index, &rust.index())?;
    let mut stored = true; // from the first unstored walk on the Rust's index has more
    for (called, walked) in walks {
        let answer = rust.walk(&called.call);
        same_answer(walked, &answer)?;
        stored &= walked.stored;
        if stored {
            same("the Rust's line", walked.line, answer.line)?;
            same_bytes("the Rust's index after the walk", &walked.index, &rust.index())?;
        }
    }
    Ok(())
}
