//! Trying every rule, without an index: each clause's keys against the call's, argument by argument, until one differs.
use crate::inputs::{Input, Key, UNBOUND};

#[inline(never)]
pub fn walk(input: &Input, call: &[Key], out: &mut Vec<u32>) {
    out.clear();
    for (i, keys) in input.keys.chunks_exact(input.arity).enumerate() {
        if keys.iter().zip(call).all(|(k, q)| *q == UNBOUND || k == q) {
            out.push(input.start(i) as u32 + 1);
        }
    }
}
