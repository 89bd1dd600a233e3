//! Times of building and walking: ours, the original Rust's, and trying every rule, over the same inputs in one process.
//!
//! usage: bench                                  all inputs; writes out/times.csv and prints tables
//!        bench WHAT SIDE CLAUSES ARITY KEYS     a round of one kind on one side, for callgrind (see counts.py)
mod every;
mod inputs;
mod measure;
mod original;
mod ours;
mod report;

use inputs::Input;

fn main() {
    let words: Vec<String> = std::env::args().skip(1).collect();
    match words.as_slice() {
        [] => report::all(),
        [what, side, clauses, arity, keys] => {
            let input = Input::new(clauses.parse().unwrap(), arity.parse().unwrap(), keys == "many");
            measure::only(&input, what, side);
        }
        _ => panic!("usage: bench [WHAT SIDE CLAUSES ARITY KEYS]"),
    }
}
