//! Takes over from instructions.rs, byte for byte, the data types of the index: from `NextOrFail` up to the arithmetic
//! instructions' functors. The macros and functions that this text uses for printing are stubs of the crate.
use std::{env, fs, path::Path};

const SOURCE: &str = "../../../shared/docs/src/instructions.rs";
const FIRST: &str = "#[derive(Debug, Clone, Copy)]\npub enum NextOrFail {";
const PAST: &str = "fn arith_instr_unary_functor(";

fn main() {
    println!("cargo::rerun-if-changed={SOURCE}");
    println!("cargo::rerun-if-changed=build.rs");

    let text = fs::read_to_string(SOURCE).expect(SOURCE);
    let first = text.find(FIRST).expect("the first data type");
    let past = first + text[first..].find(PAST).expect("the end of the data types");
    let out = Path::new(&env::var_os("OUT_DIR").unwrap()).join("index_types.rs");

    fs::write(out, &text[first..past]).unwrap();
}
