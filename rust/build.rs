//! Says where libpodrulka.a stands: the folder in the environment variable PODRULKA_LIB, or build/podrulka/lib of this
//! repository, which `make` there fills.
use std::{env, path::PathBuf};

fn main() {
    println!("cargo:rerun-if-env-changed=PODRULKA_LIB");
    let folder = match env::var_os("PODRULKA_LIB") {
        Some(folder) => PathBuf::from(folder),
        None => PathBuf::from(env::var_os("CARGO_MANIFEST_DIR").unwrap()).join("../build/podrulka/lib"),
    };
    let archive = folder.join("libpodrulka.a");
    println!("cargo:rerun-if-changed={}", archive.display());
    if !archive.is_file() {
        panic!("{} is not there: run make in the repository, or set PODRULKA_LIB to its folder", archive.display());
    }
    let folder = folder.canonicalize().unwrap();
    println!("cargo:rustc-link-search=native={}", folder.display());
    println!("cargo:rustc-link-lib=static=podrulka");
}
