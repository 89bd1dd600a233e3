//! The stored replays compared with the restatement, written by it, and added to. See ../README.md.
use replays::stored::{add, all};
use std::process::ExitCode;

const USAGE: &str = "usage: replays [write | add replay_lines|replay_walks|replay_keys FILE]";

fn main() -> ExitCode {
    let args: Vec<String> = std::env::args().skip(1).collect();
    let words: Vec<&str> = args.iter().map(String::as_str).collect();
    let done = match words[..] {
        [] => all(false),
        ["write"] => all(true),
        ["add", name, path] => add(name, path).inspect(|number| println!("{path} is input {number} of {name}")),
        _ => {
            eprintln!("{USAGE}");
            return ExitCode::from(2);
        }
    };
    match done {
        Ok(_) => ExitCode::SUCCESS,
        Err(difference) => {
            println!("{difference}");
            ExitCode::FAILURE
        }
    }
}
