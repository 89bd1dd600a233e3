//! Inputs in words, for a difference.
use crate::damage::Handed;
use podrulka::Record;
use restated::Program;

/// Bytes as records, kind sub half word long; long lists are cut.
pub fn records(name: &str, bytes: &[u8]) -> String {
    const MOST: usize = 80;
    let all = Record::all(bytes);
    let lines = all.iter().take(MOST).map(|r| format!("\n  {} {} {} {} {}", r.kind, r.sub, r.half, r.word, r.long));
    let left = if all.len() > MOST { "\n  ..." } else { "" };
    format!("{name}, {} bytes:{}{left}", bytes.len(), lines.collect::<String>())
}

pub fn program(p: &Program) -> String {
    let starts = p.starts.iter().take(40).map(u32::to_string).collect::<Vec<_>>().join(" ");
    let (arity, mask, flags, c) = (p.arity, p.mask, p.flags, p.c);
    let settings = format!("arity {arity} mask {mask} flags {flags} c {c}, {} starts: {starts}", p.starts.len());
    format!("{settings}\n{}", records("code", &p.code))
}

pub fn handed(h: &Handed) -> String {
    let (call, index) = (records("call", &h.call), records("index", &h.index));
    format!("damaged: {}\n{call}\n{index}\ncount {}, out {}, room {}", program(&h.program), h.count, h.out, h.room)
}
