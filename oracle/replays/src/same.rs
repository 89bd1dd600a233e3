//! Comparisons, with a difference in words.
use restated::Record;
use std::fmt::Debug;

/// A difference, in words.
pub type Difference = String;

pub fn same<T: PartialEq + Debug>(what: &str, ours: T, theirs: T) -> Result<(), Difference> {
    if ours == theirs { Ok(()) } else { Err(format!("{what}: here {ours:?}, there {theirs:?}")) }
}

/// Two buffers; the first record that differs is named.
pub fn same_bytes(what: &str, ours: &[u8], theirs: &[u8]) -> Result<(), Difference> {
    if ours == theirs {
        return Ok(());
    }
    let shown = |bytes: &[u8], at: usize| match bytes.get(16 * at..16 * at + 16) {
        Some(record) => format!("{:?}", Record::from_bytes(record.try_into().unwrap())),
        None => format!("{} bytes", bytes.len().saturating_sub(16 * at)),
    };
    let at = ours.iter().zip(theirs).take_while(|(a, b)| a == b).count() / 16;
    let (here, there) = (shown(ours, at), shown(theirs, at));
    Err(format!("{what}, lengths {} and {}, record {at}: here {here}, there {there}", ours.len(), theirs.len()))
}

/// Two texts; the first line that differs is named.
pub fn same_text(what: &str, ours: &str, theirs: &str) -> Result<(), Difference> {
    if ours == theirs {
        return Ok(());
    }
    let at = ours.lines().zip(theirs.lines()).take_while(|(a, b)| a == b).count();
    let (here, there) = (ours.lines().nth(at), theirs.lines().nth(at));
    Err(format!("{what}, lengths {} and {}, line {}: here {here:?}, there {there:?}", ours.len(), theirs.len(), at + 1))
}
