//! Podrulka for Rust: build an index over compiled Prolog clauses, walk it for calls, ask for a witness.
//!
//! The functions are those of the proved archive `libpodrulka.a` (see `include/podrulka.h`), with slices for pointers and
//! results as types. [`build`], [`walk`], [`witness`] and [`size`] are total: whatever they are handed, they answer or
//! give a [`Refusal`] with a number and, if the code is at fault, the place; a refusal changes neither index nor out.
//! [`locate`] says what refuses before anything is built. Nothing is allocated and nothing is kept between calls.
//!
//! Code, call and index are bytes, 16 to a [`Record`], numbers little-endian. A call needs about [`STACK`] bytes of stack.
//!
//! ```
//! use podrulka::{build, size, walk, Case, Record, Settings, RECORD};
//!
//! // p(7). p(8).  Each clause is a key record and a body record.
//! let code = Record::bytes(&[Record::atom_in(1, 7), Record::BODY, Record::atom_in(1, 8), Record::BODY]);
//! let (starts, settings) = ([0, 2], Settings::new(1));
//! // room for what is built, and for what walks add
//! let records = size(&code, &starts, &settings, 1).unwrap() + 64;
//! let mut index = vec![0; RECORD * records];
//! let built = build(&code, &starts, &settings, 1, &mut index).unwrap();
//!
//! let mut out = [0; 2];
//! let call = Record::bytes(&[Record::atom(8)]);
//! let walked = walk(&code, &starts, &settings, &call, &mut index, built.count, &mut out).unwrap();
//! assert_eq!((walked.case, &out[..walked.count]), (Case::External, &[3][..]));
//! ```
#![deny(missing_docs)]
#![deny(unsafe_op_in_unsafe_fn)]

mod answers;
pub mod numbers;
mod records;

pub use answers::{Built, Case, Place, Refusal, Settings, Walked};
pub use records::Record;

/// Bytes of a record of code, call or index.
pub const RECORD: usize = 16;
/// Most arguments of a predicate.
pub const MAX_ARITY: u32 = 32;
/// Most clauses of a predicate.
pub const MAX_CLAUSES: usize = 1024;
/// Most records of code.
pub const MAX_CODE: usize = 32768;
/// Most records of an index; of a longer buffer no more are used.
pub const MAX_INDEX: usize = 65535;
/// Bytes of stack that are enough for every call.
pub const STACK: usize = 524288;

/// Builds the index of the clauses of `code` that begin at `starts` (numbers of records), with its first switch on
/// argument `c`, counted from 1. Bytes of `index` beyond the built records are left as they were.
///
/// # Errors
/// Numbers 1 to 9, 5 to 8 with the place; `index` is then unchanged. [`size`] says how much 9 lacked.
pub fn build(code: &[u8], starts: &[u32], settings: &Settings, c: u64, index: &mut [u8]) -> Result<Built, Refusal> {
    let (arity, mask, flags) = (settings.arity, settings.mask, settings.flags());
    let built = Built::from_numbers(numbers::build(code, starts, arity, mask, flags, c, index));
    built.map_err(|refusal| refusal.located(code, starts, settings, Some(c)))
}

/// How many records the index has that [`build`] would write, whatever the room. If there are more than [`MAX_INDEX`],
/// no buffer is long enough. Walks add records on demand while there is room for them.
///
/// ```
/// use podrulka::{build, size, Record, Refusal, Settings, RECORD};
///
/// let code = Record::bytes(&[Record::atom_in(1, 7), Record::BODY]);
/// let records = size(&code, &[0], &Settings::new(1), 1).unwrap();
/// let mut index = vec![0; RECORD * records];
/// let short = RECORD * records - 1;
/// assert_eq!(build(&code, &[0], &Settings::new(1), 1, &mut index[..short]), Err(Refusal::new(9)));
/// assert_eq!(build(&code, &[0], &Settings::new(1), 1, &mut index).unwrap().count, records);
/// ```
///
/// # Errors
/// Numbers 1 to 8, 5 to 8 with the place.
pub fn size(code: &[u8], starts: &[u32], settings: &Settings, c: u64) -> Result<usize, Refusal> {
    match numbers::size(code, starts, settings.arity, settings.mask, settings.flags(), c) {
        [0, count] => Ok(count as usize),
        [number, _] => Err(Refusal::new(number as u32).located(code, starts, settings, Some(c))),
    }
}

/// What refuses `code`, `starts` and `c`, and where: one of 1 to 8, the first that applies, and with 5 to 8 the place that
/// is first at fault; None if nothing does. Without `c` one of 1 and 3 to 7: what walks and witnesses check.
///
/// ```
/// use podrulka::{locate, Place, Record, Settings};
///
/// // p(7). p(X).  The second clause has no key at argument 1.
/// let code = Record::bytes(&[Record::atom_in(1, 7), Record::BODY, Record::BODY]);
/// let (starts, settings) = ([0, 2], Settings::new(1));
/// assert_eq!(locate(&code, &starts, &settings, None), None);
/// let refusal = locate(&code, &starts, &settings, Some(1)).unwrap();
/// assert_eq!((refusal.number, refusal.place), (8, Some(Place { clause: 1, record: 2 })));
/// assert_eq!(refusal.to_string(), "refused 8: a clause with no key at the chosen argument (clause 1, record 2)");
/// ```
pub fn locate(code: &[u8], starts: &[u32], settings: &Settings, c: Option<u64>) -> Option<Refusal> {
    let c = match c {
        None => 0,
        Some(0) => u64::MAX, // the archive's 0 is no c; this is refused as 0 is, with 2
        Some(c) => c,
    };
    match numbers::locate(code, starts, settings.arity, settings.mask, settings.flags(), c) {
        [0, ..] => None,
        [number @ 5..=8, clause, record] => {
            let place = Place { clause: clause as usize, record: record as usize };
            Some(Refusal { number: number as u32, place: Some(place) })
        }
        [number, ..] => Some(Refusal::new(number as u32)),
    }
}

/// Walks the first `count` records of `index` for a call, one record for each argument. `code`, `starts` and `settings`
/// are those that the index was built with. Tables are expanded on demand while there is room. The offsets of the
/// selected clauses go to the first places of `out`, in source order; its other places are left as they were. On an index
/// that [`build`] made for this code and these settings and that only walks have written since, every clause that agrees
/// with the call is selected, once, and the case is [`Case::Fail`] only if none agrees. An index from elsewhere is only
/// checked to be well formed: it may leave out clauses. Hand [`Walked::records`] to the next walk.
///
/// # Errors
/// Numbers 1, 3 to 7 and 10 to 12, 5 to 7 with the place; `index` and `out` are then unchanged and the earlier count
/// still holds.
pub fn walk(
    code: &[u8],
    starts: &[u32],
    settings: &Settings,
    call: &[u8],
    index: &mut [u8],
    count: usize,
    out: &mut [u32],
) -> Result<Walked, Refusal> {
    let (arity, mask, flags) = (settings.arity, settings.mask, settings.flags());
    let walked = Walked::from_numbers(numbers::walk(code, starts, arity, mask, flags, call, index, count, out));
    walked.map_err(|refusal| refusal.located(code, starts, settings, None))
}

/// From code and call alone: the offset (start plus 1) of some clause that agrees with the call at every argument, `None`
/// if no clause does.
///
/// # Errors
/// Numbers 1, 3 to 7 and 10, 5 to 7 with the place.
pub fn witness(code: &[u8], starts: &[u32], settings: &Settings, call: &[u8]) -> Result<Option<u32>, Refusal> {
    let (arity, mask, flags) = (settings.arity, settings.mask, settings.flags());
    match numbers::witness(code, starts, arity, mask, flags, call) {
        [0, 0] => Ok(None),
        [0, offset] => Ok(Some(offset as u32)),
        [number, _] => Err(Refusal::new(number as u32).located(code, starts, settings, None)),
    }
}
