//! The archive's functions with slices for pointers and nothing else changed: settings as numbers, results as the array
//! that the archive fills (`enum podrulka_built`, `podrulka_walked`, `podrulka_witnessed`, `podrulka_sized` and
//! `podrulka_located` of `podrulka.h` name its places; place 0 is the number, 0 if accepted). For programs that look at
//! every number; others use the functions of the crate itself.

#[rustfmt::skip]
extern "C" {
    fn podrulka_build(
        code: *const u8, code_len: usize, starts: *const u32, starts_len: usize,
        arity: u32, mask: u32, flags: u32, c: u64,
        index: *mut u8, index_len: usize, result: *mut u64, result_len: usize,
    ) -> u32;

    fn podrulka_walk(
        code: *const u8, code_len: usize, starts: *const u32, starts_len: usize,
        arity: u32, mask: u32, flags: u32, call: *const u8, call_len: usize,
        index: *mut u8, index_len: usize, count: usize, out: *mut u32, out_len: usize,
        result: *mut u64, result_len: usize,
    ) -> u32;

    fn podrulka_witness(
        code: *const u8, code_len: usize, starts: *const u32, starts_len: usize,
        arity: u32, mask: u32, flags: u32, call: *const u8, call_len: usize,
        result: *mut u64, result_len: usize,
    ) -> u32;

    fn podrulka_size(
        code: *const u8, code_len: usize, starts: *const u32, starts_len: usize,
        arity: u32, mask: u32, flags: u32, c: u64,
        result: *mut u64, result_len: usize,
    ) -> u32;

    fn podrulka_locate(
        code: *const u8, code_len: usize, starts: *const u32, starts_len: usize,
        arity: u32, mask: u32, flags: u32, c: u64,
        result: *mut u64, result_len: usize,
    ) -> u32;
}

/// Flag of the settings: every bucket is a line of its own.
pub const DYNAMIC: u32 = 1;
/// Flag of the settings: lines keep a dead table for an argument that some clause leaves open.
pub const EXTENSIBLE: u32 = 2;
/// Flag of the settings: DefaultRetry and DefaultTrust.
pub const NON_COUNTED: u32 = 4;
/// Flag of the settings: the variable offset is 2.
pub const SKIP: u32 = 8;

// What the archive asks of its caller holds in every function below: a slice leads to as many items as it says, and its
// pointer is never null; index, out and result are borrowed alone, so they overlap nothing and nobody else writes them.
// The archive's functions probe their stack, so one that is too small ends in the guard page.

/// `podrulka_build`: number, count, variable offset.
pub fn build(code: &[u8], starts: &[u32], arity: u32, mask: u32, flags: u32, c: u64, index: &mut [u8]) -> [u64; 3] {
    let mut result = [u64::MAX; 3];
    // SAFETY: see above.
    let number = unsafe {
        podrulka_build(
            code.as_ptr(),
            code.len(),
            starts.as_ptr(),
            starts.len(),
            arity,
            mask,
            flags,
            c,
            index.as_mut_ptr(),
            index.len(),
            result.as_mut_ptr(),
            result.len(),
        )
    };
    same(number, result[0]);
    result
}

/// `podrulka_walk`: number, case, line, count, tables, mark, records.
#[allow(clippy::too_many_arguments)]
pub fn walk(
    code: &[u8],
    starts: &[u32],
    arity: u32,
    mask: u32,
    flags: u32,
    call: &[u8],
    index: &mut [u8],
    count: usize,
    out: &mut [u32],
) -> [u64; 7] {
    let mut result = [u64::MAX; 7];
    // SAFETY: see above.
    let number = unsafe {
        podrulka_walk(
            code.as_ptr(),
            code.len(),
            starts.as_ptr(),
            starts.len(),
            arity,
            mask,
            flags,
            call.as_ptr(),
            call.len(),
            index.as_mut_ptr(),
            index.len(),
            count,
            out.as_mut_ptr(),
            out.len(),
            result.as_mut_ptr(),
            result.len(),
        )
    };
    same(number, result[0]);
    result
}

/// `podrulka_witness`: number, offset.
pub fn witness(code: &[u8], starts: &[u32], arity: u32, mask: u32, flags: u32, call: &[u8]) -> [u64; 2] {
    let mut result = [u64::MAX; 2];
    // SAFETY: see above.
    let number = unsafe {
        podrulka_witness(
            code.as_ptr(),
            code.len(),
            starts.as_ptr(),
            starts.len(),
            arity,
            mask,
            flags,
            call.as_ptr(),
            call.len(),
            result.as_mut_ptr(),
            result.len(),
        )
    };
    same(number, result[0]);
    result
}

/// `podrulka_size`: number, count.
pub fn size(code: &[u8], starts: &[u32], arity: u32, mask: u32, flags: u32, c: u64) -> [u64; 2] {
    let mut result = [u64::MAX; 2];
    // SAFETY: see above.
    let number = unsafe {
        podrulka_size(
            code.as_ptr(),
            code.len(),
            starts.as_ptr(),
            starts.len(),
            arity,
            mask,
            flags,
            c,
            result.as_mut_ptr(),
            result.len(),
        )
    };
    same(number, result[0]);
    result
}

/// `podrulka_locate`: the number of what refuses, clause, record. `c` 0: without c.
pub fn locate(code: &[u8], starts: &[u32], arity: u32, mask: u32, flags: u32, c: u64) -> [u64; 3] {
    let mut result = [u64::MAX; 3];
    // SAFETY: see above.
    let number = unsafe {
        podrulka_locate(
            code.as_ptr(),
            code.len(),
            starts.as_ptr(),
            starts.len(),
            arity,
            mask,
            flags,
            c,
            result.as_mut_ptr(),
            result.len(),
        )
    };
    debug_assert_eq!(number, 0, "it reports and never refuses");
    result
}

/// The archive returns the number that it also lays at the result's first place.
fn same(returned: u32, laid: u64) {
    debug_assert_eq!(u64::from(returned), laid);
}

#[cfg(test)]
mod tests {
    use super::*;
    use crate::Record;

    /// A result is laid over as many places as there are, and no further.
    #[test]
    fn results_of_any_length() {
        let code = Record::bytes(&[Record::list_in(1), Record::BODY]);
        for places in 0..6 {
            let (mut index, mut result) = ([0; 160], [77; 6]);
            // SAFETY: see above; the result has at least so many places.
            let number = unsafe {
                let (code, len) = (code.as_ptr(), code.len());
                let (index, room) = (index.as_mut_ptr(), index.len());
                podrulka_build(code, len, [0].as_ptr(), 1, 1, 0, 0, 1, index, room, result.as_mut_ptr(), places)
            };
            let laid = places.min(3);
            assert_eq!((number, &result[..laid]), (0, &[0, 4, 1][..laid]));
            assert!(result[laid..].iter().all(|&place| place == 77));
        }
    }

    /// The same of size and locate: the second clause's register is 0.
    #[test]
    fn sizes_and_places_of_any_length() {
        let wrong = [Record::list_in(1), Record::BODY, Record::list_in(0), Record::BODY];
        let (right, wrong) = (Record::bytes(&wrong[..2]), Record::bytes(&wrong));
        for places in 0..6 {
            let (mut sized, mut located) = ([77; 6], [77; 6]);
            // SAFETY: see above; the results have at least so many places.
            let numbers = unsafe {
                let sized = sized.as_mut_ptr();
                let located = located.as_mut_ptr();
                let (right, wrong, len) = (right.as_ptr(), wrong.as_ptr(), wrong.len());
                (
                    podrulka_size(right, len / 2, [0].as_ptr(), 1, 1, 0, 0, 1, sized, places),
                    podrulka_locate(wrong, len, [0, 2].as_ptr(), 2, 1, 0, 0, 1, located, places),
                )
            };
            assert_eq!(numbers, (0, 0));
            for (result, expected) in [(sized, &[0, 4][..]), (located, &[7, 1, 2])] {
                let laid = places.min(expected.len());
                assert_eq!(result[..laid], expected[..laid]);
                assert!(result[laid..].iter().all(|&place| place == 77));
            }
        }
    }

    /// Flags beyond the four are not read.
    #[test]
    fn other_flags_are_not_read() {
        let code = Record::bytes(&[Record::list_in(1), Record::BODY]);
        for flags in 0..16 {
            let (mut few, mut many) = ([0; 160], [0; 160]);
            let plain = build(&code, &[0], 1, 0, flags, 1, &mut few);
            assert_eq!(build(&code, &[0], 1, u32::MAX, flags | !15, 1, &mut many), plain);
            assert_eq!(few, many);
            assert_eq!(size(&code, &[0], 1, u32::MAX, flags | !15, 1), [0, plain[1]]);
        }
    }
}
