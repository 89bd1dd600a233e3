//! The restatement behind the archive's signatures: see restated.h. A panic does not leave these functions: it aborts.
use restated::{Program, RECORD, Record, check_build, check_code, fault, whole_index, witnesses};
use std::slice::{from_raw_parts, from_raw_parts_mut};

/// The items that a caller lends; with length 0 the pointer is not read.
unsafe fn read<'a, T>(at: *const T, len: usize) -> &'a [T] {
    if len == 0 { &[] } else { unsafe { from_raw_parts(at, len) } }
}

unsafe fn lent<'a, T>(at: *mut T, len: usize) -> &'a mut [T] {
    if len == 0 { &mut [] } else { unsafe { from_raw_parts_mut(at, len) } }
}

/// Lays an answer, or a refusal's number and zeros, over the result's first places, and gives back the number.
fn lay<const N: usize>(answer: Result<[u64; N], u32>, result: &mut [u64]) -> u32 {
    let mut places = [0; N];
    let number = answer.map(|answer| places = answer).err().unwrap_or(0);
    places[0] += u64::from(number);
    result.iter_mut().zip(places).for_each(|(to, place)| *to = place);
    number
}

/// A function with what all of them are handed before and behind the arguments of its own.
macro_rules! face {
    ($name:ident($($own:ident: $type:ty),*), |$p:ident, $result:ident| $body:expr) => {
        /// # Safety
        /// Each pointer leads to as many items as the length behind it says.
        #[unsafe(no_mangle)]
        pub unsafe extern "C" fn $name(
            code: *const u8, code_len: usize, starts: *const u32, starts_len: usize, arity: u32, mask: u32, flags: u32,
            $($own: $type,)* result: *mut u64, result_len: usize,
        ) -> u32 {
            let (code, starts) = unsafe { (read(code, code_len).to_vec(), read(starts, starts_len).to_vec()) };
            let $p = Program { code, starts, arity, mask, flags, c: 0 };
            let $result = unsafe { lent(result, result_len) };
            $body
        }
    };
}

face!(restated_build(c: u64, index: *mut u8, index_len: usize), |p, result| {
    let (p, index) = (Program { c, ..p }, unsafe { lent(index, index_len) });
    let built = whole_index(&p).and_then(|whole| restated::build(&p, whole, index_len));
    let places = built.map(|built| {
        index[..built.index.len()].copy_from_slice(&built.index);
        [0, (built.index.len() / RECORD) as u64, built.variable]
    });
    lay(places, result)
});

face!(restated_size(c: u64), |p, result| {
    lay(whole_index(&Program { c, ..p }).map(|index| [0, (index.len() / RECORD) as u64]), result)
});

// c 0 is no c; the number stands in result alone
face!(restated_locate(c: u64), |p, result| {
    let p = Program { c, ..p };
    let read = if c == 0 { check_code(&p) } else { check_build(&p) };
    lay(Ok(fault(&p, read.err().unwrap_or(0))), result)
});

face!(
    restated_walk(
        call: *const u8, call_len: usize, index: *mut u8, index_len: usize, count: usize, out: *mut u32, out_len: usize
    ),
    |p, result| {
        let (call, index, out) = unsafe { (read(call, call_len), lent(index, index_len), lent(out, out_len)) };
        let places = restated::walk(&p, call, index, count, out_len).map(|walked| {
            index[..walked.index.len()].copy_from_slice(&walked.index);
            out[..walked.offsets.len()].copy_from_slice(&walked.offsets);
            walked.numbers()
        });
        lay(places, result)
    }
);

face!(restated_agreeing(call: *const u8, call_len: usize), |p, result| {
    let agreeing = witnesses(&p, unsafe { read(call, call_len) });
    let offsets = agreeing.iter().flatten().map(|&offset| u64::from(offset));
    result.iter_mut().skip(2).zip(offsets).for_each(|(to, offset)| *to = offset);
    lay(agreeing.map(|agreeing| [0, agreeing.len() as u64]), result)
});

face!(restated_keys(keys: *mut u8, keys_len: usize), |p, result| {
    let (read, keys) = (check_code(&p), unsafe { lent(keys, keys_len) });
    let asked = read.iter().flat_map(|read| read.keys.iter().flatten());
    for (to, key) in keys.chunks_exact_mut(RECORD).zip(asked) {
        let record = key.map_or(Record::UNBOUND, |key| Record::new(0, key.sort, key.arity, 0, key.bits));
        to.copy_from_slice(&record.to_bytes());
    }
    lay(read.map(|_| [0]), result)
});
