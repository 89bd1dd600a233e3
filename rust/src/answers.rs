//! Settings, and the archive's numbers taken apart.
use crate::locate;
use crate::numbers::{DYNAMIC, EXTENSIBLE, NON_COUNTED, SKIP};
use std::fmt;

/// Settings of a predicate, the same for its build and all its walks.
#[derive(Debug, Clone, Copy, PartialEq, Eq, Hash)]
pub struct Settings {
    /// Arguments of the predicate, 1 to 32.
    pub arity: u32,
    /// Bit i set: argument i + 1 is never indexed on demand. Bits from the arity up are not read.
    pub mask: u32,
    /// A predicate whose clauses may change: every bucket is a line of its own.
    pub dynamic: bool,
    /// Lines keep a dead table for an argument that some clause leaves open.
    pub extensible: bool,
    /// Choice points that inferences do not count: DefaultRetry and DefaultTrust.
    pub non_counted: bool,
    /// The variable offset is 2, not 1.
    pub skip: bool,
}

impl Settings {
    /// A static predicate with every argument indexed on demand and all else off.
    pub const fn new(arity: u32) -> Self {
        Settings { arity, mask: 0, dynamic: false, extensible: false, non_counted: false, skip: false }
    }

    /// The flags as the archive takes them.
    pub const fn flags(&self) -> u32 {
        let all = [
            (self.dynamic, DYNAMIC),
            (self.extensible, EXTENSIBLE),
            (self.non_counted, NON_COUNTED),
            (self.skip, SKIP),
        ];
        let (mut flags, mut i) = (0, 0);
        while i < all.len() {
            if all[i].0 {
                flags |= all[i].1;
            }
            i += 1;
        }
        flags
    }
}

/// An accepted build.
#[derive(Debug, Clone, Copy, PartialEq, Eq, Hash)]
pub struct Built {
    /// Records of the index.
    pub count: usize,
    /// The variable offset: 1, or 2 with skip.
    pub variable_offset: u32,
}

impl Built {
    /// The numbers of [`numbers::build`](crate::numbers::build) taken apart.
    ///
    /// # Errors
    /// The refusal, if they are one's; it has no place, which [`Refusal::located`] adds.
    pub fn from_numbers(result: [u64; 3]) -> Result<Built, Refusal> {
        match result {
            [0, count, variable] => Ok(Built { count: count as usize, variable_offset: variable as u32 }),
            [number, ..] => Err(Refusal::new(number as u32)),
        }
    }
}

/// How a walk ended.
#[derive(Debug, Clone, Copy, PartialEq, Eq, Hash)]
pub enum Case {
    /// Nothing is left to try; on an index built here no clause agrees.
    Fail,
    /// One clause is left to try.
    External,
    /// The clauses of one line.
    Sequence,
    /// All clauses of line 0, which on an index built here are all clauses: no argument decided.
    Variadic,
}

/// An accepted walk.
#[derive(Debug, Clone, Copy, PartialEq, Eq, Hash)]
pub struct Walked {
    /// How it ended.
    pub case: Case,
    /// The stored line of a Sequence, else 0.
    pub line: usize,
    /// How many of out's first places hold the selected clauses' offsets.
    pub count: usize,
    /// Tables looked at.
    pub tables: usize,
    /// Whether every expansion of this walk is stored in the index. The answer is the same either way.
    pub stored: bool,
    /// The index's new record count: hand it to the next walk.
    pub records: usize,
}

impl Walked {
    /// The numbers of [`numbers::walk`](crate::numbers::walk) taken apart.
    ///
    /// # Errors
    /// The refusal, if they are one's; it has no place, which [`Refusal::located`] adds.
    ///
    /// # Panics
    /// If no walk gives these numbers: number 0 with a case that is not 1 to 4.
    pub fn from_numbers(result: [u64; 7]) -> Result<Walked, Refusal> {
        let [0, case, line, count, tables, mark, records] = result else {
            return Err(Refusal::new(result[0] as u32));
        };
        let case = match case {
            1 => Case::Fail,
            2 => Case::External,
            3 => Case::Sequence,
            4 => Case::Variadic,
            other => unreachable!("case {other}"),
        };
        let [line, count, tables, records] = [line, count, tables, records].map(|n| n as usize);
        Ok(Walked { case, line, count, tables, stored: mark == 0, records })
    }
}

/// Where the code is first at fault.
#[derive(Debug, Clone, Copy, PartialEq, Eq, Hash)]
pub struct Place {
    /// The first clause that is refused, counted from 0: the one that begins at `starts[clause]`.
    pub clause: usize,
    /// The record of the code, counted from 0. With 5 the clause's last record, with 6 and 7 the record that is wrong,
    /// with 8 the clause's first body record.
    pub record: usize,
}

/// A refusal: its number, the first that applies, and the place of what it refuses.
#[derive(Debug, Clone, Copy, PartialEq, Eq, Hash)]
pub struct Refusal {
    /// The number, 1 to 12.
    pub number: u32,
    /// With 5 to 8 where the code is first at fault. None with the other numbers, and in what `from_numbers` gives.
    pub place: Option<Place>,
}

impl Refusal {
    /// A refusal without a place.
    pub const fn new(number: u32) -> Self {
        Refusal { number, place: None }
    }

    /// The refusal with its place, if it has 5 to 8. All else is what the refused call was handed; `c` is None after a
    /// walk or a witness. For programs that use [`numbers`](crate::numbers); the crate's functions have done it.
    ///
    /// ```
    /// use podrulka::{numbers, Place, Record, Refusal, Settings, Walked};
    ///
    /// let code = Record::bytes(&[Record::BODY, Record::atom_in(2, 7), Record::BODY]); // no register 2 with arity 1
    /// let result = numbers::walk(&code, &[0, 1], 1, 0, 0, &[], &mut [], 0, &mut []);
    /// let refusal = Walked::from_numbers(result).unwrap_err();
    /// assert_eq!(refusal, Refusal { number: 7, place: None });
    /// let place = refusal.located(&code, &[0, 1], &Settings::new(1), None).place;
    /// assert_eq!(place, Some(Place { clause: 1, record: 1 }));
    /// ```
    pub fn located(self, code: &[u8], starts: &[u32], settings: &Settings, c: Option<u64>) -> Self {
        if !(5..=8).contains(&self.number) {
            return self;
        }
        match locate(code, starts, settings, c) {
            Some(found) if found.number == self.number => found,
            _ => self,
        }
    }

    /// What the number says, in words.
    pub fn reason(self) -> &'static str {
        match self.number {
            1 => "the arity is not 1 to 32",
            2 => "the chosen argument is 0 or above the arity",
            3 => "the code is not whole records, or more than 32,768 of them",
            4 => "no starts, more than 1,024, not strictly rising, or one at or past the code's end",
            5 => "a clause without a body record",
            6 => "a keyed record with a wrong field",
            7 => "a register that is 0, above the arity, or not above that of an earlier key of the clause",
            8 => "a clause with no key at the chosen argument",
            9 => "the built index has more records than the buffer has room for",
            10 => "the call is not one well-made record for each argument",
            11 => "out has fewer places than there are clauses",
            12 => "the record count is above the capacity, or the records are not a well-formed index",
            _ => "no such number",
        }
    }
}

impl fmt::Display for Refusal {
    fn fmt(&self, f: &mut fmt::Formatter<'_>) -> fmt::Result {
        write!(f, "refused {}: {}", self.number, self.reason())?;
        match self.place {
            Some(Place { clause, record }) => write!(f, " (clause {clause}, record {record})"),
            None => Ok(()),
        }
    }
}

impl std::error::Error for Refusal {}

#[cfg(test)]
mod tests {
    use super::*;

    /// The flags' values are those of `enum podrulka_flag`.
    #[test]
    fn flags_of_settings() {
        let off = Settings::new(3);
        assert_eq!(off.flags(), 0);
        assert_eq!(Settings { dynamic: true, ..off }.flags(), 1);
        assert_eq!(Settings { extensible: true, ..off }.flags(), 2);
        assert_eq!(Settings { non_counted: true, ..off }.flags(), 4);
        assert_eq!(Settings { skip: true, ..off }.flags(), 8);
        assert_eq!(Settings { dynamic: true, extensible: true, non_counted: true, skip: true, ..off }.flags(), 15);
    }

    /// Each number goes to its field, and a refusal's to the refusal.
    #[test]
    fn numbers_taken_apart() {
        let walked = Walked { case: Case::Sequence, line: 1, count: 2, tables: 4, stored: false, records: 5 };
        assert_eq!(Walked::from_numbers([0, 3, 1, 2, 4, 1, 5]), Ok(walked));
        assert_eq!(Walked::from_numbers([12, 0, 0, 0, 0, 0, 0]), Err(Refusal::new(12)));
        assert_eq!(Built::from_numbers([0, 12, 2]), Ok(Built { count: 12, variable_offset: 2 }));
        assert_eq!(Built::from_numbers([9, 0, 0]), Err(Refusal::new(9)));
    }
}
