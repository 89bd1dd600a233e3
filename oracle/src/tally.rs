//! What was run and compared.
use restated::{Case, Walked};
use std::fmt;

#[derive(Debug, Default, Clone)]
pub struct Tally {
    pub exhaustive: u64,
    pub boundary: u64,
    pub random: u64,
    /// Inputs of the programs; the lines, accepted walks, unstored and stored, and refusals, by number, that they print.
    pub programs: u64,
    pub printed: u64,
    pub printed_walks: [u64; 2],
    pub printed_refused: [u64; 13],
    pub builds: u64,
    pub builds_refused: u64,
    /// Sizes of indexes, and places of faults, with c and without.
    pub sizes: u64,
    pub places: u64,
    /// Accepted walks by case, 1 to 4.
    pub cases: [u64; 5],
    pub walks_refused: u64,
    /// Walks whose answer and whole index were compared with the Rust's, on an index built here.
    pub with_rust: u64,
    /// Walks whose answer alone was compared with the Rust's: the buffer is too small for its index.
    pub answers_with_rust: u64,
    /// Walks on a handed-in index that were compared with the Rust's.
    pub handed_in: u64,
    pub switches: u64,
    pub deaths: u64,
    pub several: u64,
    pub unstored: u64,
    pub repeated: u64,
    pub witnesses: u64,
    pub witnesses_none: u64,
    pub witnesses_refused: u64,
    pub records: u64,
    /// Refusals by number, of build, walk and witness together.
    pub refused: [u64; 13],
}

impl Tally {
    pub fn inputs(&self) -> u64 {
        self.exhaustive + self.boundary + self.random + self.programs
    }

    pub fn walks(&self) -> u64 {
        self.cases.iter().sum()
    }

    pub fn walked(&mut self, walked: &Walked) {
        self.cases[walked.case as usize] += 1;
        self.switches += walked.switches as u64;
        self.deaths += walked.deaths as u64;
        self.several += u64::from(walked.switches + walked.deaths > 1);
        self.unstored += u64::from(!walked.stored);
    }

    /// The refusal numbers that no input reached, those of the programs left out.
    pub fn unreached(&self) -> Vec<usize> {
        (1..=12).filter(|&number| self.refused[number] == 0).collect()
    }
}

impl fmt::Display for Tally {
    fn fmt(&self, f: &mut fmt::Formatter<'_>) -> fmt::Result {
        let n = grouped;
        let parts = [
            ("small exhaustive", self.exhaustive),
            ("boundary", self.boundary),
            ("random", self.random),
            ("programs", self.programs),
        ];
        let parts = parts.map(|(name, number)| format!("{name} {}", n(number))).join(", ");
        writeln!(f, "inputs      {} ({parts})", n(self.inputs()))?;
        writeln!(f, "builds      {} accepted, {} refused", n(self.builds), n(self.builds_refused))?;
        writeln!(f, "sizes       {}; places of faults {}", n(self.sizes), n(self.places))?;
        writeln!(f, "walks       {} accepted, {} refused", n(self.walks()), n(self.walks_refused))?;
        let of = |case: Case| n(self.cases[case as usize]);
        writeln!(
            f,
            "  cases     fail {}, external {}, sequence {}, variadic {}",
            of(Case::Fail),
            of(Case::External),
            of(Case::Sequence),
            of(Case::Variadic)
        )?;
        writeln!(f, "  with the Rust, answer and whole index: {} on built indexes", n(self.with_rust))?;
        writeln!(f, "                                         {} on handed-in indexes", n(self.handed_in))?;
        writeln!(f, "  with the Rust, answer alone (small capacity): {}", n(self.answers_with_rust))?;
        writeln!(f, "  calls made again: {}", n(self.repeated))?;
        writeln!(
            f,
            "expansions  {} to a switch, {} to a dead table; {} walks with several",
            n(self.switches),
            n(self.deaths),
            n(self.several)
        )?;
        writeln!(f, "unstored    {} walks", n(self.unstored))?;
        writeln!(
            f,
            "witnesses   {} accepted ({} with none), {} refused",
            n(self.witnesses),
            n(self.witnesses_none),
            n(self.witnesses_refused)
        )?;
        writeln!(f, "records     {} of indexes compared with the Rust's", n(self.records))?;
        let refusals = |of: &[u64; 13]| (1..=12).map(|i| format!("{i}: {}", n(of[i]))).collect::<Vec<_>>().join("  ");
        writeln!(f, "refusals    {}", refusals(&self.refused))?;
        let [unstored, stored] = self.printed_walks.map(n);
        writeln!(f, "programs    {} lines printed, {stored} walks stored, {unstored} unstored", n(self.printed))?;
        write!(f, "  refusals  {}", refusals(&self.printed_refused))
    }
}

/// A number with commas.
pub fn grouped(number: u64) -> String {
    let digits = number.to_string();
    let mut out = String::new();
    for (i, digit) in digits.chars().enumerate() {
        if i > 0 && (digits.len() - i).is_multiple_of(3) {
            out.push(',');
        }
        out.push(digit);
    }
    out
}
