//! What was tried, what came of it, and what is said where the library and the model differ.

use std::fmt::Debug;

use crate::border::{Called, Told, CASE, SEED};

/// Each operation, with the answers that the papers give it: every one has to come, and no other may. Those of the listing are told by its text, and 5 by an
/// output that the text does not fit. Those of appending tell besides whether the header was true, and which limit was passed, where it was one alone; those of
/// replacing and of its preview, whether fewer bytes, as many or more are then in use, and also which limit of 2 was passed.
const OPERATIONS: [(&str, &[&str]); 17] = [
    ("write", &["0", "1", "4", "3", "5"]),
    ("read", &["0", "1", "2", "4", "7", "6", "5"]),
    ("table_read", &["0", "2", "4", "7", "6", "5"]),
    ("table_read_bytes", &["0", "2", "4", "7", "6", "5"]),
    ("dense_write", &["0", "16", "4", "3", "5"]),
    ("dense_read", &["0", "16", "2", "4", "7", "17", "5"]),
    ("header", &["0", "1", "2", "4", "7", "6"]),
    ("append", &["0 (true)", "0 (false)", "1", "18 (buffer)", "18 (bits)", "18 (count)", "18 (total)", "18", "3", "4", "5 (buffer)", "5 (bits)", "5"]),
    ("replace", &REPLACE_ANSWERS),
    ("preview", &REPLACE_ANSWERS),
    ("total", &["0", "1", "2", "4", "7", "6", "8"]),
    ("repeated_total", &["0", "1", "2", "4", "7", "6", "14", "15"]),
    ("build", &["0", "1", "9", "4", "10", "5"]),
    ("extract", &["0", "1", "9", "4", "11", "8"]),
    ("rank", &["0", "1", "9", "4", "11", "10", "8"]),
    ("select", &["0", "1", "9", "4", "11", "10", "8", "12"]),
    ("listing", &["a listing", "NO 4", "NO 13", "NO 1", "NO 3", "5"]),
];

const REPLACE_ANSWERS: [&str; 13] = ["0 (fewer)", "0 (as many)", "0 (more)", "1", "2 (buffer)", "2 (bytes)", "2", "4", "7", "6", "8", "3", "5"];

pub struct Ledger {
    seed: u64,
    case: u64,
    /// For each operation, how often each of its answers came.
    counts: Vec<Vec<u64>>,
}

/// Says which case went wrong, with what it takes to repeat it, and ends the program.
fn fail(operation: &str, ledger: &Ledger, what: &str, arguments: &str, sides: &[(&str, String)]) -> ! {
    println!("tests/differ: FAILED: {operation}: {what}");
    println!("  seed {}, case {} (tests/run-differ {} repeats it)", ledger.seed, ledger.case, ledger.seed);
    println!("  {arguments}");
    for (side, value) in sides {
        println!("  {side}: {value}");
    }
    std::process::exit(1)
}

impl Ledger {
    pub fn new() -> Ledger {
        let counts = OPERATIONS.iter().map(|(_, answers)| vec![0; answers.len()]).collect();
        Ledger { seed: 0, case: 0, counts }
    }

    pub fn begin(&mut self, seed: u64) {
        self.seed = seed;
        self.case = 0;
        SEED.with(|kept| kept.set(seed));
    }

    /// Holds what a call left to what the model tells, and to its output. The arguments are told only where there is a difference.
    pub fn compare<O: PartialEq + Debug>(
        &mut self,
        operation: &str,
        answer: &str,
        called: &Called<O>,
        told: Told,
        output: &[O],
        arguments: impl Fn() -> String,
    ) {
        self.case += 1;
        CASE.with(|kept| kept.set(self.case));
        if let Some(fault) = called.fault {
            fail(operation, self, fault, &arguments(), &[]);
        }
        let expected = called.expected(told);
        if called.answer != expected {
            let sides = [("library", format!("{:?}", called.answer)), ("model", format!("{expected:?}"))];
            fail(operation, self, "another answer", &arguments(), &sides);
        }
        if called.output != output {
            let place = called.output.iter().zip(output).position(|(a, b)| a != b).unwrap_or(0);
            let what = format!("another output, first at element {place}");
            let sides = [("library", format!("{:?}", called.output)), ("model", format!("{output:?}"))];
            fail(operation, self, &what, &arguments(), &sides);
        }
        let at = OPERATIONS.iter().position(|(name, _)| *name == operation).unwrap();
        match OPERATIONS[at].1.iter().position(|one| *one == answer) {
            Some(one) => self.counts[at][one] += 1,
            None => fail(operation, self, &format!("{answer} is no answer of the operation"), &arguments(), &[]),
        }
    }

    /// Holds two of the library's own results to each other.
    pub fn same<T: PartialEq + Debug>(&mut self, what: &str, one: T, other: T, arguments: impl Fn() -> String) {
        if one != other {
            let sides = [("one", format!("{one:?}")), ("other", format!("{other:?}"))];
            fail(what, self, "not the same", &arguments(), &sides);
        }
    }

    /// What another ledger has counted, too.
    pub fn add(&mut self, other: &Ledger) {
        for (counts, more) in self.counts.iter_mut().zip(&other.counts) {
            for (count, more) in counts.iter_mut().zip(more) {
                *count += more;
            }
        }
    }

    /// A line for each operation, and whether each answer came.
    pub fn end(&self) -> bool {
        let mut all = true;
        for ((operation, answers), counts) in OPERATIONS.iter().zip(&self.counts) {
            let inputs: u64 = counts.iter().sum();
            let each: Vec<String> = answers.iter().zip(counts).map(|(answer, count)| format!("{answer}: {count}")).collect();
            println!("{operation:<17}{inputs:>9} inputs; {}", each.join(", "));
            for (answer, count) in answers.iter().zip(counts) {
                if *count == 0 {
                    println!("tests/differ: FAILED: {operation}: the answer {answer} never came");
                    all = false;
                }
            }
        }
        all
    }
}
