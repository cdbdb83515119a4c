//! Counts comparisons and prints the first that fail.

use std::fmt::{Debug, Display};

/// So many failures are printed, and so many characters of each value on either side of the first difference.
const PRINTED: (u64, usize) = (20, 300);

#[derive(Default)]
pub struct Tally {
    passed: u64,
    failed: u64,
}

impl Tally {
    /// Whether the two are equal.
    pub fn same<T: PartialEq + Debug>(&mut self, what: impl Display, got: T, expected: T) -> bool {
        if got == expected {
            self.passed += 1;
            return true;
        }
        self.failed += 1;
        if self.failed <= PRINTED.0 {
            let [expected, got] = [expected, got].map(|value| format!("{value:?}").chars().collect::<Vec<char>>());
            let equal = expected.iter().zip(&got).take_while(|(a, b)| a == b).count();
            let (from, to) = (equal.saturating_sub(PRINTED.1), equal + PRINTED.1);
            let near = |all: &[char]| all[from..all.len().min(to)].iter().collect::<String>();
            println!("FAILED {:.3000}", what.to_string());
            println!("    expected {}\n    got      {}", near(&expected), near(&got));
        }
        false
    }

    /// Prints the sum as the last line and ends the test.
    pub fn end(self) -> ! {
        println!("{} passed, {} failed", self.passed, self.failed);
        std::process::exit(if self.failed > 0 || self.passed == 0 { 1 } else { 0 });
    }
}
