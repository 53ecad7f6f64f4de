//! Counts of what was compared, a line for each function.

use crate::trials::Trials;

/// Differences that are printed in full for each line.
const SHOWN: u64 = 5;

/// One more than the greatest number of a refusal.
const NUMBERS: usize = 27;

pub struct Tally {
    name: String,
    compared: u64,
    different: u64,
    /// How often each number was expected, 0 where the call was accepted; for lines that tell it.
    numbers: [u64; NUMBERS],
}

impl Tally {
    pub fn new(name: &str) -> Self {
        Tally { name: name.to_string(), compared: 0, different: 0, numbers: [0; NUMBERS] }
    }

    /// One comparison of a call that is to answer this number.
    pub fn compare_number(&mut self, number: u32, same: bool, what: impl FnOnce() -> String) {
        self.numbers[number as usize] += 1;
        self.compare(same, what);
    }

    /// Numbers that must be among those that were expected: each that is not counts as a difference.
    pub fn demand(&mut self, numbers: &[u32]) {
        for &number in numbers {
            if self.numbers[number as usize] == 0 {
                self.compare(false, || format!("{number} was never expected"));
            }
        }
    }

    /// The numbers that were expected, each with how often.
    fn numbers(&self) -> String {
        let counted = self.numbers.iter().enumerate().filter(|(_, times)| **times > 0);
        let texts: Vec<String> = counted.map(|(number, times)| format!("{number}: {times}")).collect();
        if texts.is_empty() { String::new() } else { format!(" ({})", texts.join(", ")) }
    }

    /// One comparison. `what` describes the call and both sides.
    pub fn compare(&mut self, same: bool, what: impl FnOnce() -> String) {
        self.compared += 1;
        if !same {
            self.different += 1;
            if self.different <= SHOWN {
                println!("{}: DIFFERENT: {}", self.name, what());
            }
        }
    }
}

pub struct Totals {
    pub compared: u64,
    pub different: u64,
    /// They are made beside the calls of several comparisons, and their lines end the table.
    pub trials: Trials,
}

impl Totals {
    pub fn new(trials: Trials) -> Self {
        Totals { compared: 0, different: 0, trials }
    }

    pub fn add(&mut self, tally: Tally) {
        println!("{}: {} compared{}, {} differ", tally.name, tally.compared, tally.numbers(), tally.different);
        self.compared += tally.compared;
        self.different += tally.different;
    }
}
