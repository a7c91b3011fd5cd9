//! The tests that passed and failed.

use std::fmt::Display;

#[derive(Default)]
pub struct Tally {
    pub passed: u64,
    pub failed: u64,
}

impl Tally {
    pub fn same<T: PartialEq + Display>(&mut self, name: &str, got: &T, wanted: &T) {
        self.holds(got == wanted, || {
            format!("{}:\n  {}\n  and not\n  {}", name, got, wanted)
        });
    }

    pub fn holds(&mut self, holds: bool, told: impl FnOnce() -> String) {
        if holds {
            self.passed += 1;
        } else {
            self.failed += 1;
            println!("{}", told());
        }
    }
}
