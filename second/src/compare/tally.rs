//! The count of one entry point's comparisons, and what is printed of a difference.

use super::call::Call;
use crate::effect::Effect;
use std::fmt::Display;

/// The greatest refusal's number.
const LAST_REFUSAL: usize = 14;

/// How many differences of one part are printed; the others are counted.
const PRINTED: u64 = 5;

pub struct Tally {
    name: &'static str,
    seed: u64,
    pub passed: u64,
    pub failed: u64,
    /// how many differences may still be printed
    to_print: u64,
    /// how often the second program answered 0, 1, 2, ..
    answers: [u64; LAST_REFUSAL + 1],
}

impl Tally {
    pub fn new(name: &'static str, seed: u64) -> Tally {
        Tally { name, seed, passed: 0, failed: 0, to_print: 0, answers: [0; LAST_REFUSAL + 1] }
    }

    /// A part begins: its first differences are printed.
    pub fn begin_part(&mut self) {
        self.to_print = PRINTED;
    }

    pub fn count(&self) -> u64 {
        self.passed + self.failed
    }

    /// Makes a call in both programs, compares their effects, and hands on the second program's.
    pub fn compare<const WORDS: usize>(&mut self, call: &impl Call<WORDS>) -> Effect<WORDS> {
        self.compare_if(call, |_| true, "anything")
    }

    /// Compares a call whose answer is known from how it was made: 0, or the first of its faults in the scope's order.
    pub fn compare_knowing<const WORDS: usize>(&mut self, call: &impl Call<WORDS>, known: u32) -> Effect<WORDS> {
        self.compare_if(call, |ours| ours.number() == known, format_args!("the answer {known}"))
    }

    /// Compares a call whose whole report is known from how it was made.
    pub fn compare_yielding<const WORDS: usize>(
        &mut self,
        call: &impl Call<WORDS>,
        report: [u64; WORDS],
    ) -> Effect<WORDS> {
        self.compare_if(call, |ours| ours.answer == Ok(report), format_args!("the report {report:?}"))
    }

    /// Compares a call of which something is known, in words too, and holds the second program to it.
    pub fn compare_if<const WORDS: usize>(
        &mut self,
        call: &impl Call<WORDS>,
        as_known: impl FnOnce(&Effect<WORDS>) -> bool,
        known: impl Display,
    ) -> Effect<WORDS> {
        let (ours, theirs) = (call.ours(), call.theirs());
        self.answers[ours.number() as usize] += 1;
        let as_known = as_known(&ours);
        if as_known && ours == theirs {
            self.passed += 1;
            return ours;
        }
        self.failed += 1;
        if self.to_print > 0 {
            self.print_difference(call, &ours, &theirs);
            if !as_known {
                println!("    THE SECOND PROGRAM IS WRONG: the call was made to bring {known}");
            }
        }
        ours
    }

    /// The case, what both programs say of it, and where they part.
    fn print_difference<const WORDS: usize>(
        &mut self,
        call: &impl Call<WORDS>,
        ours: &Effect<WORDS>,
        theirs: &Effect<WORDS>,
    ) {
        self.to_print -= 1;
        let rest = if self.to_print == 0 { " (further ones of this part are only counted)" } else { "" };
        println!("  DIFFERENCE in {}, seed {}, comparison {}{rest}", self.name, self.seed, self.count());
        println!("    case: {call}");
        println!("    second:  {}", ours.words());
        println!("    library: {}", theirs.words());
        println!("    they differ in: {}", ours.differences(theirs).join("; "));
    }

    /// How often each answer came.
    pub fn summary(&self) -> String {
        let refused = (1..=LAST_REFUSAL).filter(|number| self.answers[*number] > 0);
        let refused: Vec<String> = refused.map(|number| format!("{number}: {}", self.answers[number])).collect();
        format!("answered {}, refused {}", self.answers[0], refused.join(", "))
    }

    /// Which of 0 and these refusals no call brought about.
    pub fn not_reached(&self, refusals: &[u32]) -> Vec<u32> {
        let possible = [0].iter().chain(refusals);
        possible.copied().filter(|number| self.answers[*number as usize] == 0).collect()
    }
}
