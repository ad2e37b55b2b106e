//! The independent second program: it makes every call of libdriftwicket.a's C interface once more by rules of its own,
//! written from the papers alone (src/lib.rs), and compares the whole effect of each: the answer, the report, every lent
//! byte and the expected number.
//!
//!     make lib                                      in the repository's root: the static library
//!     cargo run --release                           about 1.4 million comparisons
//!     cargo run --release -- 10                     ten times as many
//!     cargo run --release -- 1 --seed 12345         others
//!     cargo test --lib                              the public vectors, by the second program alone
//!
//! DRIFTWICKET_LIB_DIR names the directory of the static library where it isn't ../build.
//! One comparison is one call. The case of a difference is printed with its inputs as hex. The last line is
//! 'N passed, M failed', and the exit status is 1 where anything failed.

#[cfg(driftwicket_missing)]
compile_error!(concat!(
    "the static library is missing: ",
    env!("DRIFTWICKET_MISSING"),
    "\nbuild it with `make lib` in the repository's root, or name its directory in DRIFTWICKET_LIB_DIR"
));

mod compare;
mod effect;
mod library;
mod random;

use compare::{Entry, Tally, ENTRIES};
use random::Random;
use std::env;
use std::process::ExitCode;
use std::time::Instant;

const SEED: u64 = 9001;

/// How often everything is done, and from which seed.
struct Options {
    times: u64,
    seed: u64,
}

/// Reads `[TIMES] [--seed SEED]`.
fn options(arguments: &[String]) -> Option<Options> {
    let (times, rest) = match arguments {
        [times, rest @ ..] if times != "--seed" => (times.parse().ok()?, rest),
        rest => (1, rest),
    };
    let seed = match rest {
        [] => SEED,
        [name, seed] if name == "--seed" => seed.parse().ok()?,
        _ => return None,
    };
    (times > 0).then_some(Options { times, seed })
}

/// Compares one entry point, part by part, and says what it did.
fn compare_entry(entry: &Entry, options: &Options) -> Tally {
    println!("{}", entry.name);
    let start = Instant::now();
    let mut tally = Tally::new(entry.name, options.seed);
    for (words, part) in entry.parts {
        let (count, failed) = (tally.count(), tally.failed);
        tally.begin_part();
        for time in 0..options.times {
            let mut random = Random::new(options.seed, &format!("{} {words} {time}", entry.name));
            part(&mut tally, &mut random);
        }
        let failed = tally.failed - failed;
        let failures = if failed > 0 { format!(": {failed} FAILED") } else { String::new() };
        println!("  {:>9} {words}{failures}", tally.count() - count);
    }
    let seconds = start.elapsed().as_secs_f64();
    println!("  {:>9} in {seconds:.1} s: {}", tally.count(), tally.summary());
    for number in tally.not_reached(entry.refusals) {
        println!("  NOT REACHED: no call was answered {number}, so nothing is shown of it");
        tally.failed += 1;
    }
    tally
}

fn main() -> ExitCode {
    let arguments: Vec<String> = env::args().skip(1).collect();
    let Some(options) = options(&arguments) else {
        eprintln!("usage: second [TIMES] [--seed SEED]");
        return ExitCode::from(2);
    };
    println!("comparing libdriftwicket.a with the second program: seed {}, {} time(s)", options.seed, options.times);
    let tallies = ENTRIES.map(|entry| compare_entry(entry, &options));
    let passed: u64 = tallies.iter().map(|tally| tally.passed).sum();
    let failed: u64 = tallies.iter().map(|tally| tally.failed).sum();
    println!("{passed} passed, {failed} failed");
    ExitCode::from(u8::from(failed > 0))
}
