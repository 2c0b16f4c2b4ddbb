//! A separately written bucket test and p-value by counting, and what compares them with a program and the library.

mod agreement;
mod any_plan;
mod any_points;
mod big;
mod boundary;
mod calls;
mod case;
mod chances;
mod choices;
mod close;
mod compare;
mod counting;
mod damage;
mod damaged;
mod damaged_files;
mod decided;
mod draft;
mod draws;
mod exact;
mod examples;
mod expectation;
mod form;
mod form_damage;
mod gandy;
mod host;
mod judge;
mod kept;
mod lapses;
mod limits;
mod lines;
mod met;
mod misjudged;
mod misspent;
mod narrower;
mod orders;
mod outcomes;
mod overlap;
mod plan;
mod point_draws;
mod point_facts;
mod point_limits;
mod point_plans;
mod point_tests;
mod points;
mod random;
mod rng;
mod rounding;
mod rows;
mod runner;
mod saved;
mod saved_cases;
mod saved_examples;
mod scenes;
mod selfcheck;
mod sequential;
mod simulation;
mod spoiled;
mod star;
mod table;
mod tally;
mod through;
mod weights;
mod whole;
mod wrong;

use std::process::exit;

const USAGE: &str = "usage: reference COMMAND
  calls [--seed N]      the library's calls for C, on saved tests and damaged bytes, against the reference
  check [--seed N]      the reference against the rules' examples, no program
  close [--seed N]      the library's entries on plans with thresholds about as close as the rules permit
  compare --program PATH [--seed N] [--keep DIR]
                        the program against the reference
  counting [--seed N]   the library's runs that count to a p-value, and their shares over all orders
  damaged               what the example in C made of damaged files, as tests/shuffle kept them, against the reference
  gandy [--seed N]      the library's boundaries and the mean draws beside the published ones
  narrower [--seed N]   the library's bucket where several contain the interval, against the reference
  points [--seed N]     the library's entries and tests under plans that spend by points, against the reference
  rounding [--seed N]   the library's new masses and masses rounded, where sums leave chosen remainders, against the
                        reference
  saved [--seed N]      the library's tests written as bytes and read back, against the reference
  spoiled [--seed N]    the library's entries on spoiled states, against the reference";

const SEED: u64 = 20_251;

fn usage(trouble: &str) -> ! {
    eprintln!("{trouble}\n{USAGE}");
    exit(2)
}

/// The value after each flag; no other flag is taken.
fn values_of<const N: usize>(flags: [&str; N], words: &[String]) -> [Option<String>; N] {
    let mut values = [(); N].map(|_| None);
    for pair in words.chunks(2) {
        match (flags.iter().position(|flag| *flag == pair[0]), pair.get(1)) {
            (Some(place), Some(value)) => values[place] = Some(value.clone()),
            (Some(_), None) => usage(&format!("{}: no value", pair[0])),
            (None, _) => usage(&format!("{}: no such flag", pair[0])),
        }
    }
    values
}

fn seed_of(word: Option<String>) -> u64 {
    let number = |word: String| word.parse().unwrap_or_else(|_| usage(&format!("--seed: not a number: {word}")));
    word.map_or(SEED, number)
}

fn compare_program(words: &[String]) -> bool {
    let [seed, program, keep] = values_of(["--seed", "--program", "--keep"], words);
    let program = program.unwrap_or_else(|| usage("compare needs --program PATH"));
    compare::run(&compare::Setting { program, seed: seed_of(seed), keep })
}

fn main() {
    let words: Vec<String> = std::env::args().skip(1).collect();
    let (command, words) = words.split_first().unwrap_or_else(|| usage("no command"));
    let seed = || {
        let [seed] = values_of(["--seed"], words);
        seed_of(seed)
    };
    let good = match command.as_str() {
        "calls" => calls::run(seed()),
        "check" => selfcheck::run(seed()),
        "close" => close::run(seed()),
        "compare" => compare_program(words),
        "counting" => counting::run(seed()),
        "damaged" => {
            let [] = values_of([], words);
            damaged_files::run()
        }
        "gandy" => gandy::run(seed()),
        "narrower" => narrower::run(seed()),
        "points" => points::run(seed()),
        "rounding" => rounding::run(seed()),
        "saved" => saved::run(seed()),
        "spoiled" => spoiled::run(seed()),
        other => usage(&format!("{other}: no such command")),
    };
    exit(if good { 0 } else { 1 })
}
