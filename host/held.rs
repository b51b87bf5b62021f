//! Compares how long a pattern has held by another implementation with held_reference.rs, on random calls.
//!
//!     held CHILD [ARGS..] --seed S --calls N [--reach-from N] [--patience SECONDS]
//!
//! starts CHILD with ARGS, writes requests to its standard input and reads answers from its standard output, as talk.rs tells. All numbers
//! are little-endian.
//!
//!     request: u8 kind (1 pattern, 2 normalise, 3 with_pattern); u32 word; u32 condition; i64 minute of asking or u64 answer to be put
//!              into the word; u32 length of the annotation, u32 of the samples; the bytes of the annotation, of the samples
//!     answer:  u64, the answer or the word; the annotation; u8, 1 when the samples and the guard bytes around both are intact
//!
//! Status 0: N calls were made without a difference, and, from `REACH_FROM` calls on or as many as `--reach-from` says, they reached all
//! that held_reached.rs wants. Status 1: anything else.

#[allow(dead_code)]
mod dice;
mod held_cases;
mod held_reached;
mod held_reference;
#[cfg(test)]
mod held_test;
mod talk;
#[allow(dead_code)]
mod tally;

use dice::{hex, Dice};
use held_cases::{bytes, next_call, Call};
use held_reached::Reached;
use std::process::ExitCode;
use talk::Options;

fn main() -> ExitCode {
    match run() {
        Ok(()) => ExitCode::SUCCESS,
        Err(message) => {
            println!("{message}");
            ExitCode::FAILURE
        }
    }
}

/// From so many calls on a run is held to what it must reach.
const REACH_FROM: u64 = 100_000;

fn run() -> Result<(), String> {
    let options = Options::from_arguments("held", "calls", REACH_FROM)?;
    let mut dice = Dice::new(options.seed);
    let mut reached = Reached::default();
    let next = || {
        let call = next_call(&mut dice);
        let (answer, left) = call.ask_reference();
        (call, answer, vec![left])
    };
    talk::compare(&options, next, |asked| reached.add(&asked.call, asked.answer, &asked.left[0]))?;
    reached.print();
    reached.nothing_impossible()?;
    if options.asks_for_all() {
        reached.all_reached()?;
    }
    Ok(())
}

impl talk::Call for Call {
    fn request(&self) -> Vec<u8> {
        let (kind, word, condition, number, annotation, samples) = match self {
            Call::Pattern { numbers, samples, asked } => (1, 0, 0, *asked as u64, bytes(numbers), bytes(samples)),
            Call::Normalise { numbers } => (2, 0, 0, 0, bytes(numbers), Vec::new()),
            Call::WithPattern { word, condition, answer } => (3, *word, *condition, *answer, Vec::new(), Vec::new()),
        };
        let mut request = vec![kind];
        request.extend([word, condition].into_iter().flat_map(u32::to_le_bytes));
        request.extend(number.to_le_bytes());
        request.extend([&annotation, &samples].into_iter().flat_map(|part| (part.len() as u32).to_le_bytes()));
        [request, annotation, samples].concat()
    }

    fn tell(&self) -> String {
        match self {
            Call::Pattern { numbers, samples, asked } => {
                let samples: Vec<(i64, i64)> = samples.iter().map(|number| (number.div_euclid(2), number.rem_euclid(2))).collect();
                format!("pattern\nannotation {numbers:?}\nsamples {samples:?}\nasked {asked}")
            }
            Call::Normalise { numbers } => format!("normalise\nannotation {numbers:?} = {}", hex(&bytes(numbers))),
            Call::WithPattern { word, condition, answer } => {
                format!("with_pattern\nword {word:#x} condition {condition} answer {answer:#x}")
            }
        }
    }
}
