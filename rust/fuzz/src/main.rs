//! Random and damaged bytes for every call, beside the second bench: `fuzz [COUNT] [SEED]`.
//!
//! The same count and seed give the same inputs. It ends with status 1 at the first input that the
//! two benches answer differently, or whose output is changed beyond the answer, and prints it.

mod books;
mod compare;
mod damage;
mod guarded;
mod input;
mod round_trip;
mod tally;
mod texts;

use std::process::ExitCode;
use std::time::Instant;

use cases::random::Random;

use books::Books;
use input::Input;
use tally::Tally;
use texts::Texts;

/// Some seconds' worth.
const COUNT: u64 = 500_000;

const SEED: u64 = 0xF022;

fn main() -> ExitCode {
    let args: Vec<String> = std::env::args().skip(1).collect();
    let number =
        |at: usize, otherwise: u64| args.get(at).map_or(Some(otherwise), |arg| arg.parse().ok());
    let (Some(count), Some(seed @ 1..), 0..=2) = (number(0, COUNT), number(1, SEED), args.len())
    else {
        eprintln!("usage: fuzz [COUNT] [SEED], two numbers, the seed not 0");
        return ExitCode::from(64);
    };
    let started = Instant::now();
    match run(count, seed) {
        Ok(tally) => {
            let seconds = started.elapsed().as_secs_f64();
            println!("{count} inputs with seed {seed} in {seconds:.1} s: no difference\n{tally}");
            ExitCode::SUCCESS
        }
        Err(difference) => {
            eprintln!("{difference}");
            ExitCode::FAILURE
        }
    }
}

/// The answers of a whole run, or the first difference.
fn run(count: u64, seed: u64) -> Result<Tally, String> {
    let mut random = Random::new(seed);
    let (books, texts) = (Books::new(), Texts::new());
    let mut tally = Tally::default();
    for round in 0..count {
        let input = Input::random(&mut random, &books, &texts);
        compare::all(&input, &mut tally)
            .map_err(|what| format!("input {round} with seed {seed}: {what}\n{input:?}"))?;
    }
    Ok(tally)
}
