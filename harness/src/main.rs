//! Compares the proved engine with a plain Rust implementation of its rules, and measures both.
//!
//!     harness [--seed N] [--seconds N] [FOLDER]
mod compare;
mod speed;
mod vectors;

use compare::Comparison;
use std::error::Error;
use std::path::PathBuf;
use std::process::ExitCode;
use std::time::Duration;

struct Options {
    seed: u64,
    seconds: u64,
    vectors: Option<PathBuf>,
}

fn options() -> Result<Options, Box<dyn Error>> {
    let mut options = Options {
        seed: 1,
        seconds: 30,
        vectors: None,
    };
    let mut words = std::env::args().skip(1);
    while let Some(word) = words.next() {
        match word.as_str() {
            "--seed" => options.seed = words.next().ok_or("no seed")?.parse()?,
            "--seconds" => options.seconds = words.next().ok_or("no seconds")?.parse()?,
            folder => options.vectors = Some(PathBuf::from(folder)),
        }
    }
    Ok(options)
}

fn main() -> Result<ExitCode, Box<dyn Error>> {
    let options = options()?;
    let mut differences = 0;
    if let Some(folder) = &options.vectors {
        differences += vectors::run(folder)?;
    }
    let comparison = Comparison::run(options.seed, Duration::from_secs(options.seconds));
    comparison.print();
    differences += comparison.differences;
    speed::print_table(options.seed);
    Ok(if differences == 0 {
        ExitCode::SUCCESS
    } else {
        ExitCode::FAILURE
    })
}
