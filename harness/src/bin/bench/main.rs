//! Measures the engine beside plain Rust that does the same and beside the engine as it was before,
//! and prints tables in Markdown.
//!
//!     bench [--seed N]
mod alone;
mod counts;
mod figures;
mod kinds;
mod ordinary;
mod processor;
mod straightforward;
mod targets;
mod texts;
mod times;
mod worst;

use std::error::Error;
use std::process::ExitCode;
use texts::Texts;

fn main() -> Result<ExitCode, Box<dyn Error>> {
    let words: Vec<String> = std::env::args().skip(1).collect();
    let seed = match words.iter().map(String::as_str).collect::<Vec<_>>()[..] {
        [] => 1,
        ["--seed", seed] => seed.parse()?,
        [alone::WORD, side] => return alone::run(side.parse()?).map(|()| ExitCode::SUCCESS),
        _ => return Err("bench [--seed N]".into()),
    };
    let mut texts = Texts::default();
    processor::print_machine()?;
    let slowest = ordinary::print_table(seed, &mut texts);
    let extremes = worst::print_table(&mut texts)?;
    targets::print(slowest, &extremes);
    println!("{texts}");
    Ok(if texts.differ() {
        ExitCode::FAILURE
    } else {
        ExitCode::SUCCESS
    })
}
