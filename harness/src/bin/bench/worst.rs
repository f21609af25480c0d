//! The worst files.
use crate::alone::{self, Side};
use crate::counts::Counts;
use crate::figures::whole;
use crate::texts::Texts;
use harness::inputs::worst::{Worst, worst_files};
use harness::plain::file;
use std::error::Error;
use std::time::Duration;

/// The worst figures of the engine on the worst files.
pub struct Extremes {
    pub time: Duration,
    /// in KiB
    pub peak_memory: u64,
    /// how many times fewer scores there are than with the straightforward engine
    pub times_fewer: u64,
}

/// Prints a line for each file, and answers the worst figures.
pub fn print_table(texts: &mut Texts) -> Result<Extremes, Box<dyn Error>> {
    println!(
        "Seconds of the processor for one of the worst files, each in a process of its own.\n"
    );
    println!(
        "| House | Bytes | Engine | Plain Rust | Engine / plain Rust | Rounds | Awards calls | Units | Scores per call | Scores | Straightforward engine's scores | Times fewer | Peak memory, KiB |"
    );
    println!("|---|---|---|---|---|---|---|---|---|---|---|---|---|");
    let mut extremes = Extremes {
        time: Duration::ZERO,
        peak_memory: 0,
        times_fewer: u64::MAX,
    };
    for worst in worst_files() {
        print_line(&worst, texts, &mut extremes)?;
    }
    println!();
    Ok(extremes)
}

fn print_line(
    worst: &Worst,
    texts: &mut Texts,
    extremes: &mut Extremes,
) -> Result<(), Box<dyn Error>> {
    let file = file::write(&worst.network);
    let counts = Counts::of(&worst.network);
    let engine = alone::clear(Side::Engine, &file)?;
    let quick = alone::clear(Side::Quick, &file)?;
    texts.compare(
        worst.name,
        "engine",
        &engine.text,
        std::str::from_utf8(&quick.text)?,
    );
    let times_fewer = counts.straightforward.checked_div(counts.scores);
    extremes.time = extremes.time.max(engine.time);
    extremes.peak_memory = extremes.peak_memory.max(engine.peak_memory);
    extremes.times_fewer = extremes.times_fewer.min(times_fewer.unwrap_or(u64::MAX));
    println!(
        "| {} | {} | {:.2} | {:.2} | {:.2} | {} | {} | {} | {:.1} | {} | {} | {} | {} |",
        worst.name,
        whole(file.len() as u64),
        engine.time.as_secs_f64(),
        quick.time.as_secs_f64(),
        engine.time.as_secs_f64() / quick.time.as_secs_f64(),
        whole(counts.rounds),
        whole(counts.awards_calls),
        whole(counts.units),
        counts.scores_per_call(),
        whole(counts.scores),
        whole(counts.straightforward),
        times_fewer.map_or("-".to_string(), whole),
        whole(engine.peak_memory),
    );
    Ok(())
}
