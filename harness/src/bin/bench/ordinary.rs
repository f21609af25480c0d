//! The table of networks as they come.
use crate::counts::Counts;
use crate::figures::rounded;
use crate::kinds::{KINDS, Kind};
use crate::texts::Texts;
use crate::times::Times;
use harness::before;
use harness::inputs::random::Random;
use harness::plain::file;
use std::time::Duration;

const HOUSES: [&str; 5] = [
    "priority",
    "equal awards",
    "Jefferson",
    "dual of equal awards",
    "classes",
];

/// The engine as it was before is not asked for more scores than it evaluates in some seconds.
const MOST_SCORES_BEFORE: u64 = 3_000_000_000;

/// Prints a line for each kind of network and house. Answers the highest ratio of the engine's time
/// to that of plain Rust among ordinary networks of 32 members.
pub fn print_table(seed: u64, texts: &mut Texts) -> f64 {
    println!(
        "Microseconds for one file, from its bytes to the text, and the counts of one close.\n"
    );
    println!(
        "| Network | House | Engine | Engine before | Plain Rust | Engine / plain Rust | Rounds | Awards calls | Units | Scores per call |"
    );
    println!("|---|---|---|---|---|---|---|---|---|---|");
    let mut highest: f64 = 0.0;
    for (k, kind) in KINDS.iter().enumerate() {
        for house in 0..HOUSES.len() {
            let random = &mut Random::of_case(seed, (k * HOUSES.len() + house) as u64);
            let ratio = print_line(*kind, house, random, texts);
            if matches!(kind, Kind::Ordinary(32)) {
                highest = highest.max(ratio);
            }
        }
    }
    println!();
    highest
}

fn print_line(kind: Kind, house: usize, random: &mut Random, texts: &mut Texts) -> f64 {
    let mut counts = Counts::default();
    let mut times = Vec::new();
    let name = format!("{} | {house} {}", kind.name(), HOUSES[house]);
    for _ in 0..kind.networks() {
        let network = kind.network(random, house as u8);
        let file = file::write(&network);
        let of_this = Counts::of(&network);
        let asks_before = before::LINKED && of_this.straightforward <= MOST_SCORES_BEFORE;
        times.push(Times::of(&name, &file, asks_before, texts));
        counts.add(&of_this);
    }
    let n = times.len() as f64;
    let average = |total: Duration| total.as_secs_f64() * 1e6 / n;
    let engine = average(times.iter().map(|times| times.engine).sum());
    let quick = average(times.iter().map(|times| times.quick).sum());
    let before: Option<Duration> = times.iter().map(|times| times.before).sum();
    println!(
        "| {name} | {} | {} | {} | {:.2} | {:.1} | {} | {} | {:.1} |",
        rounded(engine),
        before.map_or("-".to_string(), |total| rounded(average(total))),
        rounded(quick),
        engine / quick,
        counts.rounds as f64 / n,
        rounded(counts.awards_calls as f64 / n),
        rounded(counts.units as f64 / n),
        counts.scores_per_call(),
    );
    engine / quick
}
