//! Both sides timed on the same networks.
use harness::engine;
use harness::inputs::{networks::ordinary_network, random::Random};
use harness::plain::{self, file};
use std::hint::black_box;
use std::time::{Duration, Instant};

const HOUSES: [&str; 5] = [
    "priority",
    "equal awards",
    "Jefferson",
    "dual of equal awards",
    "classes",
];

const NETWORKS: usize = 8;
const REPEATS: usize = 9;

/// The time of each side for one clear of an ordinary network, by size and house.
pub fn print_table(seed: u64) {
    println!("microseconds for one clear of an ordinary network, file to text");
    println!(
        "{:>7}  {:<24}{:>10}{:>12}{:>8}",
        "members", "house", "engine", "plain Rust", "ratio"
    );
    for n in [8, 16, 32] {
        for (house, name) in HOUSES.iter().enumerate() {
            let random = &mut Random::of_case(seed, (n * HOUSES.len() + house) as u64);
            let network = |_| file::write(&ordinary_network(random, n, house as u8));
            let files: Vec<Vec<u8>> = (0..NETWORKS).map(network).collect();
            let (engine, plain) = fastest(&files);
            let ratio = engine / plain;
            println!(
                "{n:>7}  {:<24}{engine:>10.1}{plain:>12.1}{ratio:>8.2}",
                format!("{house} {name}")
            );
        }
    }
}

/// The microseconds that each side took for a file: the least of several repeats, on average.
fn fastest(files: &[Vec<u8>]) -> (f64, f64) {
    let mut buffer = Vec::new();
    let mut times = vec![(Duration::MAX, Duration::MAX); files.len()];
    for _ in 0..REPEATS {
        for (file, (engine, plain)) in files.iter().zip(&mut times) {
            *engine = timed(|| engine::clear(black_box(file), &mut buffer).len()).min(*engine);
            *plain = timed(|| plain::clear(black_box(file)).len()).min(*plain);
        }
    }
    let average = |total: Duration| total.as_secs_f64() * 1e6 / files.len() as f64;
    (
        average(times.iter().map(|(engine, _)| engine).sum()),
        average(times.iter().map(|(_, plain)| plain).sum()),
    )
}

fn timed(clear: impl FnOnce() -> usize) -> Duration {
    let start = Instant::now();
    black_box(clear());
    start.elapsed()
}
