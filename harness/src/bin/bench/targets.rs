//! What the engine is held to.
use crate::figures::whole;
use crate::worst::Extremes;

/// Times plain Rust that does the same, on ordinary networks of 32 members.
const HIGHEST_RATIO: f64 = 1.2;
/// Times fewer scores than the straightforward engine, on the worst files.
const TIMES_FEWER: u64 = 1_000;
const LONGEST_SECONDS: f64 = 15.0;
const MOST_KIBIBYTES: u64 = 16 * 1024;

pub fn print(ratio: f64, extremes: &Extremes) {
    let seconds = extremes.time.as_secs_f64();
    let (peak, fewer) = (extremes.peak_memory, extremes.times_fewer);
    println!("| Target | Worst figure | |");
    println!("|---|---|---|");
    print_line(
        &format!("ordinary networks of 32 members: at most {HIGHEST_RATIO} times plain Rust"),
        &format!("{ratio:.2} times"),
        ratio <= HIGHEST_RATIO,
    );
    print_line(
        &format!(
            "worst files: at least {} times fewer scores",
            whole(TIMES_FEWER)
        ),
        &format!("{} times", whole(fewer)),
        fewer >= TIMES_FEWER,
    );
    print_line(
        &format!("worst files: at most {LONGEST_SECONDS} seconds"),
        &format!("{seconds:.2} seconds"),
        seconds <= LONGEST_SECONDS,
    );
    print_line(
        &format!("worst files: under {} KiB", whole(MOST_KIBIBYTES)),
        &format!("{} KiB", whole(peak)),
        peak < MOST_KIBIBYTES,
    );
    println!();
}

fn print_line(target: &str, figure: &str, met: bool) {
    println!(
        "| {target} | {figure} | {} |",
        if met { "met" } else { "missed" }
    );
}
