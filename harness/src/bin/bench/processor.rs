//! The machine, the time that it spends on this process, and the memory that it gives.
use std::time::Duration;
use std::{fs, io};

/// The value of the line of a file that begins with a word and has it after a colon.
fn line_of(file: &str, word: &str) -> io::Result<String> {
    let text = fs::read_to_string(file)?;
    let line = text.lines().find(|line| line.starts_with(word));
    let value = line.and_then(|line| Some(line.split_once(':')?.1.trim().to_string()));
    value.ok_or_else(|| io::Error::other(format!("{file} has no {word}")))
}

/// The processor's time that this process has had so far, whatever else the machine does.
pub fn time() -> io::Result<Duration> {
    let text = fs::read_to_string("/proc/self/schedstat")?;
    let nanoseconds = text.split(' ').next().and_then(|word| word.parse().ok());
    nanoseconds
        .map(Duration::from_nanos)
        .ok_or_else(|| io::Error::other("/proc/self/schedstat has no time"))
}

/// The most memory that this process has had at once, in KiB.
pub fn peak_memory() -> io::Result<u64> {
    let peak = line_of("/proc/self/status", "VmHWM")?;
    peak.trim_end_matches(" kB")
        .parse()
        .map_err(io::Error::other)
}

pub fn print_machine() -> io::Result<()> {
    let model = line_of("/proc/cpuinfo", "model name")?;
    let cores = std::thread::available_parallelism()?;
    println!("Machine: {model}, {cores} cores, of which one is used.\n");
    Ok(())
}
