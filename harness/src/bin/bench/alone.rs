//! One file cleared in a process of its own, which measures its time and its memory.
use crate::processor;
use harness::{engine, quick};
use std::error::Error;
use std::io::{self, Read, Write};
use std::process::{Command, Stdio};
use std::str::FromStr;
use std::time::Duration;

/// The first argument of such a process.
pub const WORD: &str = "--alone";

#[derive(Clone, Copy)]
pub enum Side {
    Engine,
    Quick,
}

impl FromStr for Side {
    type Err = String;

    fn from_str(word: &str) -> Result<Side, String> {
        match word {
            "engine" => Ok(Side::Engine),
            "quick" => Ok(Side::Quick),
            _ => Err(format!("no side {word}")),
        }
    }
}

impl Side {
    fn word(self) -> &'static str {
        match self {
            Side::Engine => "engine",
            Side::Quick => "quick",
        }
    }
}

/// What clearing took, and the text.
pub struct Run {
    pub time: Duration,
    /// in KiB
    pub peak_memory: u64,
    pub text: Vec<u8>,
}

/// Clears standard input. Prints the nanoseconds that it took, the peak memory, and the text.
pub fn run(side: Side) -> Result<(), Box<dyn Error>> {
    let mut file = Vec::new();
    io::stdin().read_to_end(&mut file)?;
    let start = processor::time()?;
    let text = match side {
        Side::Engine => {
            let mut buffer = engine::text_buffer();
            engine::clear(&file, &mut buffer).to_vec()
        }
        Side::Quick => quick::clear(&file).into_bytes(),
    };
    let time = processor::time()? - start;
    println!("{} {}", time.as_nanos(), processor::peak_memory()?);
    io::stdout().write_all(&text)?;
    Ok(())
}

/// Clears a file in a process of its own.
pub fn clear(side: Side, file: &[u8]) -> Result<Run, Box<dyn Error>> {
    let mut process = Command::new(std::env::current_exe()?)
        .args([WORD, side.word()])
        .stdin(Stdio::piped())
        .stdout(Stdio::piped())
        .spawn()?;
    // the file is dropped once it is written, which ends the process's input
    process.stdin.take().ok_or("no input")?.write_all(file)?;
    let output = process.wait_with_output()?.stdout;
    let end = output.iter().position(|byte| *byte == b'\n');
    let (line, text) = output.split_at(end.ok_or("no line of figures")?);
    let mut figures = std::str::from_utf8(line)?.split(' ');
    let mut figure = || figures.next().ok_or("a figure is missing");
    Ok(Run {
        time: Duration::from_nanos(figure()?.parse()?),
        peak_memory: figure()?.parse()?,
        text: text[1..].to_vec(),
    })
}
