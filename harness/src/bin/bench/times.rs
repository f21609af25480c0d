//! The sides timed on one file.
use crate::texts::Texts;
use harness::{before, engine, quick};
use std::hint::black_box;
use std::time::{Duration, Instant};

/// Each file is cleared so often by each side, in turn, and the fastest counts.
const REPEATS: usize = 25;

/// The engine as it was before is slower by orders, and is asked less often.
const REPEATS_BEFORE: usize = 2;

/// The fastest time of each side for one file.
pub struct Times {
    pub engine: Duration,
    pub quick: Duration,
    pub before: Option<Duration>,
}

impl Times {
    /// Clears a file by all sides in turn, and compares what they print.
    pub fn of(name: &str, file: &[u8], asks_before: bool, texts: &mut Texts) -> Times {
        let plain = quick::clear(file);
        let mut buffer = engine::text_buffer();
        let mut times = Times {
            engine: Duration::MAX,
            quick: Duration::MAX,
            before: asks_before.then_some(Duration::MAX),
        };
        for repeat in 0..REPEATS {
            let (time, length) = timed(|| engine::clear_into(black_box(file), &mut buffer));
            texts.compare(name, "engine", &buffer[..length], &plain);
            times.engine = time.min(times.engine);
            let (time, _) = timed(|| quick::clear(black_box(file)).len());
            times.quick = time.min(times.quick);
            if let Some(before) = times.before.as_mut().filter(|_| repeat < REPEATS_BEFORE) {
                let (time, length) = timed(|| before::clear_into(black_box(file), &mut buffer));
                texts.compare(name, "engine before", &buffer[..length], &plain);
                *before = time.min(*before);
            }
        }
        times
    }
}

fn timed(clear: impl FnOnce() -> usize) -> (Duration, usize) {
    let start = Instant::now();
    let length = black_box(clear());
    (start.elapsed(), length)
}
