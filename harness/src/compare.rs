//! Both sides on the same inputs.
use harness::engine;
use harness::inputs::damage::damaged_file;
use harness::inputs::divisions::{Division, any_division};
use harness::inputs::networks::any_network;
use harness::inputs::random::Random;
use harness::plain::{self, file, rules::Rulebook};
use harness::quick;
use std::collections::BTreeSet;
use std::time::{Duration, Instant};

/// What was compared, and where the sides differed.
#[derive(Default)]
pub struct Comparison {
    networks: u64,
    damaged: u64,
    divisions: u64,
    refusals: u64,
    /// the numbers of the faults that were met
    faults: BTreeSet<u8>,
    pub differences: u64,
    first_difference: Option<String>,
    buffer: Vec<u8>,
}

impl Comparison {
    /// Goes through the cases of a seed, one after the other, for so long.
    pub fn run(seed: u64, time: Duration) -> Comparison {
        let mut comparison = Comparison::default();
        let start = Instant::now();
        let mut case = 0;
        while start.elapsed() < time {
            comparison.try_case(case, &mut Random::of_case(seed, case));
            case += 1;
        }
        comparison
    }

    fn try_case(&mut self, case: u64, random: &mut Random) {
        match case % 8 {
            0..3 => {
                self.networks += 1;
                self.clear(&file::write(&any_network(random)));
            }
            3..7 => {
                self.damaged += 1;
                self.clear(&damaged_file(random));
            }
            _ => {
                self.divisions += 1;
                self.divide(&any_division(random));
            }
        }
    }

    fn clear(&mut self, input: &[u8]) {
        let theirs = plain::clear(input);
        let ours = engine::clear(input, &mut self.buffer);
        if ours != theirs.as_bytes() {
            let ours = String::from_utf8_lossy(ours).into_owned();
            self.differs(input, &ours, &theirs);
        }
        let quick = quick::clear(input);
        if quick != theirs {
            self.differs(input, &format!("(quick)\n{quick}"), &theirs);
        }
        if let Some(fault) = theirs.strip_prefix("fault ") {
            let number = fault.split(' ').next().and_then(|word| word.parse().ok());
            self.refused(number);
            self.leave_short_buffer(input, theirs.len());
        }
    }

    /// A buffer that is too short for the text of so many bytes is left as it was.
    fn leave_short_buffer(&mut self, input: &[u8], length: usize) {
        let mut buffer = vec![0xaa; input.len() % length];
        let answer = engine::clear_into(input, &mut buffer);
        if answer != length || buffer.iter().any(|byte| *byte != 0xaa) {
            let ours = format!("{answer} with a short buffer, then {buffer:?}");
            self.differs(input, &ours, &format!("{length}"));
        }
    }

    fn divide(&mut self, division: &Division) {
        let file = file::write(&division.network);
        let (house, estate, claims) = (division.house, division.estate, &division.claims);
        let mut ours = vec![7; division.room];
        let mut theirs = ours.clone();
        let number = engine::awards(&file, house, estate, claims, &mut ours);
        let rulebook = Rulebook::of(&division.network);
        let fault = rulebook.awards(house, estate, claims, &mut theirs).err();
        self.refused(fault.map(|fault| fault.number));
        let their_number = fault.map_or(0, |fault| fault.number);
        if (number, &ours) != (their_number, &theirs) {
            let asked = format!("house {house}, estate {estate}, claims {claims:?}");
            let ours = format!("{asked}: {number}, {ours:?}");
            self.differs(&file, &ours, &format!("{their_number}, {theirs:?}"));
        }
    }

    fn refused(&mut self, fault: Option<u8>) {
        self.refusals += u64::from(fault.is_some());
        self.faults.extend(fault);
    }

    fn differs(&mut self, input: &[u8], ours: &str, theirs: &str) {
        self.differences += 1;
        self.first_difference.get_or_insert_with(|| {
            let hex: String = input.iter().map(|byte| format!("{byte:02x}")).collect();
            format!("input {hex}\nengine:\n{ours}\nplain Rust:\n{theirs}")
        });
    }

    pub fn print(&self) {
        let total = self.networks + self.damaged + self.divisions;
        println!("compared {total} inputs");
        println!("  {:>8} network files", self.networks);
        println!("  {:>8} damaged files", self.damaged);
        println!("  {:>8} divisions", self.divisions);
        let faults: Vec<String> = self.faults.iter().map(u8::to_string).collect();
        println!(
            "  {:>8} refused, by faults {}",
            self.refusals,
            faults.join(" ")
        );
        println!("{} differences", self.differences);
        if let Some(difference) = &self.first_difference {
            println!("the first: {difference}");
        }
    }
}
