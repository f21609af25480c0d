//! Whether all sides print the same.
use std::fmt;

#[derive(Default)]
pub struct Texts {
    compared: u64,
    differences: Vec<String>,
}

impl Texts {
    /// Compares a side's text for a network with that of plain Rust.
    pub fn compare(&mut self, network: &str, side: &str, text: &[u8], plain: &str) {
        self.compared += 1;
        if text != plain.as_bytes() {
            self.differences.push(format!("{network}: {side}"));
        }
    }

    pub fn differ(&self) -> bool {
        !self.differences.is_empty()
    }
}

impl fmt::Display for Texts {
    fn fmt(&self, f: &mut fmt::Formatter) -> fmt::Result {
        let differences = self.differences.len();
        writeln!(
            f,
            "{} texts compared, {differences} differences",
            self.compared
        )?;
        self.differences
            .iter()
            .try_for_each(|text| writeln!(f, "- {text}"))
    }
}
