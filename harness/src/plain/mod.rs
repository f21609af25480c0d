//! The engine's rules once more, in plain Rust, written from docs/.
pub mod clearing;
pub mod fault;
pub mod file;
pub mod network;
pub mod rules;

use clearing::Sheet;
use network::Network;
use std::fmt::{self, Write};

/// A longer input is not read as a network file.
pub const LONGEST_INPUT: usize = 65_536;

/// What clear prints for an input.
pub fn clear(input: &[u8]) -> String {
    clear_by(input, clearing::close)
}

/// What clear prints for an input, if this is how a book is closed.
pub fn clear_by(input: &[u8], close: impl FnOnce(&Network) -> Sheet) -> String {
    if input.len() > LONGEST_INPUT {
        return "too long\n".to_string();
    }
    match file::read(input) {
        Ok(network) => sheet_text(&network, &close(&network)).expect("text is written"),
        Err(fault) => format!("{fault}\n"),
    }
}

fn sheet_text(network: &Network, sheet: &Sheet) -> Result<String, fmt::Error> {
    let mut text = String::new();
    for (debtor, creditor, _) in network.claims_in_order() {
        let paid = sheet.paid[debtor][creditor];
        writeln!(text, "paid {debtor} {creditor} {paid}")?;
    }
    for (member, equity) in sheet.equities.iter().enumerate() {
        writeln!(text, "equity {member} {equity}")?;
    }
    for (member, defaults) in sheet.defaults.iter().enumerate() {
        if *defaults {
            writeln!(text, "default {member}")?;
        }
    }
    let (rounds, units, passed_over) = (sheet.rounds, sheet.units, sheet.passed_over);
    writeln!(text, "rounds {rounds} {units} {passed_over}")?;
    Ok(text)
}
