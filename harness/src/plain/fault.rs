//! Refusals, by the numbers of docs/FAULTS.md.
use std::fmt;

/// Stands for a member where none is named.
pub const NOBODY: u8 = 255;

#[derive(Clone, Copy)]
pub enum Layer {
    File,
    Draft,
    Rule,
}

#[derive(Clone, Copy)]
pub struct Fault {
    pub number: u8,
    layer: Layer,
    byte: usize,
    debtor: u8,
    creditor: u8,
}

impl Fault {
    pub fn of_nobody(number: u8, layer: Layer, byte: usize) -> Fault {
        Fault::of_pair(number, layer, byte, NOBODY, NOBODY)
    }

    pub fn of_member(number: u8, layer: Layer, byte: usize, member: u8) -> Fault {
        Fault::of_pair(number, layer, byte, member, NOBODY)
    }

    pub fn of_pair(number: u8, layer: Layer, byte: usize, debtor: u8, creditor: u8) -> Fault {
        Fault {
            number,
            layer,
            byte,
            debtor,
            creditor,
        }
    }
}

impl fmt::Display for Fault {
    fn fmt(&self, f: &mut fmt::Formatter) -> fmt::Result {
        let layer = match self.layer {
            Layer::File => "file",
            Layer::Draft => "draft",
            Layer::Rule => "rule",
        };
        write!(
            f,
            "fault {} {layer} {} {} {}",
            self.number, self.byte, self.debtor, self.creditor
        )
    }
}
