//! The reader and the writer of sheets.
//!
//! Both walk the same grammar; they differ in where the numbers come from.

use std::ops::RangeInclusive;

use crate::refusal::{Refusal, MAXIMUM_BELOW_MINIMUM};
use crate::source::{encoded, fill_front, Bytes, List, Source};

/// The three bytes a sheet starts with.
pub const SIGNATURE: [u8; 3] = [0x53, 0x50, 0x31];
/// The greatest width (document 01: strip width).
pub const WIDTH_LIMIT: u16 = 4095;
/// The greatest count of layers (document 01: ranks).
pub const LAYER_LIMIT: u16 = 64;
/// The greatest count of nodes (document 01: marks) in one layer.
pub const LAYER_NODE_LIMIT: u16 = 64;
/// The greatest count of nodes in all layers together.
pub const NODE_LIMIT: u16 = 256;
/// The greatest separation (document 01: gap), minimum or maximum.
pub const SEPARATION_LIMIT: u16 = 4095;
/// The greatest count of edges (document 01: leads).
pub const EDGE_LIMIT: u16 = 512;
/// The kind of an edge that may have any length.
pub const PLAIN: u16 = 0;
/// The kind of an edge that must have length 0.
pub const STRAIGHT: u16 = 1;
/// The greatest count of numbers in a good sheet.
pub const NUMBER_LIMIT: usize = 2559;

/// Reads a sheet from its bytes into the front of `numbers` and says how many there are.
pub fn read(bytes: &[u8], numbers: &mut [u16]) -> Result<usize, Refusal> {
    let found = Walk::new(Bytes::behind(SIGNATURE, bytes)?).sheet()?;
    fill_front(numbers, &found)
}

/// Writes a sheet from its numbers into the front of `bytes` and says how many bytes there are.
pub fn write(numbers: &[u16], bytes: &mut [u8]) -> Result<usize, Refusal> {
    let found = Walk::new(List::new(numbers)).sheet()?;
    fill_front(bytes, &encoded(SIGNATURE, found))
}

/// A walk through a sheet that tests each number as it is taken, and keeps it.
struct Walk<S> {
    source: S,
    taken: Vec<u16>,
}

impl<S: Source> Walk<S> {
    /// A walk that stands before the width.
    fn new(source: S) -> Walk<S> {
        Walk {
            source,
            taken: Vec::new(),
        }
    }

    /// Walks through the whole sheet and gives its numbers.
    fn sheet(mut self) -> Result<Vec<u16>, Refusal> {
        self.number(0..=WIDTH_LIMIT)?;
        let counts = self.layers()?;
        let edge_count = self.number(0..=EDGE_LIMIT)?;
        for _ in 0..edge_count {
            self.edge(&counts)?;
        }
        self.source.end()?;
        Ok(self.taken)
    }

    /// Takes the count of layers and every layer, and gives the count of nodes of each.
    fn layers(&mut self) -> Result<Vec<u16>, Refusal> {
        let layer_count = self.number(1..=LAYER_LIMIT)?;
        let mut counts = Vec::new();
        let mut nodes_left = NODE_LIMIT;
        for _ in 0..layer_count {
            let count = self.number(1..=LAYER_NODE_LIMIT.min(nodes_left))?;
            nodes_left -= count;
            for _ in 1..count {
                self.separation()?;
            }
            counts.push(count);
        }
        Ok(counts)
    }

    /// Takes the minimum and the maximum separation of two neighbours; maximum 0 means none set.
    fn separation(&mut self) -> Result<(), Refusal> {
        let minimum = self.number(1..=SEPARATION_LIMIT)?;
        let offset = self.source.at();
        let maximum = self.number(0..=SEPARATION_LIMIT)?;
        if maximum != 0 && maximum < minimum {
            return Err(Refusal::new(MAXIMUM_BELOW_MINIMUM, offset));
        }
        Ok(())
    }

    /// Takes an edge: upper layer, position in it, position in the layer below, kind.
    fn edge(&mut self, counts: &[u16]) -> Result<(), Refusal> {
        let last_upper = counts.len() as u16 - 1;
        let upper = usize::from(self.number(1..=last_upper)?);
        self.number(1..=counts[upper - 1])?;
        self.number(1..=counts[upper])?;
        self.number(PLAIN..=STRAIGHT)?;
        Ok(())
    }

    /// Takes the next number within its limits, and keeps it.
    fn number(&mut self, limits: RangeInclusive<u16>) -> Result<u16, Refusal> {
        let n = self.source.number(limits)?;
        self.taken.push(n);
        Ok(n)
    }
}
