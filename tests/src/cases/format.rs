//! The cases of reading and writing sheets and numbers.

mod document;
mod limits;
mod numbers;
mod order;
mod size;

use super::{Call, Group};
use crate::draft::encode;

impl Group {
    /// Adds a case that reads a sheet.
    fn read(&mut self, bytes: &[u8], room: usize) {
        let bytes = bytes.to_vec();
        self.add(Call::Read { bytes, room });
    }

    /// Adds a case that writes a sheet.
    fn write(&mut self, numbers: &[u16], room: usize) {
        let numbers = numbers.to_vec();
        self.add(Call::Write { numbers, room });
    }

    /// Adds a case that reads one number.
    fn read_number(&mut self, bytes: &[u8], at: usize) {
        let bytes = bytes.to_vec();
        self.add(Call::ReadNumber { bytes, at });
    }

    /// Adds a case that writes one number.
    fn write_number(&mut self, n: u32, at: usize, room: usize) {
        self.add(Call::WriteNumber { n, at, room });
    }

    /// Adds cases that read and write a sheet, good or bad, with this many elements too many.
    fn both(&mut self, numbers: &[u16], excess: usize) {
        let bytes = encode(numbers);
        self.read(&bytes, numbers.len() + excess);
        self.write(numbers, bytes.len() + excess);
    }
}

/// The groups that are stored, in the order of the files.
pub fn stored() -> Vec<Group> {
    vec![
        numbers::published(),
        numbers::limits(),
        document::refusals(),
        document::sheets(),
        document::widths(),
    ]
}

/// The groups that are not stored.
pub fn others() -> Vec<Group> {
    vec![
        limits::layers_and_nodes(),
        limits::separations(),
        limits::edges(),
        size::largest(),
        size::rooms(),
        order::reading(),
        order::writing(),
    ]
}
