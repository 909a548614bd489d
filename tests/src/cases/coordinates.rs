//! The cases of reading and writing coordinate files.

mod document;
mod limits;
mod order;
mod size;

use super::{Call, Group};
use crate::files::{encode_file, Rows};

impl Group {
    /// Adds a case that reads a coordinate file.
    fn read_drawing(&mut self, file: &[u8], room: usize) {
        let file = file.to_vec();
        self.add(Call::ReadDrawing { file, room });
    }

    /// Adds a case that writes a coordinate file.
    fn write_drawing(&mut self, numbers: &[u16], room: usize) {
        let numbers = numbers.to_vec();
        self.add(Call::WriteDrawing { numbers, room });
    }

    /// Adds cases that read and write a drawing, with this many elements too many.
    fn rows(&mut self, rows: &Rows, excess: usize) {
        let (numbers, file) = (rows.numbers(), rows.bytes());
        self.read_drawing(&file, numbers.len() + excess);
        self.write_drawing(&numbers, file.len() + excess);
    }

    /// Adds a case that reads these numbers behind the signature, with room for two more.
    fn read_numbers(&mut self, numbers: &[u16]) {
        self.read_drawing(&encode_file(numbers), numbers.len() + 2);
    }
}

/// The groups that are stored, in the order of the files.
pub fn stored() -> Vec<Group> {
    vec![document::files(), document::refusals()]
}

/// The groups that are not stored.
pub fn others() -> Vec<Group> {
    vec![
        limits::counts(),
        limits::places(),
        order::forms(),
        order::faults(),
        size::full(),
        size::rooms(),
    ]
}
