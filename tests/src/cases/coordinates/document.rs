//! Files by hand, and refusals.

use super::{Call, Group};
use crate::files::{GOOD, REFUSED};

/// Good files.
pub fn files() -> Group {
    let mut group = Group::new("reading and writing coordinate files");
    group.note("F ROOM 0 BYTES reads a file into a slice of so many numbers, each a5a5 before");
    group.note("S ROOM 0 NUMBERS writes it into a slice of so many bytes, each a5 before");
    for (name, file, numbers) in GOOD {
        group.note(&format!("{name}, exact room and 2 more"));
        for excess in [0, 2] {
            group.read_drawing(file, numbers.len() + excess);
            group.write_drawing(numbers, file.len() + excess);
        }
    }
    group
}

/// The table of refusals.
pub fn refusals() -> Group {
    let mut group = Group::new("coordinate files and the table of refusals");
    for (name, file, _) in REFUSED {
        group.note(name);
        group.read_drawing(file, 4);
    }
    let (_, file, numbers) = GOOD[1];
    group.note("7: slices of 2 and 0 numbers for a list of 3");
    group.read_drawing(file, 2);
    group.read_drawing(file, 0);
    group.note("the writer's 1, 4, 6 and 7: refused");
    group.write_drawing(&[], 8);
    group.write_drawing(&[1, 2, 5], 8);
    for place in [5, 4, 4096] {
        group.write_drawing(&[1, 2, 5, place], 8);
    }
    group.write_drawing(&[1, 1, 0, 0], 8);
    group.write_drawing(numbers, 5);
    group.write_drawing(numbers, 0);
    group.note("a coordinate file is no sheet: refused");
    group.add(Call::Read {
        bytes: file.to_vec(),
        room: 4,
    });
    group
}
