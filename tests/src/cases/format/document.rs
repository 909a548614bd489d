//! The examples of document 01.

use super::Group;
use crate::document::{self, NO_DRAWING, ONE_NODE, REFUSED};

/// The table of refusals.
pub fn refusals() -> Group {
    let mut group = Group::new("reading and writing the table of refusals");
    group.note("R ROOM 0 BYTES reads a sheet into a slice of so many numbers, each a5a5 before");
    group.note("W ROOM 0 NUMBERS writes it into a slice of so many bytes, each a5 before");
    for (name, bytes) in REFUSED {
        group.note(name);
        group.read(bytes, 8);
    }
    group.note("7: slices of 3 and 0 numbers for a sheet of 4");
    group.read(&ONE_NODE, 3);
    group.read(&ONE_NODE, 0);
    group.note("8: no drawing, but a good sheet");
    group.read(&NO_DRAWING, 6);
    group.write(&[0, 1, 2, 1, 0, 0], 9);
    written_refusals(&mut group);
    group
}

/// The refusals that the writer gives.
fn written_refusals(group: &mut Group) {
    group.note("the writer's 1, 4, 5, 6 and 7");
    group.write(&[], 8);
    group.write(&[5, 1], 8);
    group.write(&[5, 0], 8);
    group.write(&[5, 1, 2, 3, 2], 8);
    group.write(&[0, 1, 1, 0, 0], 8);
    group.write(&[0, 1, 1, 0], 6);
    group.write(&[0, 1, 1, 0], 0);
}

/// The sheets on either side of each edge.
pub fn sheets() -> Group {
    let mut group = Group::new("reading and writing the sheets on either side of each edge");
    for (name, draft) in document::sheets() {
        group.note(&format!("{name}, exact room and 2 more"));
        for excess in [0, 2] {
            group.both(&draft.numbers(), excess);
        }
    }
    group
}

/// The three widths given in bytes.
pub fn widths() -> Group {
    let mut group = Group::new("reading the widths ff 1f, 80 20 and 80 80");
    for [low, high] in [[0xff, 0x1f], [0x80, 0x20], [0x80, 0x80]] {
        group.read(&[0x53, 0x50, 0x31, low, high, 0x01, 0x01, 0x00], 6);
    }
    group.note("writing the widths 4,095 and 4,096");
    group.write(&[4095, 1, 1, 0], 10);
    group.write(&[4096, 1, 1, 0], 10);
    group
}
