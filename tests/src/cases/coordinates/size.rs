//! Files of full size, and slices of every length around the one that is needed.

use super::Group;
use crate::files::{longest, side_by_side, GOOD};

/// Files of full size.
pub fn full() -> Group {
    let mut group = Group::new("coordinate files of full size");
    let drawings = [
        ("64 nodes from 0 on", side_by_side(0)),
        ("64 nodes up to 4,095", side_by_side(4032)),
        ("the most numbers and the most bytes", longest()),
    ];
    for (name, rows) in drawings {
        let (numbers, file) = (rows.numbers(), rows.bytes());
        group.note(&format!("{name}: exactly enough room, and one more"));
        group.rows(&rows, 0);
        group.rows(&rows, 1);
        group.note(&format!(
            "{name}: one element short, cut off, appended: refused"
        ));
        group.read_drawing(&file, numbers.len() - 1);
        group.write_drawing(&numbers, file.len() - 1);
        group.read_drawing(&file[..file.len() - 1], numbers.len());
        group.write_drawing(&numbers[..numbers.len() - 1], file.len());
        group.read_drawing(&[&file[..], &[0; 400]].concat(), numbers.len());
        group.write_drawing(&[&numbers[..], &[0; 400]].concat(), file.len());
    }
    group.note("64 nodes past 4,095: refused");
    group.rows(&side_by_side(4033), 2);
    group
}

/// Slices of every length.
pub fn rooms() -> Group {
    let mut group = Group::new("slices of every length for coordinate files");
    for (name, file, numbers) in GOOD {
        group.note(name);
        for room in 0..numbers.len() + 4 {
            group.read_drawing(file, room);
        }
        for room in 0..file.len() + 4 {
            group.write_drawing(numbers, room);
        }
    }
    group
}
