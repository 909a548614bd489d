//! Slices of every length around the one that is needed.

use super::Group;
use crate::document;
use crate::draft::Draft;
use crate::generate;
use second::sheet::STRAIGHT;

/// The largest sheet.
pub fn largest() -> Group {
    let mut group = Group::new("the largest sheet");
    let draft = generate::largest();
    let (numbers, bytes) = (draft.numbers(), draft.bytes());
    let (count, length) = (numbers.len(), bytes.len());
    group.note("read with exactly enough room, one number short, one number more");
    for room in [count, count - 1, count + 1] {
        group.read(&bytes, room);
    }
    group.note("one byte cut off");
    group.read(&bytes[..length - 1], count);
    group.note("one byte appended, and many");
    let mut appended = bytes;
    appended.push(0x00);
    group.read(&appended, count);
    appended.resize(6000, 0x80);
    group.read(&appended, count);
    group.note("written with exactly enough room, one byte short");
    group.write(&numbers, length);
    group.write(&numbers, length - 1);
    group.note("one number cut off, and many appended");
    group.write(&numbers[..count - 1], length);
    let mut appended = numbers;
    appended.resize(6000, 65535);
    group.write(&appended, length);
    group
}

/// Small sheets with slices of every length.
pub fn rooms() -> Group {
    let mut group = Group::new("slices of every length: too short, exact, with elements kept");
    let mixed = Draft::new(300, &[2, 1])
        .separation(1, 1, 127, 128)
        .edge(1, 2, 1, STRAIGHT);
    let drafts = [
        ("one node", Draft::new(0, &[1])),
        ("first sheet", document::first()),
        ("numbers of one and of two bytes", mixed),
    ];
    for (name, draft) in drafts {
        group.note(name);
        let (numbers, bytes) = (draft.numbers(), draft.bytes());
        for room in 0..numbers.len() + 4 {
            group.read(&bytes, room);
        }
        for room in 0..bytes.len() + 4 {
            group.write(&numbers, room);
        }
    }
    group
}
