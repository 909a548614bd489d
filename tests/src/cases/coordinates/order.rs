//! Long forms, and inputs with several faults, of which the first in order is told.

use super::Group;
use crate::document;
use crate::files::encode_file;
use second::coordinates::SIGNATURE;

/// Each number in forms that are not the shortest.
pub fn forms() -> Group {
    let mut group = Group::new("long forms in coordinate files: refused");
    let numbers = [1, 2, 5, 3];
    for at in 0..numbers.len() {
        let front = encode_file(&numbers[..at]);
        let low = numbers[at] as u8 | 0x80;
        for form in [
            &[low, 0x00][..],
            &[low, 0x80],
            &[low, 0x80, 0x00],
            &[0x80, 0x80, 0x01],
        ] {
            group.read_drawing(&[&front, form].concat(), 4);
            group.read_drawing(&[&front, form, &[0x03]].concat(), 0);
        }
    }
    group
}

/// Refusals that come before others.
pub fn faults() -> Group {
    let mut group = Group::new("the order of refusals, coordinate files");
    heads(&mut group);
    files(&mut group);
    lists(&mut group);
    group.note("sheets are no coordinate files: refused");
    for (_, draft) in document::sheets() {
        group.read_drawing(&draft.bytes(), 9);
    }
    group
}

/// Inputs whose first three bytes are wrong or missing.
fn heads(group: &mut Group) {
    group.note("1 before 2: fewer than three bytes, right or wrong: refused");
    let short: [&[u8]; 6] = [
        &[],
        &[0x53],
        &[0x00],
        &[0x53, 0x44],
        &[0x53, 0x50],
        &[0xff, 0xff],
    ];
    for file in short {
        group.read_drawing(file, 2);
    }
    group.note("2 before anything behind: refused");
    for signature in [[0x00, 0x44, 0x31], [0x53, 0x64, 0x31], [0x53, 0x44, 0x32]] {
        for behind in [&[][..], &[0x00], &[0x01, 0x01, 0x00], &[0x80, 0x80]] {
            group.read_drawing(&[&signature, behind].concat(), 3);
            group.read_drawing(&[&signature, behind].concat(), 0);
        }
    }
}

/// Files with several faults.
fn files(group: &mut Group) {
    group.note("the first fault of several, with room and without: refused");
    let behind: [&[u8]; 12] = [
        &[],
        &[0x01],
        &[0x01, 0x02, 0x00],
        &[0x01, 0x02, 0x00, 0x80],
        &[0x01, 0x02, 0x00, 0x00, 0x80],
        &[0x01, 0x02, 0x00, 0x80, 0x20, 0x80],
        &[0x01, 0x02, 0x80, 0x20, 0x00],
        &[0x41, 0x41],
        &[0x01, 0x41, 0x80, 0x00],
        &[0x01, 0x01, 0x00, 0x00],
        &[0x01, 0x01, 0x00, 0x80, 0x80],
        &[0x02, 0x01, 0x00, 0x01, 0x00, 0x53, 0x44, 0x31],
    ];
    for behind in behind {
        let file = [&SIGNATURE, behind].concat();
        group.read_drawing(&file, 9);
        group.read_drawing(&file, 0);
    }
}

/// Number lists with several faults.
fn lists(group: &mut Group) {
    group.note("the same in lists: refused");
    let lists: [&[u16]; 8] = [
        &[],
        &[1],
        &[1, 2, 0],
        &[65, 65],
        &[1, 2, 4096, 0],
        &[1, 2, 5, 5, 0],
        &[1, 1, 0, 65535],
        &[2, 1, 0, 1, 0, 1, 0],
    ];
    for numbers in lists {
        group.write_drawing(numbers, 9);
        group.write_drawing(numbers, 0);
    }
}
