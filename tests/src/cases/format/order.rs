//! Inputs with several faults, of which the first in order is told.

use super::Group;

/// Inputs of the reader.
pub fn reading() -> Group {
    let mut group = Group::new("several faults in the bytes of a sheet");
    heads(&mut group);
    let faults: [(&str, &[u8]); 16] = [
        ("1 and not 3", &[0x80]),
        ("1 and not 3, second number", &[0x05, 0x80]),
        ("3 before 4", &[0x05, 0x80, 0x00]),
        ("3 before 4, too large", &[0x05, 0xff, 0xff]),
        ("3 before 1", &[0x80, 0x80]),
        ("4 before 1", &[0x80, 0x20]),
        ("an earlier 4 before a later 3", &[0x80, 0x20, 0x80, 0x80]),
        ("an earlier 4 before a later 4", &[0x05, 0x41, 0x41]),
        ("an earlier 3 before a later 4", &[0x80, 0x00, 0x00]),
        (
            "4 at the minimum before 5 at the maximum",
            &[0x05, 0x01, 0x02, 0x80, 0x20, 0x01, 0x00],
        ),
        (
            "4 and not 5: minimum 4,095 and maximum 4,096",
            &[0x05, 0x01, 0x02, 0xff, 0x1f, 0x80, 0x20, 0x00],
        ),
        (
            "3 before 5: maximum 1 in two bytes",
            &[0x05, 0x01, 0x02, 0x03, 0x81, 0x00, 0x00],
        ),
        ("5 before 1", &[0x05, 0x01, 0x02, 0x03, 0x01]),
        ("5 before 6", &[0x05, 0x01, 0x02, 0x03, 0x01, 0x00, 0x00]),
        (
            "5 before a later 4",
            &[0x05, 0x01, 0x02, 0x03, 0x01, 0x81, 0x20],
        ),
        (
            "4 before 6",
            &[0x05, 0x02, 0x01, 0x01, 0x01, 0x01, 0x01, 0x01, 0x02, 0x00],
        ),
    ];
    for (name, bytes) in faults {
        group.note(&format!("{name}, with room and without"));
        let sheet = [&[0x53, 0x50, 0x31], bytes].concat();
        group.read(&sheet, 9);
        group.read(&sheet, 0);
    }
    excess(&mut group);
    group
}

/// Inputs whose first three bytes are wrong or missing.
fn heads(group: &mut Group) {
    group.note("1 before 2: fewer than three bytes, right or wrong");
    let short: [&[u8]; 7] = [
        &[],
        &[0x53],
        &[0x00],
        &[0x53, 0x50],
        &[0x53, 0x51],
        &[0x00, 0x50],
        &[0xff, 0xff],
    ];
    for bytes in short {
        group.read(bytes, 2);
    }
    group.note("2 before anything behind");
    let wrong: [&[u8]; 7] = [
        &[0x00, 0x50, 0x31],
        &[0x53, 0x00, 0x31],
        &[0x53, 0x50, 0x00],
        &[0x53, 0x50, 0x32, 0x80, 0x80],
        &[0x53, 0x50, 0x30, 0x05, 0x00],
        &[0x73, 0x70, 0x31, 0x00, 0x01, 0x01, 0x00],
        &[0x53, 0x50, 0xb1, 0x00, 0x01, 0x01, 0x00, 0x00],
    ];
    for bytes in wrong {
        group.read(bytes, 5);
        group.read(bytes, 0);
    }
}

/// Sheets with something behind them.
fn excess(group: &mut Group) {
    let sheet = [0x53, 0x50, 0x31, 0x00, 0x01, 0x01, 0x00];
    group.note("6 before 7, whatever follows");
    for byte in [0x00, 0x01, 0x53, 0x80, 0xff] {
        let longer = [&sheet[..], &[byte]].concat();
        group.read(&longer, 4);
        group.read(&longer, 0);
    }
    group.note("6 at the first of several bytes");
    group.read(&[&sheet[..], &sheet[..]].concat(), 4);
}

/// Inputs of the writer.
pub fn writing() -> Group {
    let mut group = Group::new("several faults in the numbers of a sheet, with room and without");
    let faults: [(&str, &[u16]); 13] = [
        ("1 before 7, no numbers", &[]),
        ("1 before 7", &[5, 1]),
        ("4 before 1", &[4096]),
        ("an earlier 4 before a later 4", &[5, 65, 65]),
        ("4 at the minimum before 5", &[5, 1, 2, 4096, 1, 0]),
        ("4 and not 5", &[5, 1, 2, 4095, 4096, 0]),
        ("4 at both separations", &[5, 1, 2, 65535, 5000, 0]),
        ("5 before 1", &[5, 1, 2, 3, 1]),
        ("5 before 6", &[5, 1, 2, 3, 1, 0, 0]),
        ("5 before a later 4", &[5, 1, 2, 3, 1, 513]),
        ("4 before 6", &[5, 2, 1, 1, 1, 1, 1, 1, 2, 0]),
        ("6 before 7", &[0, 1, 1, 0, 0]),
        ("6 at the first of several numbers", &[0, 1, 1, 0, 65535, 0]),
    ];
    for (name, numbers) in faults {
        group.note(name);
        group.write(numbers, 9);
        group.write(numbers, 0);
    }
    group
}
