//! Single numbers.

use super::Group;

/// The unsigned LEB128 examples of DWARF 5.
pub fn published() -> Group {
    let mut group = Group::new("published unsigned LEB128 examples of DWARF 5, read and written");
    group.note("G 0 AT BYTES reads the number at a position");
    group.note("P ROOM AT NUMBER writes it into a slice of so many bytes, each a5 before");
    let examples: [(u32, &[u8]); 5] = [
        (2, &[0x02]),
        (127, &[0x7f]),
        (128, &[0x80, 0x01]),
        (129, &[0x81, 0x01]),
        (12857, &[0xb9, 0x64]),
    ];
    for (n, bytes) in examples {
        group.read_number(bytes, 0);
        group.write_number(n, 0, bytes.len());
    }
    group
}

/// Numbers, positions and slices on either side of what can be read and written.
pub fn limits() -> Group {
    let mut group = Group::new("single numbers on either side of each limit");
    read(&mut group);
    refuse(&mut group);
    write(&mut group);
    group
}

/// Numbers that are read.
fn read(group: &mut Group) {
    group.note("the least and the greatest number of one byte and of two bytes");
    for bytes in [&[0x00][..], &[0x7f], &[0x80, 0x01], &[0xff, 0x7f]] {
        group.read_number(bytes, 0);
    }
    group.note("the first number past the greatest width");
    group.read_number(&[0x80, 0x20], 0);
    group.note("numbers between other bytes, and the last one");
    for at in 0..6 {
        group.read_number(&[0x05, 0xff, 0x1f, 0x80, 0x02, 0x00], at);
    }
}

/// Numbers that are refused.
fn refuse(group: &mut Group) {
    group.note("reading at the end and past the end");
    group.read_number(&[], 0);
    group.read_number(&[], 1);
    group.read_number(&[0x05, 0x06], 2);
    group.read_number(&[0x05, 0x06], 3);
    group.read_number(&[0x05, 0x06], 0xffff);
    group.note("a number cut off after its first byte");
    group.read_number(&[0x80], 0);
    group.read_number(&[0xff], 0);
    group.read_number(&[0x05, 0x06, 0x81], 2);
    group.note("a second byte that is 00 or has its high bit set");
    group.read_number(&[0x80, 0x00], 0);
    group.read_number(&[0xff, 0x00], 0);
    group.read_number(&[0x80, 0x80], 0);
    group.read_number(&[0xff, 0xff, 0x03], 0);
    group.read_number(&[0x05, 0x85, 0x00, 0x05], 1);
    group.read_number(&[0x05, 0x85, 0x80, 0x01], 1);
}

/// Numbers that are written, or not.
fn write(group: &mut Group) {
    group.note("the least and the greatest number of one byte and of two bytes, written");
    for n in [0, 127, 128, 16383] {
        group.write_number(n, 0, 3);
    }
    group.note("a number behind and before other bytes");
    group.write_number(7, 1, 3);
    group.write_number(300, 1, 4);
    group.note("exactly room, one byte short, none left");
    for (n, at, room) in [(0, 2, 3), (300, 2, 4), (300, 2, 3), (0, 3, 3), (300, 3, 3)] {
        group.write_number(n, at, room);
    }
    group.note("a position past the end, and a slice without bytes");
    for (n, at, room) in [
        (0, 4, 3),
        (300, 4, 3),
        (0, 0xffff, 3),
        (0, 0, 0),
        (300, 0, 0),
    ] {
        group.write_number(n, at, room);
    }
    group.note("numbers without a form of two bytes");
    for n in [16384, 16385, 65535, 65536, 0x8000_0000, 4294967295] {
        group.write_number(n, 0, 4);
    }
    group.note("neither form nor room");
    group.write_number(16384, 0, 0);
    group.write_number(4294967295, 5, 4);
}
