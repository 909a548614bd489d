//! Numbers at each limit and past it.

use super::Group;
use crate::files::Rows;
use second::coordinates::PLACE_LIMIT;

/// Counts of layers and nodes at each limit and past it.
pub fn counts() -> Group {
    let mut group = Group::new("limits of layers and nodes in coordinate files");
    group.note("no layers, and a layer without nodes: refused");
    for numbers in [[0, 1, 0], [1, 0, 0]] {
        group.read_numbers(&numbers);
        group.write_drawing(&numbers, 9);
    }
    group.note("counts that are outside every limit: refused");
    for count in [128, 4096, 16383] {
        group.read_numbers(&[count, 1, 0]);
        group.read_numbers(&[1, count, 0]);
    }
    for count in [128, 16383, 65535] {
        group.write_drawing(&[count, 1, 0], 9);
        group.write_drawing(&[1, count, 0], 9);
    }
    all_nodes(&mut group);
    group
}

/// A drawing with these counts of nodes, side by side from 0 on.
fn drawing(counts: &[u16]) -> Rows {
    let row = |&count: &u16| (0..count).collect();
    Rows(counts.iter().map(row).collect())
}

/// The limits of layers, of a layer's nodes, and of all nodes together.
fn all_nodes(group: &mut Group) {
    group.note("64 layers, 64 nodes in a layer, 256 nodes in four, in five and in 64 layers");
    group.rows(&drawing(&[1; 64]), 2);
    group.rows(&drawing(&[64]), 2);
    for counts in [&[64; 4][..], &[64, 64, 64, 63, 1], &[4; 64]] {
        group.rows(&drawing(counts), 2);
    }
    group.note("65 layers, 65 nodes in a layer: refused");
    group.rows(&drawing(&[1; 65]), 2);
    group.rows(&drawing(&[65]), 2);
    group.note("257 nodes at the last layer, at the fifth of seven, at the 52nd of 64: refused");
    group.rows(&drawing(&[64, 64, 64, 63, 2]), 2);
    group.rows(&drawing(&[64, 64, 64, 1, 64, 1, 1]), 2);
    group.rows(&drawing(&[5; 64]), 2);
    group.note("a fifth layer behind 256 nodes: no node, no count at all: refused");
    let numbers = drawing(&[64, 64, 64, 64, 1]).numbers();
    let (behind, _) = numbers.split_at(numbers.len() - 2);
    group.write_drawing(&[behind, &[0, 0]].concat(), 600);
    group.write_drawing(behind, 600);
}

/// Places and distances at each limit and past it.
pub fn places() -> Group {
    let mut group = Group::new("limits of places in coordinate files");
    group.note("the first place");
    for place in [0, 1, 127, 128, 4095, 4096, 16383] {
        group.read_numbers(&[1, 1, place]);
        group.write_drawing(&[1, 1, place], 9);
    }
    group.write_drawing(&[1, 1, 65535], 9);
    for left in [0, 1, 126, 127, 128, 2048, 3967, 3968, 4094, 4095] {
        neighbours(&mut group, left);
    }
    group.note("a layer starts anywhere, whatever is above it");
    let rows = Rows(vec![vec![4094, 4095], vec![0], vec![4095], vec![0]]);
    group.rows(&rows, 2);
    group
}

/// Distances and places right of a place.
fn neighbours(group: &mut Group, left: u16) {
    let most = PLACE_LIMIT - left;
    group.note(&format!("right of {left}: distances around 1 and {most}"));
    for distance in [0, 1, most, most + 1, 4095, 4096, 16383] {
        group.read_numbers(&[1, 2, left, distance]);
        group.read_numbers(&[2, 1, 7, 3, 0, left, distance]);
    }
    group.note(&format!("right of {left}: places around it and 4,095"));
    for place in [left.saturating_sub(1), left, left + 1, 4095, 4096, 65535] {
        group.write_drawing(&[1, 2, left, place], 9);
        group.write_drawing(&[1, 3, left, place, 4095], 9);
    }
}
