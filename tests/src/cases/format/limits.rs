//! Sheets at each limit and one past it.

use super::Group;
use crate::draft::{encode, Draft};
use second::sheet::{PLAIN, STRAIGHT, WIDTH_LIMIT};

/// Numbers that are outside every limit; the second can stand in a number list only.
const TOO_LARGE: [u16; 2] = [16383, 65535];

/// The index of the first layer's count of nodes in a number list.
const FIRST_COUNT: usize = 2;

/// Limits of the width, the layers and the nodes.
pub fn layers_and_nodes() -> Group {
    let mut group = Group::new("limits of width, layers and nodes");
    group.note("width");
    vary(&mut group, &[0, 1, 1, 0], 0, &[0, 1, 4095, 4096]);
    group.note("count of layers 0 and 1");
    vary(&mut group, &[3, 1, 1, 0], 1, &[0, 1]);
    for layers in [64, 65] {
        group.note(&format!("{layers} layers"));
        group.both(&Draft::new(0, &vec![1; layers]).numbers(), 2);
    }
    group.note("count of nodes 0 and 1");
    vary(&mut group, &[3, 1, 1, 0], FIRST_COUNT, &[0, 1]);
    for nodes in [64, 65] {
        group.note(&format!("{nodes} nodes in a layer"));
        group.both(&Draft::new(63, &[nodes]).numbers(), 2);
    }
    all_nodes(&mut group);
    group
}

/// The limit of all nodes together.
fn all_nodes(group: &mut Group) {
    group.note("256 nodes in four, in five and in 64 layers");
    for counts in [&[64; 4][..], &[64, 64, 64, 63, 1], &[4; 64]] {
        group.both(&Draft::new(63, counts).numbers(), 2);
    }
    group.note("257 nodes at the last layer, at the fifth of seven, and at the 52nd of 64");
    for counts in [
        &[64, 64, 64, 63, 2][..],
        &[64, 64, 64, 1, 64, 1, 1],
        &[5; 64],
    ] {
        group.both(&Draft::new(63, counts).numbers(), 2);
    }
    group.note("a fifth layer behind 256 nodes: one node, none, no count at all");
    let numbers = Draft::new(63, &[64, 64, 64, 64, 1]).numbers();
    let (behind, _) = numbers.split_at(numbers.len() - 2);
    group.both(&numbers, 2);
    group.both(&[behind, &[0, 0]].concat(), 2);
    group.both(behind, 2);
}

/// Limits of the separations.
pub fn separations() -> Group {
    let mut group = Group::new("limits of separations");
    let loose = Draft::new(WIDTH_LIMIT, &[2]).numbers();
    let (minimum, maximum) = (FIRST_COUNT + 1, FIRST_COUNT + 2);
    group.note("minimum, no maximum");
    vary(&mut group, &loose, minimum, &[0, 1, 4095, 4096]);
    group.note("maximum, minimum 1");
    vary(&mut group, &loose, maximum, &[0, 1, 4095, 4096]);
    for least in [2, 128, 129, 4095] {
        group.note(&format!("maximum, minimum {least}"));
        let draft = Draft::new(WIDTH_LIMIT, &[2]).separation(1, 1, least, 0);
        let around = [0, least - 1, least, least + 1];
        vary(&mut group, &draft.numbers(), maximum, &around);
    }
    group.note("the last separation of three, maximum below minimum");
    let draft = Draft::new(9, &[1, 4]).separation(2, 3, 5, 4);
    group.both(&draft.numbers(), 2);
    group
}

/// Limits of the edges.
pub fn edges() -> Group {
    let mut group = Group::new("limits of edges");
    group.note("512 edges");
    group.both(&parallel(512).numbers(), 2);
    group.note("513 edges, and their count alone");
    let numbers = parallel(513).numbers();
    group.both(&numbers, 2);
    group.both(&numbers[..5], 2);
    group.note("no layer below: the count of edges is good, the layer of an edge is not");
    group.both(&Draft::new(3, &[1]).edge(1, 1, 1, PLAIN).numbers(), 2);
    group.both(&Draft::new(3, &[2]).edge(0, 1, 1, PLAIN).numbers(), 2);
    group.note("no layer below, and nothing behind the count of edges");
    group.both(&[3, 1, 1, 1], 2);
    ends(&mut group, [2, 3, 4]);
    ends(&mut group, [4, 3, 2]);
    group
}

/// A sheet with this many edges between two nodes.
fn parallel(count: u16) -> Draft {
    let mut draft = Draft::new(0, &[1, 1]);
    for i in 0..count {
        draft = draft.edge(1, 1, 1, i % 2);
    }
    draft
}

/// Limits of the numbers of an edge between three layers with these counts of nodes.
///
/// All four numbers are 1 at first, so the first variation has the case where they all stay so.
fn ends(group: &mut Group, counts: [u16; 3]) {
    let draft = Draft::new(9, &counts).edge(1, 1, 1, STRAIGHT);
    let numbers = draft.numbers();
    let layer = numbers.len() - 4;
    let [upper, lower, kind] = [layer + 1, layer + 2, layer + 3];
    let [first, second, third] = counts;
    group.note(&format!("{first}, {second} and {third} nodes: layer"));
    vary(group, &numbers, layer, &[0, 1, 2, 3, 4]);
    group.note("position in the upper layer");
    vary(group, &numbers, upper, &[0, first, first + 1]);
    group.note("position in the lower layer");
    vary(group, &numbers, lower, &[0, second, second + 1]);
    group.note("kind");
    vary(group, &numbers, kind, &[0, 2]);
    let numbers = Draft::new(9, &counts).edge(2, 1, 1, PLAIN).numbers();
    group.note("position in the upper layer of the second pair");
    vary(group, &numbers, upper, &[0, second, second + 1]);
    group.note("position in the lower layer of the second pair");
    vary(group, &numbers, lower, &[0, third, third + 1]);
}

/// Adds a sheet once for each value of the number at an index, and for values far too large.
fn vary(group: &mut Group, numbers: &[u16], index: usize, values: &[u16]) {
    let mut numbers = numbers.to_vec();
    for &value in values {
        numbers[index] = value;
        group.both(&numbers, 1);
    }
    let room = numbers.len() + 1;
    numbers[index] = TOO_LARGE[0];
    group.read(&encode(&numbers), room);
    for value in TOO_LARGE {
        numbers[index] = value;
        group.write(&numbers, room);
    }
}
