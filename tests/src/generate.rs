//! Good sheets: random ones, and the fullest ones.

use crate::draft::{Draft, Edge, Separation};
use crate::random::Random;
use second::sheet::{
    EDGE_LIMIT, LAYER_LIMIT, LAYER_NODE_LIMIT, NODE_LIMIT, PLAIN, SEPARATION_LIMIT, STRAIGHT,
    WIDTH_LIMIT,
};

/// The length in bytes of the longest good sheet.
///
/// With K layers and 256 nodes there are 256 - K separations of four bytes each; the width and
/// the count of edges take two bytes; the signature takes three; K, the counts of nodes and the
/// numbers of the 512 edges take one byte each. That is 3,080 - 3 K, and K is at least 4.
pub const LONGEST: usize = 3068;

/// A random good sheet, small as a rule.
pub fn good(random: &mut Random) -> Draft {
    let counts = node_counts(random);
    let mut draft = Draft::new(random.within(0..=WIDTH_LIMIT), &counts);
    for separation in draft.layers.iter_mut().flatten() {
        *separation = any_separation(random);
    }
    if counts.len() > 1 {
        let most = if random.once_in(20) { EDGE_LIMIT } else { 12 };
        for _ in 0..random.within(0..=most) {
            draft.edges.push(any_edge(random, &counts));
        }
    }
    draft
}

/// A random good sheet with few nodes and a small width, so that every list of places can be tried.
pub fn tiny(random: &mut Random) -> Draft {
    let size = Size {
        width: 4,
        layers: 3,
        nodes: 6,
        edges: 6,
    };
    sized(random, &size)
}

/// A random good sheet with at most twelve nodes and twelve edges.
pub fn small(random: &mut Random) -> Draft {
    let size = Size {
        width: if random.once_in(20) { WIDTH_LIMIT } else { 20 },
        layers: 5,
        nodes: 12,
        edges: 12,
    };
    sized(random, &size)
}

/// The greatest width and counts of a random sheet.
struct Size {
    width: u16,
    layers: u16,
    nodes: u16,
    edges: u16,
}

/// A random good sheet within a size; its separations are small, and most have drawings.
fn sized(random: &mut Random, size: &Size) -> Draft {
    let mut counts = vec![1; random.within(1..=size.layers).into()];
    for _ in counts.len()..random.within(size.nodes / 2..=size.nodes).into() {
        let layer = random.index(counts.len());
        counts[layer] += 1;
    }
    let mut draft = Draft::new(random.within(0..=size.width), &counts);
    for separation in draft.layers.iter_mut().flatten() {
        separation.minimum = if random.once_in(4) { 2 } else { 1 };
        if random.once_in(3) {
            separation.maximum = separation.minimum + random.within(0..=2);
        }
    }
    if counts.len() > 1 {
        for _ in 0..random.within(0..=size.edges) {
            let mut edge = any_edge(random, &counts);
            if random.once_in(2) {
                edge.kind = PLAIN;
            }
            draft.edges.push(edge);
        }
    }
    draft
}

/// Random counts of nodes for a random count of layers.
pub fn node_counts(random: &mut Random) -> Vec<u16> {
    let (layers, nodes) = if random.once_in(10) {
        (LAYER_LIMIT, LAYER_NODE_LIMIT)
    } else {
        (5, 4)
    };
    let mut counts = vec![1; random.within(1..=layers).into()];
    let mut spare = NODE_LIMIT - counts.len() as u16;
    for count in &mut counts {
        let more = random.within(0..=spare.min(nodes - 1));
        *count += more;
        spare -= more;
    }
    counts
}

/// A random separation; about half of them have a maximum, some equal to the minimum.
fn any_separation(random: &mut Random) -> Separation {
    let greatest = if random.once_in(2) {
        SEPARATION_LIMIT
    } else {
        9
    };
    let minimum = random.within(1..=greatest);
    let maximum = match random.within(0..=3) {
        0 => minimum,
        1 => random.within(minimum..=SEPARATION_LIMIT),
        _ => 0,
    };
    Separation { minimum, maximum }
}

/// A random edge between layers with these counts of nodes.
fn any_edge(random: &mut Random, counts: &[u16]) -> Edge {
    let upper_layer = random.index(counts.len() - 1);
    Edge {
        layer: upper_layer as u16 + 1,
        upper: random.within(1..=counts[upper_layer]),
        lower: random.within(1..=counts[upper_layer + 1]),
        kind: random.within(PLAIN..=STRAIGHT),
    }
}

/// The sheet with the most numbers, 2,559, and the most bytes, 3,068.
pub fn largest() -> Draft {
    fullest(4)
}

/// The longest good sheet with this many layers; its numbers differ where they can.
pub fn fullest(layers: u16) -> Draft {
    let counts = full_counts(layers);
    let mut draft = Draft::new(WIDTH_LIMIT, &counts);
    for (i, separation) in (0..).zip(draft.layers.iter_mut().flatten()) {
        separation.minimum = 128 + 5 * i;
        separation.maximum = SEPARATION_LIMIT - 9 * i;
    }
    if layers > 1 {
        let edges = (0..EDGE_LIMIT).map(|i| full_edge(i, &counts));
        draft.edges.extend(edges);
    }
    draft
}

/// Counts of nodes that reach the limits from the first layer on.
pub fn full_counts(layers: u16) -> Vec<u16> {
    let mut counts = vec![1; layers.into()];
    let mut spare = NODE_LIMIT - layers;
    for count in &mut counts {
        let more = spare.min(LAYER_NODE_LIMIT - 1);
        *count += more;
        spare -= more;
    }
    counts
}

/// The edge number `i` of a fullest sheet.
fn full_edge(i: u16, counts: &[u16]) -> Edge {
    let upper_layer = usize::from(i) % (counts.len() - 1);
    Edge {
        layer: upper_layer as u16 + 1,
        upper: i % counts[upper_layer] + 1,
        lower: (3 * i + 1) % counts[upper_layer + 1] + 1,
        kind: i / 3 % 2,
    }
}
