//! Random sheets of medium and of full size, about as large as the arrays for small ones, and with many
//! parallel edges, and those with the longest edges; all have a drawing.

use crate::draft::Draft;
use crate::planted::{planted, Plan};
use crate::random::Random;
use second::sheet::{EDGE_LIMIT, LAYER_LIMIT, NODE_LIMIT, PLAIN, WIDTH_LIMIT};

/// One of some numbers.
fn one_of(random: &mut Random, numbers: &[u16]) -> u16 {
    numbers[random.index(numbers.len())]
}

/// A random plan with these counts: tight or wide, with few or many straight edges and maxima.
fn any_plan(random: &mut Random, layers: u16, nodes: u16, edges: u16) -> Plan {
    Plan {
        layers,
        nodes,
        edges,
        distance: one_of(random, &[1, 2, 3, 9, 60]),
        play: one_of(random, &[0, 1, 2, 8, 50]),
        margin: one_of(random, &[0, 0, 1, 9, 100, 3000]),
        straight: one_of(random, &[1, 2, 4, 20, 100]),
        maximum: one_of(random, &[1, 2, 4, 20, 100]),
    }
}

/// A sheet of some dozens of nodes and edges.
pub fn medium(random: &mut Random) -> Draft {
    let layers = random.within(2..=20);
    let nodes = random.within(layers.max(20)..=80);
    let edges = random.within(20..=160);
    let plan = any_plan(random, layers, nodes, edges);
    planted(random, &plan)
}

/// A sheet with 95 to 97 arcs (an edge is one, a node has two), or with 47 to 49 nodes: about as large as
/// the library's arrays for small sheets.
pub fn nearly_small(random: &mut Random) -> Draft {
    let (nodes, edges) = match random.index(2) {
        0 => {
            let nodes = random.within(10..=40);
            (nodes, random.within(95..=97) - 2 * nodes)
        }
        _ => (random.within(47..=49), random.within(1..=60)),
    };
    let layers = random.within(2..=9);
    let plan = any_plan(random, layers, nodes, edges);
    planted(random, &plan)
}

/// A sheet of 256 nodes and 512 edges in this many layers.
pub fn full(random: &mut Random, layers: u16) -> Draft {
    let plan = any_plan(random, layers, NODE_LIMIT, EDGE_LIMIT);
    planted(random, &plan)
}

/// A sheet of a few nodes and up to 512 edges, most of which have the same ends as others.
pub fn parallel(random: &mut Random) -> Draft {
    let layers = random.within(2..=5);
    let nodes = random.within(layers..=14);
    let edges = one_of(random, &[30, 60, 120, EDGE_LIMIT]);
    let plan = any_plan(random, layers, nodes, edges);
    planted(random, &plan)
}

/// Two layers that fill the greatest width, and 512 parallel edges from the left to the right.
pub fn longest_parallel() -> Draft {
    let mut draft = Draft::new(WIDTH_LIMIT, &[2, 2])
        .separation(1, 1, WIDTH_LIMIT, 0)
        .separation(2, 1, WIDTH_LIMIT, WIDTH_LIMIT);
    for _ in 0..EDGE_LIMIT {
        draft = draft.edge(1, 1, 2, PLAIN);
    }
    draft
}

/// 256 nodes in 64 layers, each next to a boundary, and 512 edges across, of which no two are parallel.
///
/// Every node has one place only, and the edges are as long as they can be then.
pub fn longest_edges() -> Draft {
    // how many nodes of a layer, from 1, stand at the left boundary and at the right one
    let sides = |layer: u16| match layer {
        1 | LAYER_LIMIT => (1, 1),
        10 | 20 | 30 | 40 => (3, 2),
        _ => (2, 2),
    };
    let count = |layer| sides(layer).0 + sides(layer).1;
    let counts: Vec<u16> = (1..=LAYER_LIMIT).map(count).collect();
    let mut draft = Draft::new(WIDTH_LIMIT, &counts);
    for layer in 1..=LAYER_LIMIT {
        let left = sides(layer).0;
        let across = WIDTH_LIMIT + 2 - count(layer);
        draft = draft.separation(layer.into(), left.into(), across, 0);
    }
    for layer in 1..LAYER_LIMIT {
        for upper in 1..=count(layer) {
            for lower in 1..=count(layer + 1) {
                if (upper <= sides(layer).0) != (lower <= sides(layer + 1).0) {
                    draft = draft.edge(layer, upper, lower, PLAIN);
                }
            }
        }
    }
    draft
}
