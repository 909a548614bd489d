//! The same sheet with its edges in other orders, and sheets whose edges are in certain layers only.

use std::cmp::Reverse;
use std::collections::HashSet;

use crate::draft::{Draft, Edge};
use crate::random::Random;
use second::drawing::Sheet;
use second::sheet::{EDGE_LIMIT, LAYER_NODE_LIMIT, PLAIN, STRAIGHT};
use second::traces::traces;

/// Orders of the edges of a sheet: reversed, top layer first, bottom layer first, and shuffled three
/// times; its own order, and one that was there already, are left out. Each is a list of indices.
pub fn orders(random: &mut Random, draft: &Draft) -> Vec<Vec<usize>> {
    let own: Vec<usize> = (0..draft.edges.len()).collect();
    let layer = |&i: &usize| draft.edges[i].layer;
    let reversed = own.iter().rev().copied().collect();
    let (mut top_first, mut bottom_first) = (own.clone(), own.clone());
    top_first.sort_by_key(layer);
    bottom_first.sort_by_key(|i| Reverse(layer(i)));
    let mut orders = vec![reversed, top_first, bottom_first];
    orders.extend((0..3).map(|_| shuffled(random, own.clone())));
    let mut known = HashSet::from([own]);
    orders.retain(|order| known.insert(order.clone()));
    orders
}

/// The list in a random order.
pub fn shuffled<T>(random: &mut Random, mut list: Vec<T>) -> Vec<T> {
    for end in (1..list.len()).rev() {
        list.swap(end, random.index(end + 1));
    }
    list
}

/// The sheet with its edges in an order.
pub fn in_order(draft: &Draft, order: &[usize]) -> Draft {
    Draft {
        edges: order.iter().map(|&i| draft.edges[i].clone()).collect(),
        ..draft.clone()
    }
}

/// The pull list of a sheet for the same sheet with its edges in an order: the pull of parallel edges
/// goes to the one that is the first there.
pub fn list_in_order(sheet: &Sheet, list: &[i32], order: &[usize]) -> Vec<i32> {
    let (traces, mut known) = (traces(sheet), HashSet::new());
    let pull = |&i: &usize| {
        let ends = sheet.edges[i].ends();
        match known.insert(ends) {
            true => list[traces[&ends].first],
            false => 0,
        }
    };
    let pulls = order.iter().map(pull);
    pulls.chain(list[order.len()..].iter().copied()).collect()
}

/// 512 edges between two neighbouring layers of 64 nodes with little room, the upper one given as it is
/// counted in the sheet, and none in the other layers.
pub fn in_one_pair(random: &mut Random, layers: u16, upper_layer: u16) -> Draft {
    let mut counts: Vec<u16> = (0..layers).map(|_| random.within(1..=2)).collect();
    counts[usize::from(upper_layer) - 1] = LAYER_NODE_LIMIT;
    counts[usize::from(upper_layer)] = LAYER_NODE_LIMIT;
    let mut draft = Draft::new(63 + random.within(0..=9), &counts);
    for _ in 0..EDGE_LIMIT {
        draft.edges.push(any_edge(random, &counts, upper_layer));
    }
    draft
}

/// One edge in each pair of neighbouring layers of up to four nodes with little room, in any order.
pub fn one_in_each_pair(random: &mut Random, layers: u16) -> Draft {
    let counts: Vec<u16> = (0..layers).map(|_| random.within(1..=4)).collect();
    let mut draft = Draft::new(random.within(3..=4), &counts);
    for upper_layer in shuffled(random, (1..layers.into()).collect()) {
        let edge = any_edge(random, &counts, upper_layer as u16);
        draft.edges.push(edge);
    }
    draft
}

/// An edge from a layer to the next one; some are straight that join equal positions.
///
/// Where neighbours are 1 apart at least and no maximum is set, all these straight edges can be drawn.
fn any_edge(random: &mut Random, counts: &[u16], upper_layer: u16) -> Edge {
    let layer = usize::from(upper_layer);
    let (upper, lower) = (
        random.within(1..=counts[layer - 1]),
        random.within(1..=counts[layer]),
    );
    let is_straight = upper == lower && random.once_in(4);
    Edge {
        layer: upper_layer,
        upper,
        lower,
        kind: if is_straight { STRAIGHT } else { PLAIN },
    }
}

/// Layers of four nodes, each with one place only, and one edge in each pair of layers, with lengths
/// 1, 2 and 3 in turn from the top.
pub fn turns(layers: u16) -> Draft {
    let mut draft = Draft::new(3, &vec![4; layers.into()]);
    for layer in 1..layers {
        draft = draft.edge(layer, 1, 2 + (layer - 1) % 3, PLAIN);
    }
    draft
}

/// One node in each layer, with room to move by one step, and one plain edge in each pair of layers.
pub fn chain(layers: u16) -> Draft {
    let mut draft = Draft::new(1, &vec![1; layers.into()]);
    for layer in 1..layers {
        draft = draft.edge(layer, 1, 1, PLAIN);
    }
    draft
}
