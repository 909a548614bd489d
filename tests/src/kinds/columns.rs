//! Columns of nodes: chains through several layers, and ordinary nodes.

use std::ops::Range;

use super::plans::Plan;
use crate::families::orders::shuffled;
use crate::planted::add_nodes;
use crate::random::Random;

/// The layers, from 0, in which nodes stand above one another: those of a chain, or one.
pub type Column = Range<usize>;

/// Whether the nodes of a column are a chain.
pub fn is_chain(column: &Column) -> bool {
    column.len() > 1
}

/// The columns of a sheet from left to right: chains and ordinary nodes in random order. Each layer has
/// an ordinary node.
pub fn columns(random: &mut Random, plan: &Plan) -> Vec<Column> {
    let mut columns = chains(random, plan);
    let mut chained = vec![0; plan.layers.into()];
    for layer in columns.iter().cloned().flatten() {
        chained[layer] += 1;
    }
    let mut counts: Vec<u16> = chained.iter().map(|count| count + 1).collect();
    add_nodes(random, &mut counts, plan.nodes);
    for layer in 0..counts.len() {
        let ordinary = chained[layer]..counts[layer];
        columns.extend(ordinary.map(|_| layer..layer + 1));
    }
    shuffled(random, columns)
}

/// Chains of two nodes or more, in inner layers only, until all nodes in chains are used up but for one
/// at most.
fn chains(random: &mut Random, plan: &Plan) -> Vec<Column> {
    let mut chains = Vec::new();
    let mut left = plan.chained;
    while left > 1 {
        let length = random.within(2..=left.min(plan.layers - 2));
        let first = random.within(1..=plan.layers - 1 - length);
        chains.push(first.into()..(first + length).into());
        left -= length;
    }
    chains
}
