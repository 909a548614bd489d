//! Sheets turned around: the total stays.

use crate::draft::Draft;

/// The sheet with left and right exchanged.
pub fn mirrored(draft: &Draft) -> Draft {
    let mut mirrored = draft.clone();
    for layer in &mut mirrored.layers {
        layer.reverse();
    }
    let count = |layer: u16| draft.layers[usize::from(layer) - 1].len() as u16 + 1;
    for edge in &mut mirrored.edges {
        edge.upper = count(edge.layer) + 1 - edge.upper;
        edge.lower = count(edge.layer + 1) + 1 - edge.lower;
    }
    mirrored
}

/// The sheet with top and bottom exchanged; the edges stand in reversed order.
pub fn upside_down(draft: &Draft) -> Draft {
    let mut turned = draft.clone();
    turned.layers.reverse();
    turned.edges.reverse();
    for edge in &mut turned.edges {
        edge.layer = draft.layers.len() as u16 - edge.layer;
        (edge.upper, edge.lower) = (edge.lower, edge.upper);
    }
    turned
}
