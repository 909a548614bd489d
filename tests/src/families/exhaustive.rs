//! All sheets within very small limits.

use crate::draft::{Draft, Edge, Separation};
use second::sheet::{PLAIN, STRAIGHT};

/// The counts of nodes, each with the greatest count of edges.
const SHAPES: [(&[u16], usize); 9] = [
    (&[1], 0),
    (&[2], 0),
    (&[3], 0),
    (&[1, 1], 3),
    (&[1, 2], 3),
    (&[2, 1], 3),
    (&[1, 3], 2),
    (&[3, 1], 2),
    (&[2, 2], 2),
];
/// The separations, minimum and maximum.
const SEPARATIONS: [(u16, u16); 6] = [(1, 0), (1, 1), (1, 2), (2, 0), (2, 2), (2, 3)];
/// The greatest width.
const WIDTH: u16 = 3;

/// All sheets of these shapes, separations and widths, with all lists of so many edges.
pub fn sheets() -> Vec<Draft> {
    let mut sheets = Vec::new();
    for width in 0..=WIDTH {
        for (counts, edges) in SHAPES {
            let lists = lists_of_edges(&all_edges(counts), edges);
            for draft in separated(&Draft::new(width, counts)) {
                sheets.extend(lists.iter().map(|edges| Draft {
                    edges: edges.clone(),
                    ..draft.clone()
                }));
            }
        }
    }
    sheets
}

/// A sheet with each choice of separations.
fn separated(draft: &Draft) -> Vec<Draft> {
    let mut drafts = vec![draft.clone()];
    for layer in 0..draft.layers.len() {
        for pair in 0..draft.layers[layer].len() {
            let with = |draft: &Draft| {
                let mut draft = draft.clone();
                SEPARATIONS.map(|(minimum, maximum)| {
                    draft.layers[layer][pair] = Separation { minimum, maximum };
                    draft.clone()
                })
            };
            drafts = drafts.iter().flat_map(with).collect();
        }
    }
    drafts
}

/// Every edge between the first layer and the second, of each kind.
fn all_edges(counts: &[u16]) -> Vec<Edge> {
    let mut edges = Vec::new();
    for upper in 1..=counts[0] {
        for lower in 1..=counts.get(1).copied().unwrap_or(0) {
            for kind in [PLAIN, STRAIGHT] {
                edges.push(Edge {
                    layer: 1,
                    upper,
                    lower,
                    kind,
                });
            }
        }
    }
    edges
}

/// Every list of at most so many of these edges.
fn lists_of_edges(edges: &[Edge], most: usize) -> Vec<Vec<Edge>> {
    let mut lists = vec![Vec::new()];
    let mut start = 0;
    for _ in 0..most {
        let end = lists.len();
        for i in start..end {
            for edge in edges {
                let mut list = lists[i].clone();
                list.push(edge.clone());
                lists.push(list);
            }
        }
        start = end;
    }
    lists
}
