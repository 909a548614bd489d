//! A good sheet in its parts, and parts made to fit each other.

use second::sheet::{read, NUMBER_LIMIT};
use strip_tests::draft::{Draft, Edge, Separation};

/// The parts of a sheet; none where it is not good.
pub fn parts(bytes: &[u8]) -> Option<Draft> {
    let mut numbers = [0; NUMBER_LIMIT];
    let count = read(bytes, &mut numbers).ok()?;
    let mut numbers = numbers[..count].iter().copied();
    let mut next = || numbers.next().expect("a good sheet has all its numbers");
    let width = next();
    let mut layers = Vec::new();
    for _ in 0..next() {
        let mut layer = Vec::new();
        for _ in 1..next() {
            let (minimum, maximum) = (next(), next());
            layer.push(Separation { minimum, maximum });
        }
        layers.push(layer);
    }
    let mut edges = Vec::new();
    for _ in 0..next() {
        let (layer, upper, lower, kind) = (next(), next(), next(), next());
        edges.push(Edge {
            layer,
            upper,
            lower,
            kind,
        });
    }
    Some(Draft {
        width,
        layers,
        edges,
    })
}

/// The count of nodes of the layer with this number, from 1; 0 where there is none.
pub fn count(draft: &Draft, layer: u16) -> u16 {
    let layer = draft.layers.get(usize::from(layer) - 1);
    layer.map_or(0, |layer| layer.len() as u16 + 1)
}

/// Drops the edges that lead to nodes that are not there.
pub fn fit(draft: &mut Draft) {
    let mut edges = std::mem::take(&mut draft.edges);
    edges.retain(|edge| {
        edge.upper <= count(draft, edge.layer) && edge.lower <= count(draft, edge.layer + 1)
    });
    draft.edges = edges;
}
