//! What each layered sheet is to be like.

use second::sheet::WIDTH_LIMIT;

/// What a layered sheet is to be like.
#[derive(Clone, Copy, Debug)]
pub struct Plan {
    pub layers: u16,
    pub nodes: u16,
    pub edges: u16,
    /// How many nodes are in chains, but for one that may be left over; where none are, the edges lead
    /// anywhere.
    pub chained: u16,
    /// The greatest minimum separation.
    pub minimum: u16,
    /// Whether some separations have a maximum.
    pub maxima: bool,
    /// The width, from the minimum width; past the limit it is the limit.
    pub width: fn(u16) -> u16,
    /// Whether the edges are in random order.
    pub shuffled: bool,
}

/// How many sheets there are with the same count of nodes and the same part of them in chains.
const SHEETS: usize = 30;
/// The counts of layers; a layer has four nodes on average at least.
const LAYERS: [u16; 7] = [4, 6, 10, 16, 24, 40, 64];
/// The least count of layers for chains of more than half the nodes, which are in no outer layer.
const LONG_LAYERS: u16 = 6;
/// The greatest minimum separations.
const MINIMA: [u16; 3] = [1, 8, 60];
/// The widths, from the minimum width.
const WIDTHS: [fn(u16) -> u16; 5] = [
    |narrowest| narrowest,
    |narrowest| narrowest + 3,
    |narrowest| narrowest * 14 / 10,
    |narrowest| narrowest * 4,
    |_| WIDTH_LIMIT,
];

/// The plans of sheets with so many nodes, and so many of a hundred in chains. Layers, minima, widths
/// and orders change from one to the next in cycles of different lengths; two of five have maxima.
pub fn plans(nodes: u16, percent: u16) -> impl Iterator<Item = Plan> {
    let least = if percent > 50 { LONG_LAYERS } else { LAYERS[0] };
    (0..SHEETS).map(move |i| Plan {
        layers: LAYERS[i % 7].min(nodes / 4).max(least),
        nodes,
        edges: 2 * nodes,
        chained: (u32::from(nodes) * u32::from(percent) / 100) as u16,
        minimum: MINIMA[i / 5 % 3],
        maxima: (i + i / 5) % 5 < 2,
        width: WIDTHS[i % 5],
        shuffled: i % 2 == 1,
    })
}
