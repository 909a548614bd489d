//! Sheets whose separations and straight edges contradict each other, or just do not.

use crate::draft::{Draft, Edge};
use crate::random::Random;
use second::sheet::{LAYER_LIMIT, STRAIGHT, WIDTH_LIMIT};

/// Layers of three nodes, one for each step. Straight edges make each layer stand to the right of
/// the one above by its step, and hold the last nodes in line; in the first layer the last two are
/// apart by at most all later steps and one, less what is missing.
///
/// The sheet has a drawing exactly where nothing is missing: otherwise there is one long cycle.
pub fn spiral(steps: &[u16], missing: u16) -> Draft {
    let mut draft = Draft::new(WIDTH_LIMIT, &vec![3; steps.len()]);
    for (layer, &step) in (1..).zip(steps) {
        draft = draft.separation(layer, 1, step, 0);
    }
    let reach: u16 = steps[1..].iter().sum();
    draft = draft.separation(1, 2, 1, reach + 1 - missing);
    for layer in 1..steps.len() as u16 {
        draft = draft
            .edge(layer, 2, 1, STRAIGHT)
            .edge(layer, 3, 3, STRAIGHT);
    }
    draft
}

/// A random spiral.
pub fn any_spiral(random: &mut Random, missing: u16) -> Draft {
    let layers = random.within(2..=LAYER_LIMIT);
    let greatest = random.within(1..=40);
    let steps: Vec<u16> = (0..layers).map(|_| random.within(1..=greatest)).collect();
    spiral(&steps, missing)
}

/// Two straight lines through several layers, held together by maxima in the first layer and apart
/// by minima in the last one. The maxima add up to the minima, less what is missing, 2 at most.
pub fn held(random: &mut Random, missing: u16) -> Draft {
    let mut counts = vec![2; random.within(2..=12).into()];
    let (first, last) = (random.within(2..=9), random.within(2..=9));
    let end = counts.len() - 1;
    (counts[0], counts[end]) = (first, last);
    let mut draft = Draft::new(WIDTH_LIMIT, &counts);
    let mut reach = 0;
    for separation in &mut draft.layers[end] {
        separation.minimum = random.within(10..=60);
        reach += separation.minimum;
    }
    let mut left = reach - missing;
    for (i, separation) in (1..).zip(&mut draft.layers[0]) {
        let pairs_behind = first - 1 - i;
        separation.maximum = match pairs_behind {
            0 => left,
            _ => random.within(1..=left - pairs_behind),
        };
        left -= separation.maximum;
    }
    for layer in 1..counts.len() {
        let edge = |upper, lower| Edge {
            layer: layer as u16,
            upper,
            lower,
            kind: STRAIGHT,
        };
        let ends = edge(counts[layer - 1], counts[layer]);
        draft.edges.extend([edge(1, 1), ends]);
    }
    draft
}

/// The sheet with two more straight edges that cross, if any two layers have two nodes each.
pub fn crossed(random: &mut Random, draft: &Draft) -> Option<Draft> {
    let counts: Vec<u16> = draft
        .layers
        .iter()
        .map(|layer| layer.len() as u16 + 1)
        .collect();
    let is_wide = |&layer: &usize| counts[layer - 1] > 1 && counts[layer] > 1;
    let layers: Vec<usize> = (1..counts.len()).filter(is_wide).collect();
    if layers.is_empty() {
        return None;
    }
    let layer = layers[random.index(layers.len())];
    let mut pair = |count: u16| {
        let left = random.within(1..=count - 1);
        (left, random.within(left + 1..=count))
    };
    let (upper, lower) = (pair(counts[layer - 1]), pair(counts[layer]));
    let mut crossed = draft.clone();
    crossed.edges.truncate(510);
    let layer = layer as u16;
    Some(
        crossed
            .edge(layer, upper.0, lower.1, STRAIGHT)
            .edge(layer, upper.1, lower.0, STRAIGHT),
    )
}
