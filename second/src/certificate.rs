//! Pull lists: their rules and their floor.
//!
//! The list has a pull for each edge, then for each layer the push of the left boundary
//! (document 01: wall), two pushes for each pair of neighbours, and the push of the right
//! boundary. Of parallel edges the first carries the pull of their trace, and the others carry 0.
//! Lists here are at least as long as their sheet needs; the excess is not looked at.

use crate::drawing::{Layer, Separation, Sheet};
use crate::traces::{pulls, Pull};

/// The pushes on two neighbours in a layer.
struct PairPushes<'a> {
    separation: &'a Separation,
    minimum: i64,
    maximum: i64,
}

/// The pushes on the nodes of a layer.
struct LayerPushes<'a> {
    layer: &'a Layer,
    left: i64,
    pairs: Vec<PairPushes<'a>>,
    right: i64,
}

/// How many numbers the pull list of a sheet has.
pub fn length(sheet: &Sheet) -> usize {
    sheet.edges.len() + 2 * sheet.node_count()
}

/// Whether a list meets the rules: each number its limits, and all of them the balance.
pub fn meets_rules(sheet: &Sheet, list: &[i32]) -> bool {
    pulls_within_limits(&pulls(sheet), list) && meets_other_rules(sheet, list)
}

/// Whether a list meets the rules but for the limits of pulls.
pub fn meets_other_rules(sheet: &Sheet, list: &[i32]) -> bool {
    pushes_within_limits(sheet, list) && pulled(sheet, list) == pushed(sheet, list)
}

/// Whether each pull at the front of a list is one that its edge may carry.
pub fn pulls_within_limits(pulls: &[Pull], list: &[i32]) -> bool {
    let mut pulls = pulls.iter().zip(list);
    pulls.all(|(pull, n)| match pull {
        Pull::None => *n == 0,
        Pull::Plain => (-1..=1).contains(n),
        Pull::Free => true,
    })
}

/// The floor: no drawing has a smaller total if the list meets the rules.
///
/// It adds up at most 512 products of a 12-bit and a 32-bit number, so 64 bits are enough.
pub fn floor(sheet: &Sheet, list: &[i32]) -> i64 {
    let mut floor = 0;
    for pushes in layers(sheet, list) {
        for pair in &pushes.pairs {
            floor += i64::from(pair.separation.minimum) * pair.minimum;
            floor -= i64::from(pair.separation.maximum.unwrap_or(0)) * pair.maximum;
        }
        floor -= i64::from(sheet.width) * pushes.right;
    }
    floor
}

/// Whether no push is below 0, and no maximum pushes that is not set.
fn pushes_within_limits(sheet: &Sheet, list: &[i32]) -> bool {
    layers(sheet, list).iter().all(|pushes| {
        pushes.left >= 0
            && pushes.right >= 0
            && pushes.pairs.iter().all(|pair| {
                let is_set = pair.separation.maximum.is_some();
                pair.minimum >= 0 && pair.maximum >= 0 && (is_set || pair.maximum == 0)
            })
    })
}

/// For each node: pulls of edges ending there from above minus pulls of edges leaving it downward.
fn pulled(sheet: &Sheet, list: &[i32]) -> Vec<i64> {
    let mut sums = vec![0; sheet.node_count()];
    for (edge, &pull) in sheet.edges.iter().zip(list) {
        sums[edge.lower] += i64::from(pull);
        sums[edge.upper] -= i64::from(pull);
    }
    sums
}

/// For each node: pushes toward greater places minus pushes toward smaller ones.
fn pushed(sheet: &Sheet, list: &[i32]) -> Vec<i64> {
    let mut sums = vec![0; sheet.node_count()];
    for pushes in layers(sheet, list) {
        sums[pushes.layer.first] += pushes.left;
        for pair in &pushes.pairs {
            let apart = pair.minimum - pair.maximum;
            sums[pair.separation.right] += apart;
            sums[pair.separation.left] -= apart;
        }
        sums[pushes.layer.last] -= pushes.right;
    }
    sums
}

/// The pushes of a list, layer by layer.
fn layers<'a>(sheet: &'a Sheet, list: &[i32]) -> Vec<LayerPushes<'a>> {
    let mut numbers = list[..length(sheet)].iter().skip(sheet.edges.len());
    let mut next = || i64::from(*numbers.next().expect("the list has all its numbers"));
    let mut layers = Vec::new();
    for layer in &sheet.layers {
        let left = next();
        let pairs = layer.separations.iter().map(|separation| PairPushes {
            separation,
            minimum: next(),
            maximum: next(),
        });
        let pairs = pairs.collect();
        let right = next();
        layers.push(LayerPushes {
            layer,
            left,
            pairs,
            right,
        });
    }
    layers
}
