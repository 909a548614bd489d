//! Pull lists as circulations of a network, for finding and changing them.
//!
//! Each number of a list is the flow on an arc. The nodes are those of the sheet, and the ground
//! behind them. A list meets the rules if every flow keeps its limits and at every node as much
//! flows in as flows out; its floor is the cost of the flow, negated.

use crate::drawing::{Layer, Sheet};
use crate::traces::{pulls, Pull};

/// More than any flow that is found here.
pub const UNLIMITED: i64 = 1 << 40;

/// An arc, with the limits of its flow and the cost of each unit.
#[derive(Clone, Debug)]
pub struct Arc {
    pub tail: usize,
    pub head: usize,
    pub least: i64,
    pub greatest: i64,
    pub cost: i64,
}

/// The arcs of a sheet, in the order of its pull list.
pub fn arcs(sheet: &Sheet) -> Vec<Arc> {
    arcs_with(sheet, &pulls(sheet))
}

/// The same where the edges may carry these pulls.
pub fn arcs_with(sheet: &Sheet, pulls: &[Pull]) -> Vec<Arc> {
    let mut arcs = Vec::new();
    for (edge, pull) in sheet.edges.iter().zip(pulls) {
        let greatest = match pull {
            Pull::None => 0,
            Pull::Plain => 1,
            Pull::Free => UNLIMITED,
        };
        arcs.push(Arc {
            tail: edge.upper,
            head: edge.lower,
            least: -greatest,
            greatest,
            cost: 0,
        });
    }
    for layer in &sheet.layers {
        arcs.extend(layer_arcs(sheet, layer));
    }
    arcs
}

/// The arcs of the boundaries and separations of a layer.
fn layer_arcs(sheet: &Sheet, layer: &Layer) -> Vec<Arc> {
    let ground = sheet.node_count();
    let push = |tail, head, cost| Arc {
        tail,
        head,
        least: 0,
        greatest: UNLIMITED,
        cost,
    };
    let mut arcs = vec![push(layer.first, ground, 0)];
    for pair in &layer.separations {
        arcs.push(push(pair.right, pair.left, -i64::from(pair.minimum)));
        let mut maximum = push(pair.left, pair.right, pair.maximum.unwrap_or(0).into());
        if pair.maximum.is_none() {
            maximum.greatest = 0;
        }
        arcs.push(maximum);
    }
    arcs.push(push(ground, layer.last, sheet.width.into()));
    arcs
}
