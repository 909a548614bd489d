//! The directions in which flows can change, and the places that a flow of least cost gives.

use crate::network::Arc;

/// A direction in which the flow on an arc can change.
#[derive(Clone, Copy)]
pub struct Residual {
    pub arc: usize,
    pub tail: usize,
    pub head: usize,
    pub cost: i64,
    pub capacity: i64,
    pub sign: i64,
}

/// All directions in which a flow can change.
pub fn residuals(arcs: &[Arc], flows: &[i64]) -> Vec<Residual> {
    let mut residuals = Vec::new();
    for (i, (arc, flow)) in arcs.iter().zip(flows).enumerate() {
        let forward = Residual {
            arc: i,
            tail: arc.tail,
            head: arc.head,
            cost: arc.cost,
            capacity: arc.greatest - flow,
            sign: 1,
        };
        let backward = Residual {
            tail: arc.head,
            head: arc.tail,
            cost: -arc.cost,
            capacity: flow - arc.least,
            sign: -1,
            ..forward
        };
        residuals.extend([forward, backward]);
    }
    residuals.retain(|residual| residual.capacity > 0);
    residuals
}

/// The leftmost places with which a flow of least cost agrees: a place is the least cost of a path
/// from the node to the ground, negated.
pub fn leftmost_places(ground: usize, arcs: &[Arc], flows: &[i64]) -> Vec<u16> {
    let residuals = residuals(arcs, flows);
    let mut distances: Vec<Option<i64>> = vec![None; ground];
    distances.push(Some(0));
    while shorten(&mut distances, &residuals) {}
    distances.truncate(ground);
    let place = |distance: Option<i64>| {
        let distance = distance.expect("the left boundary joins all to the ground");
        u16::try_from(-distance).expect("a place is within the width")
    };
    distances.into_iter().map(place).collect()
}

/// Makes distances shorter by one more step at the start of a path, and says whether any became so.
fn shorten(distances: &mut [Option<i64>], residuals: &[Residual]) -> bool {
    let mut is_changed = false;
    for residual in residuals {
        let Some(rest) = distances[residual.head] else {
            continue;
        };
        let distance = rest + residual.cost;
        if distances[residual.tail].map_or(true, |known| distance < known) {
            distances[residual.tail] = Some(distance);
            is_changed = true;
        }
    }
    is_changed
}
