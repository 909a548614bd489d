//! Random sheets of any size that have a drawing.
//!
//! A random drawing comes first. Separations and width are set so that it keeps them, and straight
//! edges join nodes that it draws at the same place.

use crate::draft::{Draft, Edge, Separation};
use crate::random::Random;
use second::sheet::{
    EDGE_LIMIT, LAYER_NODE_LIMIT, NODE_LIMIT, PLAIN, SEPARATION_LIMIT, STRAIGHT, WIDTH_LIMIT,
};

/// What a sheet with a drawing is to be like.
#[derive(Clone, Copy, Debug)]
pub struct Plan {
    pub layers: u16,
    pub nodes: u16,
    pub edges: u16,
    /// The greatest distance of two neighbours in the drawing.
    pub distance: u16,
    /// How much less the minimum separations and more the maximum separations may be.
    pub play: u16,
    /// How far the width may reach beyond the drawing.
    pub margin: u16,
    /// One edge in so many is straight where the drawing allows it.
    pub straight: u16,
    /// One pair of neighbours in so many has a maximum separation.
    pub maximum: u16,
}

impl Plan {
    /// Sheets of full size that leave little room to move.
    pub const FULL_TIGHT: Plan = Plan {
        layers: 8,
        nodes: NODE_LIMIT,
        edges: EDGE_LIMIT,
        distance: 3,
        play: 1,
        margin: 0,
        straight: 1,
        maximum: 2,
    };
    /// Sheets of full size in which nodes can move some steps.
    pub const FULL_LOOSE: Plan = Plan {
        distance: 9,
        play: 4,
        margin: 50,
        straight: 6,
        maximum: 3,
        ..Plan::FULL_TIGHT
    };
    /// Sheets of full size in which nodes can move far.
    pub const FULL_WIDE: Plan = Plan {
        distance: 60,
        play: 50,
        margin: 2000,
        straight: 2,
        maximum: 4,
        ..Plan::FULL_TIGHT
    };
}

/// A random sheet of this plan.
pub fn planted(random: &mut Random, plan: &Plan) -> Draft {
    let rows = rows(random, plan);
    let counts: Vec<u16> = rows.iter().map(|row| row.len() as u16).collect();
    let reach = rows.iter().flatten().copied().max().unwrap_or(0);
    let margin = random.within(0..=plan.margin);
    let mut draft = Draft::new((reach + margin).min(WIDTH_LIMIT), &counts);
    for (layer, row) in draft.layers.iter_mut().zip(&rows) {
        for (separation, places) in layer.iter_mut().zip(row.windows(2)) {
            *separation = around(random, plan, places[1] - places[0]);
        }
    }
    if rows.len() > 1 {
        for _ in 0..plan.edges {
            draft.edges.push(edge(random, plan, &rows));
        }
    }
    draft
}

/// The random drawing: the places of each layer.
fn rows(random: &mut Random, plan: &Plan) -> Vec<Vec<u16>> {
    let mut counts = vec![1; plan.layers.into()];
    add_nodes(random, &mut counts, plan.nodes);
    let row = |&count: &u16| {
        let mut place = random.within(0..=plan.distance);
        let next = |_| {
            let here = place;
            place += random.within(1..=plan.distance);
            here
        };
        (0..count).map(next).collect()
    };
    counts.iter().map(row).collect()
}

/// Counts nodes in random layers that have room, until there are so many nodes in all.
pub fn add_nodes(random: &mut Random, counts: &mut [u16], nodes: u16) {
    for _ in counts.iter().sum()..nodes {
        let mut layer = random.index(counts.len());
        while counts[layer] == LAYER_NODE_LIMIT {
            layer = (layer + 1) % counts.len();
        }
        counts[layer] += 1;
    }
}

/// A separation that two neighbours at this distance keep.
fn around(random: &mut Random, plan: &Plan, distance: u16) -> Separation {
    let less = random.within(0..=plan.play.min(distance - 1));
    let more = random.within(0..=plan.play);
    Separation {
        minimum: distance - less,
        maximum: if random.once_in(plan.maximum) {
            (distance + more).min(SEPARATION_LIMIT)
        } else {
            0
        },
    }
}

/// An edge between neighbouring layers, as a rule to a node that is near in the drawing.
fn edge(random: &mut Random, plan: &Plan, rows: &[Vec<u16>]) -> Edge {
    let layer = random.index(rows.len() - 1);
    let (above, below) = (&rows[layer], &rows[layer + 1]);
    let upper = random.index(above.len());
    let lower = if random.once_in(4) {
        random.index(below.len())
    } else {
        let distance = |&i: &usize| below[i].abs_diff(above[upper]);
        (0..below.len()).min_by_key(distance).unwrap_or(0)
    };
    let is_straight = above[upper] == below[lower] && random.once_in(plan.straight);
    Edge {
        layer: layer as u16 + 1,
        upper: upper as u16 + 1,
        lower: lower as u16 + 1,
        kind: if is_straight { STRAIGHT } else { PLAIN },
    }
}
