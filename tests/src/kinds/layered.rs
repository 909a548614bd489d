//! Layered sheets as they are drawn after the order of the nodes is found: long edges are chains of
//! nodes, straight inside, that no straight edge crosses; the first and the last edge of a chain are
//! plain.
//!
//! The lowest drawing comes first: each column stands as far left as the separations from its left
//! neighbours allow. Maxima are set so that it keeps them. So its greatest place is the minimum width.

use std::collections::HashSet;

use super::columns::{columns, is_chain, Column};
use super::plans::{plans, Plan};
use crate::draft::{Draft, Edge, Separation};
use crate::families::orders::shuffled;
use crate::random::Random;
use second::sheet::{PLAIN, SEPARATION_LIMIT, STRAIGHT, WIDTH_LIMIT};

/// Sheets with so many nodes, and so many of a hundred in chains.
pub fn sheets(nodes: u16, percent: u16) -> Vec<Draft> {
    let mut random = Random::new(u64::from(nodes) * 100 + u64::from(percent));
    let sheet = |plan| sheet(&mut random, &plan);
    plans(nodes, percent).map(sheet).collect()
}

/// The sheet of a plan.
fn sheet(random: &mut Random, plan: &Plan) -> Draft {
    let (standing, mut layers) = Standing::lowest(random, plan);
    if plan.maxima {
        add_maxima(random, plan, &standing, &mut layers);
    }
    let mut edges = standing.chain_edges(random);
    standing.add_edges(random, plan.edges, &mut edges);
    let narrowest = standing.places.iter().copied().max().unwrap_or(0);
    Draft {
        width: (plan.width)(narrowest).min(WIDTH_LIMIT),
        layers,
        edges: match plan.shuffled {
            true => shuffled(random, edges),
            false => edges,
        },
    }
}

/// Columns that stand at places.
struct Standing {
    columns: Vec<Column>,
    places: Vec<u16>,
    /// For each layer the columns that have a node there, from left to right.
    rows: Vec<Vec<usize>>,
    /// The same without chains.
    ordinary: Vec<Vec<usize>>,
    /// Whether edges lead to near nodes as a rule.
    is_near: bool,
}

impl Standing {
    /// The lowest drawing of random columns, and the minimum separations that it keeps.
    fn lowest(random: &mut Random, plan: &Plan) -> (Standing, Vec<Vec<Separation>>) {
        let columns = columns(random, plan);
        let mut rows = vec![Vec::new(); plan.layers.into()];
        let mut ordinary = rows.clone();
        let mut layers = vec![Vec::new(); rows.len()];
        let mut places = Vec::new();
        for (i, column) in columns.iter().enumerate() {
            let mut place = 0;
            for layer in column.clone() {
                if let Some(&left) = rows[layer].last() {
                    let minimum = random.within(1..=plan.minimum);
                    place = place.max(places[left] + minimum);
                    layers[layer].push(Separation {
                        minimum,
                        maximum: 0,
                    });
                }
                rows[layer].push(i);
                if !is_chain(column) {
                    ordinary[layer].push(i);
                }
            }
            places.push(place);
        }
        let standing = Standing {
            columns,
            places,
            rows,
            ordinary,
            is_near: plan.chained > 0,
        };
        (standing, layers)
    }

    /// An edge from a layer to the next one, by the columns of its ends.
    fn edge(&self, layer: usize, upper: usize, lower: usize, kind: u16) -> Edge {
        let position = |layer: usize, column: usize| {
            let before = self.rows[layer].partition_point(|&other| other < column);
            before as u16 + 1
        };
        Edge {
            layer: layer as u16 + 1,
            upper: position(layer, upper),
            lower: position(layer + 1, lower),
            kind,
        }
    }

    /// The edges of all chains, each from top to bottom.
    fn chain_edges(&self, random: &mut Random) -> Vec<Edge> {
        let mut edges = Vec::new();
        let is_chain = |&(_, column): &(usize, &Column)| is_chain(column);
        for (i, chain) in self.columns.iter().enumerate().filter(is_chain) {
            let (above, last) = (chain.start - 1, chain.end - 1);
            let upper = self.end(random, above, i);
            edges.push(self.edge(above, upper, i, PLAIN));
            edges.extend((chain.start..last).map(|layer| self.edge(layer, i, i, STRAIGHT)));
            let lower = self.end(random, chain.end, i);
            edges.push(self.edge(last, i, lower, PLAIN));
        }
        edges
    }

    /// Adds plain edges between ordinary nodes until there are so many edges. One is parallel to
    /// another only where some tries find nothing else.
    fn add_edges(&self, random: &mut Random, count: u16, edges: &mut Vec<Edge>) {
        const TRIES: usize = 8;
        let uppers = self.ordinary[..self.ordinary.len() - 1].concat();
        let mut known = HashSet::new();
        let mut any_ends = || {
            let upper = uppers[random.index(uppers.len())];
            (upper, self.end(random, self.columns[upper].end, upper))
        };
        while edges.len() < count.into() {
            let mut tries = (0..TRIES).map(|_| any_ends());
            let new = tries.find(|&ends| known.insert(ends));
            let (upper, lower) = new.unwrap_or_else(&mut any_ends);
            let layer = self.columns[upper].start;
            edges.push(self.edge(layer, upper, lower, PLAIN));
        }
    }

    /// The other end of an edge, an ordinary node of a layer: near a column as a rule, or any.
    fn end(&self, random: &mut Random, layer: usize, column: usize) -> usize {
        let row = &self.ordinary[layer];
        if !self.is_near || random.once_in(4) {
            return row[random.index(row.len())];
        }
        let place = self.places[column];
        let nearest = row.partition_point(|&other| self.places[other] < place);
        let beside = nearest + random.index(4);
        row[beside.saturating_sub(2).min(row.len() - 1)]
    }
}

/// Sets a maximum for one pair of neighbours in three, as far as they stand apart or a little more.
fn add_maxima(
    random: &mut Random,
    plan: &Plan,
    standing: &Standing,
    layers: &mut [Vec<Separation>],
) {
    for (layer, row) in layers.iter_mut().zip(&standing.rows) {
        for (separation, pair) in layer.iter_mut().zip(row.windows(2)) {
            if random.once_in(3) {
                let distance = standing.places[pair[1]] - standing.places[pair[0]];
                let more = random.within(0..=plan.minimum);
                separation.maximum = (distance + more).min(SEPARATION_LIMIT);
            }
        }
    }
}
