//! Good sheets in their parts, their drawings, and the totals of these.
//!
//! Nodes (document 01: marks) are numbered layer by layer, left to right, from 0.

use crate::refusal::Refusal;
use crate::sheet::{read, NUMBER_LIMIT, STRAIGHT};
use crate::traces::traces;

/// The separation of two neighbours in a layer.
#[derive(Clone, Debug, PartialEq, Eq)]
pub struct Separation {
    pub left: usize,
    pub right: usize,
    pub minimum: u16,
    /// None where the sheet has a maximum of 0.
    pub maximum: Option<u16>,
}

/// A layer (document 01: rank).
#[derive(Clone, Debug, PartialEq, Eq)]
pub struct Layer {
    pub first: usize,
    pub last: usize,
    pub separations: Vec<Separation>,
}

/// An edge (document 01: lead) between nodes of neighbouring layers.
#[derive(Clone, Debug, PartialEq, Eq)]
pub struct Edge {
    pub upper: usize,
    pub lower: usize,
    pub straight: bool,
}

impl Edge {
    /// The upper and the lower end.
    pub fn ends(&self) -> (usize, usize) {
        (self.upper, self.lower)
    }
}

/// A good sheet in its parts.
#[derive(Clone, Debug, PartialEq, Eq)]
pub struct Sheet {
    pub width: u16,
    pub layers: Vec<Layer>,
    pub edges: Vec<Edge>,
}

impl Sheet {
    /// Reads a sheet and takes it apart.
    pub fn from_bytes(bytes: &[u8]) -> Result<Sheet, Refusal> {
        let mut numbers = [0; NUMBER_LIMIT];
        let count = read(bytes, &mut numbers)?;
        Ok(Sheet::from_numbers(&numbers[..count]))
    }

    /// Takes the number list of a good sheet apart.
    pub fn from_numbers(numbers: &[u16]) -> Sheet {
        let mut numbers = numbers.iter().copied();
        let mut next = || numbers.next().expect("a good sheet has all its numbers");
        let width = next();
        let mut layers: Vec<Layer> = Vec::new();
        let mut first = 0;
        for _ in 0..next() {
            let last = first + usize::from(next()) - 1;
            let separation = |left| Separation {
                left,
                right: left + 1,
                minimum: next(),
                maximum: Some(next()).filter(|&maximum| maximum != 0),
            };
            let separations = (first..last).map(separation).collect();
            layers.push(Layer {
                first,
                last,
                separations,
            });
            first = last + 1;
        }
        let mut edges = Vec::new();
        for _ in 0..next() {
            let lower_layer = usize::from(next());
            edges.push(Edge {
                upper: layers[lower_layer - 1].first + usize::from(next()) - 1,
                lower: layers[lower_layer].first + usize::from(next()) - 1,
                straight: next() == STRAIGHT,
            });
        }
        Sheet {
            width,
            layers,
            edges,
        }
    }

    /// The count of nodes in all layers together.
    pub fn node_count(&self) -> usize {
        self.layers.last().map_or(0, |layer| layer.last + 1)
    }

    /// The separations of all layers.
    fn separations(&self) -> impl Iterator<Item = &Separation> {
        self.layers.iter().flat_map(|layer| &layer.separations)
    }
}

/// Whether the places, one for each node at least, are a drawing; others are not looked at.
pub fn is_drawing(sheet: &Sheet, places: &[u16]) -> bool {
    let places = &places[..sheet.node_count()];
    let distance = |from: usize, to: usize| i32::from(places[to]) - i32::from(places[from]);
    let is_separated = |separation: &Separation| {
        let apart = distance(separation.left, separation.right);
        let above = |maximum: u16| apart > maximum.into();
        apart >= separation.minimum.into() && !separation.maximum.is_some_and(above)
    };
    places.iter().all(|&place| place <= sheet.width)
        && sheet.separations().all(is_separated)
        && sheet
            .edges
            .iter()
            .all(|edge| !edge.straight || distance(edge.upper, edge.lower) == 0)
}

/// The total: the sum of the lengths (document 01: runs) of all edges, parallel ones counted once.
///
/// They are added in the order of the sheet, on purpose: document 02's ticket 5 adds layer by layer
/// from the last one up, and its totals are held against those of another order.
pub fn total(sheet: &Sheet, places: &[u16]) -> u32 {
    let traces = traces(sheet);
    let edges = sheet.edges.iter().enumerate();
    let counted = edges.filter(|(i, edge)| traces[&edge.ends()].first == *i);
    let length = |(_, edge): (usize, &Edge)| places[edge.upper].abs_diff(places[edge.lower]);
    counted.map(length).map(u32::from).sum()
}

/// Every drawing of a tiny sheet, found by trying every list of places.
pub fn drawings(sheet: &Sheet) -> Vec<Vec<u16>> {
    let mut found = Vec::new();
    let mut places = vec![0; sheet.node_count()];
    loop {
        if is_drawing(sheet, &places) {
            found.push(places.clone());
        }
        let Some(i) = places.iter().position(|&place| place < sheet.width) else {
            return found;
        };
        places[..i].fill(0);
        places[i] += 1;
    }
}

/// The least total of a tiny sheet and every drawing of that total, if it has a drawing.
pub fn least_drawings(sheet: &Sheet) -> Option<(u32, Vec<Vec<u16>>)> {
    let mut drawings = drawings(sheet);
    let least = drawings.iter().map(|places| total(sheet, places)).min()?;
    drawings.retain(|places| total(sheet, places) == least);
    Some((least, drawings))
}

/// The least place of each node in any of the drawings.
pub fn leftmost(drawings: &[Vec<u16>]) -> Vec<u16> {
    let mut places = drawings[0].clone();
    for drawing in drawings {
        for (place, &other) in places.iter_mut().zip(drawing) {
            *place = other.min(*place);
        }
    }
    places
}
