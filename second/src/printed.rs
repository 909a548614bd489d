//! What the program `place` prints.

use crate::drawing::Sheet;
use crate::engine::draw;
use crate::sheet::{EDGE_LIMIT, NODE_LIMIT};

/// The greatest count of places in a drawing.
const PLACES: usize = NODE_LIMIT as usize;
/// The greatest count of numbers in a pull list.
const LIST: usize = EDGE_LIMIT as usize + 2 * PLACES;

/// What `place` prints for an input: the drawing, or the refusal.
pub fn printed(bytes: &[u8]) -> String {
    let (mut places, mut list) = ([0; PLACES], [0; LIST]);
    match draw(bytes, &mut places, &mut list) {
        Ok(total) => format!("total {total}\n{}", nodes(bytes, &places)),
        Err(refusal) => format!("refused {} at {}\n", refusal.number, refusal.offset),
    }
}

/// A line for each node of a good sheet: its layer, its position there, its place.
fn nodes(bytes: &[u8], places: &[u16]) -> String {
    let sheet = Sheet::from_bytes(bytes).expect("the sheet has been drawn");
    let mut text = String::new();
    for (layer, nodes) in (1..).zip(&sheet.layers) {
        for (position, place) in (1..).zip(&places[nodes.first..=nodes.last]) {
            text += &format!("{layer} {position} {place}\n");
        }
    }
    text
}
