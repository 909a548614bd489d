//! The reader and the writer of coordinate files (document 02: drawing files).
//!
//! Both find the places of each layer, and write them down in the other form: the list has every place
//! itself, the file the first place of a layer and the distances behind it.

use crate::refusal::Refusal;
use crate::sheet::{LAYER_LIMIT, LAYER_NODE_LIMIT, NODE_LIMIT};
use crate::source::{encoded, fill_front, Bytes, List, Source};

/// The three bytes a coordinate file starts with.
pub const SIGNATURE: [u8; 3] = [0x53, 0x44, 0x31];
/// The greatest place.
pub const PLACE_LIMIT: u16 = 4095;
/// The greatest count of numbers in the list of a good file: the count of layers, one for each layer
/// and one for each node.
pub const NUMBER_LIMIT: usize = 1 + LAYER_LIMIT as usize + NODE_LIMIT as usize;

/// Reads a coordinate file into the front of `numbers` and says how many there are.
pub fn read(file: &[u8], numbers: &mut [u16]) -> Result<usize, Refusal> {
    let source = Bytes::behind(SIGNATURE, file)?;
    let layers = layers(source, |source, left| {
        let distance = source.number(1..=PLACE_LIMIT - left)?;
        Ok(left + distance)
    })?;
    fill_front(numbers, &list(&layers))
}

/// Writes the coordinate file of a list into the front of `file` and says how many bytes there are.
pub fn write(numbers: &[u16], file: &mut [u8]) -> Result<usize, Refusal> {
    let source = List::new(numbers);
    let layers = layers(source, |source, left| source.number(left + 1..=PLACE_LIMIT))?;
    let distances: Vec<Vec<u16>> = layers.iter().map(|places| distances(places)).collect();
    fill_front(file, &encoded(SIGNATURE, list(&distances)))
}

/// Takes the places of each layer; `right_of` takes that of a node from the place to the left of it.
fn layers<S: Source>(
    mut source: S,
    right_of: impl Fn(&mut S, u16) -> Result<u16, Refusal>,
) -> Result<Vec<Vec<u16>>, Refusal> {
    let layer_count = source.number(1..=LAYER_LIMIT)?;
    let mut layers = Vec::new();
    let mut nodes_left = NODE_LIMIT;
    for _ in 0..layer_count {
        let count = source.number(1..=LAYER_NODE_LIMIT.min(nodes_left))?;
        nodes_left -= count;
        let mut place = source.number(0..=PLACE_LIMIT)?;
        let mut places = vec![place];
        for _ in 1..count {
            place = right_of(&mut source, place)?;
            places.push(place);
        }
        layers.push(places);
    }
    source.end()?;
    Ok(layers)
}

/// The first place of a layer, and what each further one is to the right of its left neighbour.
fn distances(places: &[u16]) -> Vec<u16> {
    let mut distances = vec![places[0]];
    distances.extend(places.windows(2).map(|pair| pair[1] - pair[0]));
    distances
}

/// The count of layers, then for each layer its count of nodes and its numbers.
fn list(layers: &[Vec<u16>]) -> Vec<u16> {
    let mut list = vec![layers.len() as u16];
    for layer in layers {
        list.push(layer.len() as u16);
        list.extend(layer);
    }
    list
}
