//! Coordinate files: by hand, of drawings, at random, and at the limits.

use crate::draft::encode_behind;
use crate::generate::{full_counts, node_counts};
use crate::random::Random;
use second::coordinates::{PLACE_LIMIT, SIGNATURE};
use second::drawing::{Layer, Sheet};

/// The length in bytes of the longest good file.
///
/// The signature takes three bytes; the count of layers and the 64 counts of nodes take one each. In
/// 64 layers of four nodes every place and distance can take two.
pub const LONGEST: usize = 580;

/// Good files by hand, with names and number lists.
pub const GOOD: [(&str, &[u8], &[u16]); 4] = [
    (
        "two layers",
        &[0x53, 0x44, 0x31, 0x02, 0x02, 0x00, 0x01, 0x01, 0x00],
        &[2, 2, 0, 1, 1, 0],
    ),
    (
        "the smallest file",
        &[0x53, 0x44, 0x31, 0x01, 0x01, 0x00],
        &[1, 1, 0],
    ),
    (
        "a distance that reaches 4,095",
        &[0x53, 0x44, 0x31, 0x01, 0x02, 0x00, 0xff, 0x1f],
        &[1, 2, 0, 4095],
    ),
    (
        "distances of 127 and 128",
        &[0x53, 0x44, 0x31, 0x01, 0x03, 0xac, 0x02, 0x7f, 0x80, 0x01],
        &[1, 3, 300, 427, 555],
    ),
];

/// Bytes that are refused as a coordinate file, with names, numbers of refusals and offsets.
pub const REFUSED: [(&str, &[u8], (u32, usize)); 10] = [
    ("1: the input ends", &[0x53, 0x44], (1, 2)),
    (
        "2: a sheet",
        &[0x53, 0x50, 0x31, 0x00, 0x01, 0x01, 0x00],
        (2, 0),
    ),
    (
        "3: not the fewest bytes",
        &[0x53, 0x44, 0x31, 0x01, 0x01, 0x80, 0x00],
        (3, 5),
    ),
    (
        "3: a distance of three bytes",
        &[0x53, 0x44, 0x31, 0x01, 0x02, 0x00, 0x80, 0x80, 0x01],
        (3, 6),
    ),
    ("4: no layers", &[0x53, 0x44, 0x31, 0x00], (4, 3)),
    (
        "4: a distance of 0",
        &[0x53, 0x44, 0x31, 0x01, 0x02, 0x00, 0x00],
        (4, 6),
    ),
    (
        "4: a distance of 4,096",
        &[0x53, 0x44, 0x31, 0x01, 0x02, 0x00, 0x80, 0x20],
        (4, 6),
    ),
    (
        "4: a distance of 16,383",
        &[0x53, 0x44, 0x31, 0x01, 0x02, 0x00, 0xff, 0x7f],
        (4, 6),
    ),
    (
        "4: a distance that passes 4,095 by 1",
        &[0x53, 0x44, 0x31, 0x01, 0x02, 0xff, 0x1f, 0x01],
        (4, 7),
    ),
    (
        "6: something follows",
        &[0x53, 0x44, 0x31, 0x01, 0x01, 0x00, 0x00],
        (6, 6),
    ),
];

/// The signature of a coordinate file and the numbers behind it, whatever they are.
pub fn encode_file(numbers: &[u16]) -> Vec<u8> {
    encode_behind(SIGNATURE, numbers)
}

/// A drawing as the places of each layer; in each they increase.
#[derive(Clone, Debug)]
pub struct Rows(pub Vec<Vec<u16>>);

impl Rows {
    /// The places of the nodes of a sheet.
    pub fn of(sheet: &Sheet, places: &[u16]) -> Rows {
        let row = |layer: &Layer| places[layer.first..=layer.last].to_vec();
        Rows(sheet.layers.iter().map(row).collect())
    }

    /// The number list of the drawing: counts and places.
    pub fn numbers(&self) -> Vec<u16> {
        self.listed(|row| row.to_vec())
    }

    /// The coordinate file of the drawing: counts, first places and distances.
    pub fn bytes(&self) -> Vec<u8> {
        let distances = |row: &[u16]| {
            let further = row.windows(2).map(|pair| pair[1] - pair[0]);
            row[..1].iter().copied().chain(further).collect()
        };
        encode_file(&self.listed(distances))
    }

    /// The count of layers, then for each layer its count of nodes and what is made of its places.
    fn listed(&self, made: impl Fn(&[u16]) -> Vec<u16>) -> Vec<u16> {
        let mut numbers = vec![self.0.len() as u16];
        for row in &self.0 {
            numbers.push(row.len() as u16);
            numbers.extend(made(row));
        }
        numbers
    }
}

/// A random drawing within the limits, small as a rule.
pub fn any(random: &mut Random) -> Rows {
    let counts = node_counts(random);
    rows(random, &counts)
}

/// A random drawing of 256 nodes in this many layers; with fewer than four, 64 nodes in each.
pub fn full(random: &mut Random, layers: u16) -> Rows {
    rows(random, &full_counts(layers))
}

/// A layer of 64 nodes side by side from a place on.
pub fn side_by_side(first: u16) -> Rows {
    Rows(vec![(first..first + 64).collect()])
}

/// The file with the most bytes.
pub fn longest() -> Rows {
    let row = |i: u16| (1..=4).map(|j| 1000 * j + i).collect();
    Rows((0..64).map(row).collect())
}

/// Random rows of so many places each.
fn rows(random: &mut Random, counts: &[u16]) -> Rows {
    Rows(counts.iter().map(|&count| row(random, count)).collect())
}

/// A random row: close together or far apart, and once in four up to the greatest place.
fn row(random: &mut Random, count: u16) -> Vec<u16> {
    let most = PLACE_LIMIT - (count - 1);
    let spare = [0, 9, 200, most][random.index(4)];
    let mut extra: Vec<u16> = (0..count).map(|_| random.within(0..=spare)).collect();
    extra.sort();
    let end = extra[extra.len() - 1];
    let moved = if random.once_in(4) { most - end } else { 0 };
    let place = |(i, extra): (u16, u16)| i + extra + moved;
    (0..).zip(extra).map(place).collect()
}
