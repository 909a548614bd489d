//! Sheets of full size: 256 nodes in four layers, and 512 edges.

use super::{document::zeros, Case, Group};
use crate::draft::{Draft, Edge};
use second::drawing::Sheet;
use second::sheet::{EDGE_LIMIT, PLAIN, STRAIGHT, WIDTH_LIMIT};
use second::traces::{pulls, Pull};

/// The counts of nodes.
const COUNTS: [u16; 4] = [64; 4];
/// The distance of neighbours where a layer fills the width.
const DISTANCE: u16 = 65;

/// Full sheets with lists written by hand.
pub fn sheets() -> Group {
    let mut group = Group::new("sheets of full size");
    let places: Vec<u16> = (0..256).map(|node| node % 64 * DISTANCE).collect();
    let aligned = aligned();
    let mut case = Case::new(&aligned, &places, &zeros(&aligned.sheet()));
    group.note("plain edges between aligned nodes, zeros: yes");
    group.check_tight(&case);
    group.note("the last place moved: no");
    case.places[255] -= 1;
    group.check(&case);
    let rigid = rigid();
    let list = rigid_list(&rigid.sheet(), &places);
    group.note("layers that fill the width, edges up to its length: yes");
    group.check_tight(&Case::new(&rigid, &places, &list));
    group
}

/// A sheet whose edges join nodes at equal positions.
fn aligned() -> Draft {
    let mut draft = Draft::new(WIDTH_LIMIT, &COUNTS);
    for i in 0..EDGE_LIMIT {
        let position = i / 3 % 64 + 1;
        draft = draft.edge(i % 3 + 1, position, position, PLAIN);
    }
    draft
}

/// A sheet of which every node has one place only.
fn rigid() -> Draft {
    let mut draft = Draft::new(WIDTH_LIMIT, &COUNTS);
    for separation in draft.layers.iter_mut().flatten() {
        separation.minimum = DISTANCE;
    }
    let edge = |i: u16| {
        let (upper, lower, kind) = match i / 3 % 5 {
            0 => (1, 64, PLAIN),
            1 => (64, 1, PLAIN),
            2 => (1, 64, PLAIN),
            3 => (i % 64 + 1, 7 * i % 64 + 1, PLAIN),
            _ => (i % 64 + 1, i % 64 + 1, STRAIGHT),
        };
        let layer = i % 3 + 1;
        Edge {
            layer,
            upper,
            lower,
            kind,
        }
    };
    draft.edges.extend((0..EDGE_LIMIT).map(edge));
    draft
}

/// The list of a sheet whose layers fill the width.
///
/// Every plain edge is pulled toward its length, parallel ones by the first. What is pulled at the nodes
/// of a layer is added up from the left and handed on by the minima; the left boundary pushes enough
/// for all of them.
fn rigid_list(sheet: &Sheet, places: &[u16]) -> Vec<i32> {
    let mut list = Vec::new();
    let mut pulled = vec![0; sheet.node_count()];
    for ((i, edge), pull) in (0..).zip(&sheet.edges).zip(pulls(sheet)) {
        let run = i32::from(places[edge.lower]) - i32::from(places[edge.upper]);
        let pull = match pull {
            Pull::None => 0,
            Pull::Plain => run.signum(),
            Pull::Free => 1000 - 7 * i,
        };
        pulled[edge.lower] += pull;
        pulled[edge.upper] -= pull;
        list.push(pull);
    }
    for layer in &sheet.layers {
        let mut sum = 0;
        let mut sums = vec![0];
        for pull in &pulled[layer.first..=layer.last] {
            sum += pull;
            sums.push(sum);
        }
        let left = sums.iter().copied().fold(0, i32::max);
        list.push(left);
        for sum in &sums[1..sums.len() - 1] {
            list.extend([left - sum, 0]);
        }
        list.push(left - sum);
    }
    list
}
