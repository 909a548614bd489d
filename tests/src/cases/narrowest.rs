//! The cases of the minimum width.

use super::{Call, Group};
use crate::document::{self, NO_DRAWING, ONE_NODE, REFUSED};
use crate::draft::Draft;
use crate::families::conflicts::spiral;
use crate::families::sizes::{longest_edges, longest_parallel};
use crate::families::widths::{in_width, layer};
use second::sheet::{LAYER_LIMIT, PLAIN, STRAIGHT, WIDTH_LIMIT};

impl Group {
    /// Adds a sheet, good or bad, whose minimum width is asked for.
    fn narrowest(&mut self, bytes: &[u8]) {
        let bytes = bytes.to_vec();
        self.add(Call::Narrowest { bytes });
    }
}

/// The groups that are stored, in the order of the files.
pub fn stored() -> Vec<Group> {
    vec![sheets(), limits(), refusals()]
}

/// The groups that are not stored.
pub fn others() -> Vec<Group> {
    vec![widths(), extremes(), order()]
}

/// The sheets on either side of each edge, each once.
fn sheets() -> Group {
    let mut group = Group::new("the minimum width of the sheets on either side of each edge");
    group.note("N 0 0 BYTES tells the least width with a drawing, and the least total there");
    let sheets = [
        ("stair", document::stair(3, PLAIN)),
        ("stair, second edge straight", document::stair(1, STRAIGHT)),
        ("layers of two and three", document::two_over_three(0)),
        ("the same, upper maximum 1", document::two_over_three(1)),
        ("one node over three", document::one_over_three()),
        ("one node", document::one_node()),
        ("crossing straight edges: refused", document::crossing()),
    ];
    for (name, draft) in sheets {
        group.note(name);
        group.narrowest(&draft.bytes());
    }
    group
}

/// Layers that need the greatest width, and more.
fn limits() -> Group {
    let mut group = Group::new("the minimum width on either side of the greatest one");
    group.note("4,095");
    group.narrowest(&layer(&[4094, 1]).bytes());
    group.note("4,096, and twice 4,095: refused");
    group.narrowest(&layer(&[4095, 1]).bytes());
    group.narrowest(&layer(&[4095, 4095]).bytes());
    group
}

/// The table of refusals.
fn refusals() -> Group {
    let mut group = Group::new("the minimum width and the table of refusals");
    group.note("1 to 6, and 6 before 10: refused");
    for (_, bytes) in REFUSED {
        group.narrowest(bytes);
    }
    group.narrowest(&[&document::crossing().bytes()[..], &[0x00]].concat());
    group
}

/// The same sheet in every kind of width: each is read, and none counts.
fn widths() -> Group {
    let mut group = Group::new("the minimum width of sheets in several widths");
    for (name, draft) in document::sheets() {
        group.note(&name);
        for width in [0, 1, 2, 3, 127, 128, WIDTH_LIMIT] {
            group.narrowest(&in_width(&draft, width).bytes());
        }
    }
    group.note("a width that is outside its limits or badly written: refused");
    for width in [[0x80, 0x20], [0x80, 0x80], [0x80, 0x00]] {
        for sheet in [&ONE_NODE[..], &NO_DRAWING[..]] {
            group.narrowest(&[&sheet[..3], &width, &sheet[4..]].concat());
        }
    }
    group
}

/// Sheets with extreme numbers.
fn extremes() -> Group {
    let mut group = Group::new("the minimum width of sheets with extreme numbers");
    group.note("512 edges about as long as the greatest width, no two parallel");
    group.narrowest(&longest_edges().bytes());
    group.note("512 parallel edges as long as the greatest width");
    group.narrowest(&longest_parallel().bytes());
    group.note("a spiral of straight edges that just closes");
    group.narrowest(&spiral(&[1; LAYER_LIMIT as usize], 0).bytes());
    group.note("a spiral of straight edges that misses by 1: refused");
    group.narrowest(&spiral(&[1; LAYER_LIMIT as usize], 1).bytes());
    group.note("64 nodes in one layer");
    group.narrowest(&Draft::new(0, &[64]).bytes());
    group.note("63 layers, each a step to the right of the one above");
    group.narrowest(&slope(1).bytes());
    group.note("the same with 65 steps, which fill the greatest width");
    group.narrowest(&slope(65).bytes());
    group.note("the same with 66 steps: refused");
    group.narrowest(&slope(66).bytes());
    group
}

/// 63 layers of two nodes, so many steps apart; the right node of each stands over the left one below.
fn slope(steps: u16) -> Draft {
    let mut draft = Draft::new(0, &[2; 63]).separation(63, 1, steps, 0);
    for layer in 1..63 {
        draft = draft
            .separation(layer.into(), 1, steps, 0)
            .edge(layer, 2, 1, STRAIGHT);
    }
    draft
}

/// Refusals that come before others.
fn order() -> Group {
    let mut group = Group::new("the order of refusals, minimum width");
    group.note("1, 3, 4 and 5 in a sheet without a width before 10: refused");
    let crossing = document::crossing().bytes();
    let end = crossing.len() - 1;
    group.narrowest(&crossing[..end]);
    let tails: [&[u8]; 3] = [&[0x80, 0x00], &[0x80, 0x7f], &[0x02]];
    for tail in tails {
        group.narrowest(&[&crossing[..end], tail].concat());
    }
    let reversed = layer(&[4095, 4095]).separation(1, 2, 4095, 1);
    group.narrowest(&reversed.bytes());
    group.note("inputs without a sheet: refused");
    for bytes in [&[][..], &[0x53], &[0x53, 0x50, 0x31]] {
        group.narrowest(bytes);
    }
    group
}
