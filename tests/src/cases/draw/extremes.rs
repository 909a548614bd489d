//! Small sheets with extreme numbers: the longest edges, the longest chains.

use super::Group;
use crate::draft::Draft;
use crate::families::conflicts::spiral;
use crate::families::sizes::{longest_edges, longest_parallel};
use second::sheet::{LAYER_LIMIT, STRAIGHT, WIDTH_LIMIT};

/// One sheet for each extreme, and those next to it.
pub fn sheets() -> Group {
    let mut group = Group::new("drawing sheets with extreme numbers");
    group.note("512 edges about as long as the greatest width, no two parallel: yes");
    group.draw_exactly(&longest_edges());
    group.note("512 parallel edges as long as the greatest width: yes");
    group.draw_exactly(&longest_parallel());
    group.note("a straight chain through 64 layers at the right boundary: yes");
    group.draw_exactly(&chain());
    group.note("a spiral of straight edges that just closes: yes");
    group.draw_exactly(&spiral(&[1; LAYER_LIMIT as usize], 0));
    group.note("a spiral of straight edges that misses by 1: no");
    group.draw_exactly(&spiral(&[1; LAYER_LIMIT as usize], 1));
    group.note("64 nodes in one layer that fill the width: yes");
    group.draw_exactly(&Draft::new(63, &[64]));
    group.note("64 nodes in one layer, width one less: no");
    group.draw_exactly(&Draft::new(62, &[64]));
    group
}

/// A straight chain whose last layer has another node far to the left.
fn chain() -> Draft {
    let mut counts = [1; LAYER_LIMIT as usize];
    counts[63] = 2;
    let mut draft = Draft::new(WIDTH_LIMIT, &counts).separation(64, 1, WIDTH_LIMIT, 0);
    for layer in 1..LAYER_LIMIT {
        let lower = counts[usize::from(layer)];
        draft = draft.edge(layer, 1, lower, STRAIGHT);
    }
    draft
}
