//! Sheets on which a way of drawing that seems right does not find the answer.

use super::Group;
use crate::document;
use crate::traps::traps;
use second::sheet::PLAIN;

/// One sheet for each trap, and the stair in other widths.
pub fn sheets() -> Group {
    let mut group = Group::new("drawing the traps on the drawing board");
    for trap in traps() {
        group.note(&format!("{}: yes", trap.name));
        group.draw_exactly(&trap.draft);
    }
    group.note("the stair in wide strips: yes");
    for width in [4, 5, 4095] {
        group.draw_exactly(&document::stair(width, PLAIN));
    }
    group
}
