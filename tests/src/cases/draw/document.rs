//! The sheets and refusals of document 01, and the sheets of document 02's ticket 4.

use super::Group;
use crate::document::{self, NO_DRAWING, ONE_NODE, REFUSED};
use second::solver::solve;

/// The sheets on either side of each edge.
pub fn sheets() -> Group {
    let mut group = Group::new("drawing the sheets on either side of each edge");
    group.note("D PLACES LIST BYTES draws a sheet into so many places, each a5a5 before,");
    group.note("and so many list numbers, each -1515870811 before; the checker has the last word");
    for (name, draft) in document::sheets() {
        let word = match solve(&draft.sheet()) {
            Some(_) => "yes",
            None => "no",
        };
        group.note(&format!("{name}: {word}"));
        group.draw_exactly(&draft);
        group.draw_with_excess(&draft, 2, 3);
    }
    group
}

/// The sheets with parallel edges.
pub fn parallel_edges() -> Group {
    let mut group = Group::new("drawing parallel edges, which count once");
    for traced in document::traced() {
        group.note(&format!("{}: yes", traced.name));
        group.draw_exactly(&traced.draft);
    }
    group
}

/// The widths on either side of the greatest one, of a sheet with one node.
pub fn widths() -> Group {
    let mut group = Group::new("drawing with the widths on either side of the greatest one");
    let widths: [(&str, &[u8]); 3] = [
        ("4,095: yes", &[0xff, 0x1f]),
        ("4,096: refused", &[0x80, 0x20]),
        ("three bytes: refused", &[0x80, 0x80]),
    ];
    for (name, width) in widths {
        let bytes = [&ONE_NODE[..3], width, &ONE_NODE[4..]].concat();
        group.note(name);
        group.draw(&bytes, 1, 2);
    }
    group
}

/// The table of refusals.
pub fn refusals() -> Group {
    let mut group = Group::new("drawing the table of refusals");
    for (name, bytes) in REFUSED {
        group.note(&format!("{name}: refused"));
        group.draw(bytes, 3, 8);
        group.draw(bytes, 0, 0);
    }
    group.note("7: no place: refused");
    group.draw(&ONE_NODE, 0, 2);
    group.note("8: no drawing exists: no");
    group.draw(&NO_DRAWING, 2, 4);
    group.note("inputs without a sheet: refused");
    for bytes in [&[][..], &[0x53], &[0x53, 0x50, 0x31]] {
        group.draw(bytes, 3, 8);
    }
    group
}
