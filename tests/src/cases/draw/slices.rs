//! Slices of every length around the one that is needed.

use super::Group;
use crate::document::{self, NO_DRAWING, ONE_NODE};
use crate::draft::Draft;
use second::certificate;
use second::sheet::{PLAIN, STRAIGHT};

/// Slices that are too short, long enough, and longer.
pub fn lengths() -> Group {
    let mut group = Group::new("drawing into slices of every length");
    add(&mut group, "first sheet", &document::first());
    add(&mut group, "stair", &document::stair(2, PLAIN));
    add(&mut group, "one node", &document::one_node());
    let without_edges = Draft::new(9, &[3, 2]).separation(1, 2, 3, 4);
    add(&mut group, "no edges", &without_edges);
    group
}

/// Adds a sheet with each slice alone too short, exact and longer.
fn add(group: &mut Group, name: &str, draft: &Draft) {
    let sheet = draft.sheet();
    let bytes = draft.bytes();
    let (places, list) = (sheet.node_count(), certificate::length(&sheet));
    group.note(&format!("{name}, exact lengths: yes"));
    group.draw(&bytes, places, list);
    group.note(&format!("{name}, too few places: refused"));
    for count in 0..places {
        group.draw(&bytes, count, list);
    }
    group.note(&format!("{name}, too few list numbers: refused"));
    for count in 0..list {
        group.draw(&bytes, places, count);
    }
    group.note(&format!("{name}, one short and many of the other: refused"));
    group.draw(&bytes, places - 1, list + 20);
    group.draw(&bytes, places + 20, list - 1);
    group.draw(&bytes, places - 1, list - 1);
    group.draw(&bytes, 0, 0);
    group.note(&format!("{name}, longer: yes"));
    for (more_places, more_list) in [(1, 0), (0, 1), (1, 1), (7, 0), (0, 9), (20, 30)] {
        group.draw(&bytes, places + more_places, list + more_list);
    }
}

/// Refusals that come before others.
pub fn order() -> Group {
    let mut group = Group::new("the order of refusals, drawing");
    group.note("7 before 8, each slice alone: refused");
    group.draw(&NO_DRAWING, 1, 4);
    group.draw(&NO_DRAWING, 2, 3);
    group.draw(&NO_DRAWING, 0, 0);
    let crossing = document::crossing().bytes();
    group.draw(&crossing, 3, 10);
    group.draw(&crossing, 4, 9);
    group.note("8 with exact lengths and longer: no");
    group.draw(&NO_DRAWING, 2, 4);
    group.draw(&NO_DRAWING, 3, 6);
    group.draw(&crossing, 4, 10);
    group.draw(&crossing, 9, 20);
    group.draw_exactly(&document::stair(1, STRAIGHT));
    group.note("6 before 7 and 8: refused");
    for bytes in [&ONE_NODE[..], &NO_DRAWING[..]] {
        let longer = [bytes, &[0x00]].concat();
        group.draw(&longer, 2, 4);
        group.draw(&longer, 0, 0);
    }
    group.note("1, 3, 4 and 5 in a sheet that has no drawing before 8: refused");
    let end = NO_DRAWING.len() - 1;
    group.draw(&NO_DRAWING[..end], 2, 4);
    let tails: [&[u8]; 3] = [&[0x80, 0x00], &[0x80, 0x7f], &[0x01]];
    for tail in tails {
        let bytes = [&NO_DRAWING[..end], tail].concat();
        group.draw(&bytes, 2, 4);
    }
    let reversed = Draft::new(0, &[2]).separation(1, 1, 2, 1);
    group.draw(&reversed.bytes(), 2, 4);
    group
}
