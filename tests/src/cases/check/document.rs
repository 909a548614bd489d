//! The sheets of document 01, and those of document 02's ticket 4.

use super::{Case, Group};
use crate::document::{self, FIRST_LIST};
use crate::draft::Draft;
use crate::mutation::{around_layers, moved_pull, parallel_pairs};
use second::certificate;
use second::drawing::{total, Sheet};
use second::sheet::{PLAIN, STRAIGHT};

/// The sheets on either side of each edge that have a drawing.
pub fn sheets() -> Group {
    let mut group = Group::new("checking the sheets on either side of each edge");
    group.note("C PLACES LIST: so many places, so many list numbers, and the bytes of their sheet");
    for (name, draft) in document::sheets() {
        let Some(case) = Case::solved(&draft) else {
            continue;
        };
        group.note(&format!("{name}: yes"));
        group.check_tight(&case);
        let sheet = draft.sheet();
        let answer = match total(&sheet, &case.places) {
            0 => "yes",
            _ => "no",
        };
        group.note(&format!("{name}, a list of zeros: {answer}"));
        group.check_lists(&case, vec![zeros(&sheet)]);
    }
    let first = Case::new(&document::first(), &[0, 1, 0], &FIRST_LIST);
    group.note("the first sheet with its list: yes");
    group.check_tight(&first);
    group.note("the first sheet with zeros: no");
    group.check_lists(&first, vec![vec![0; 8]]);
    group
}

/// The sheets that have no drawing, with floors that equal the totals.
pub fn without_drawing() -> Group {
    let mut group = Group::new("checking the sheets without a drawing");
    for (name, draft) in document::sheets() {
        if Case::solved(&draft).is_none() {
            group.note(&format!("{name}, lists of zeros: no"));
            any_places(&mut group, &draft);
        }
    }
    group.note("width 0 and two nodes, lists of zeros: no");
    let two_nodes = Draft::new(0, &[2]);
    any_places(&mut group, &two_nodes);
    group.note("the same, floor 1: no");
    group.check(&Case::new(&two_nodes, &[0, 1], &[1, 1, 0, 1]));
    group.note("floors that equal the total: no");
    group.check_tight(&Case::new(&two_nodes, &[0, 0], &[0; 4]));
    group.check_tight(&Case::new(&two_nodes, &[0, 1], &[0; 4]));
    floors(&mut group);
    group
}

/// The sheets with parallel edges, with their lists and with the pull on the later edge.
pub fn parallel_edges() -> Group {
    let mut group = Group::new("checking parallel edges, of which the first carries the pull");
    for traced in document::traced() {
        let case = Case::new(&traced.draft, &traced.places, &traced.list);
        group.note(&format!("{}: yes", traced.name));
        group.check_tight(&case);
        group.note("its pull on the later parallel edge: no");
        for (first, later) in parallel_pairs(&traced.draft.sheet()) {
            let list = moved_pull(&traced.list, first, later, traced.list[first]);
            group.check_tight(&Case::new(&traced.draft, &traced.places, &list));
        }
    }
    group
}

/// Adds a sheet of layers of two nodes with several places and lists of zeros.
fn any_places(group: &mut Group, draft: &Draft) {
    let list = zeros(&draft.sheet());
    for pair in [[0, 0], [0, 1], [1, 0], [1, 2], [0, 4095]] {
        let places = pair.repeat(draft.layers.len());
        group.check(&Case::new(draft, &places, &list));
    }
}

/// Adds lists that meet the rules and have a floor that equals the total.
fn floors(group: &mut Group) {
    let packed = [0, 1, 0, 1, 0, 1];
    let stair = document::stair(0, PLAIN);
    let sheet = stair.sheet();
    for list in around_layers(&sheet, &zeros(&sheet), 2) {
        group.check_tight(&Case::new(&stair, &packed, &list));
    }
    let list = [0, -2, 0, 0, 0, 0, 2, 2, 0, 0, 0, 2, 0, 2];
    let case = Case::new(&document::stair(1, STRAIGHT), &packed, &list);
    group.check_tight(&case);
    let list = [1, -1, 0, 1, 0, 0, 0, 1, 0, 0];
    let case = Case::new(&document::crossing(), &packed[..4], &list);
    group.check_tight(&case);
}

/// A pull list of zeros.
pub(super) fn zeros(sheet: &Sheet) -> Vec<i32> {
    vec![0; certificate::length(sheet)]
}
