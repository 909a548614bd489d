//! Places on either side of what a drawing allows.

use super::{document::zeros, Case, Group};
use crate::document;
use crate::draft::Draft;
use second::drawing::{drawings, least_drawings};
use second::sheet::{PLAIN, STRAIGHT, WIDTH_LIMIT};

/// Adds a sheet without long edges, with a list of zeros, once for each of the places.
fn add(group: &mut Group, draft: &Draft, places: &[&[u16]]) {
    let list = zeros(&draft.sheet());
    for places in places {
        group.check(&Case::new(draft, places, &list));
    }
}

/// Each rule of a drawing broken by one step, and by more.
pub fn limits() -> Group {
    let mut group = Group::new("rules of a drawing on either side");
    group.note("one node, width 5: yes");
    let one = Draft::new(5, &[1]);
    add(&mut group, &one, &[&[0], &[1], &[4], &[5]]);
    group.note("past the width: no");
    let past: [&[u16]; 6] = [&[6], &[7], &[4095], &[4096], &[32768], &[65535]];
    add(&mut group, &one, &past);
    group.note("the greatest width: yes");
    let wide = Draft::new(WIDTH_LIMIT, &[1]);
    add(&mut group, &wide, &[&[4095], &[0]]);
    group.note("past the greatest width: no");
    add(&mut group, &wide, &[&[4096], &[65535]]);
    group.note("the last of two layers past the width: no");
    let two = Draft::new(5, &[2, 2]);
    add(&mut group, &two, &[&[0, 1, 5, 6], &[5, 6, 0, 1]]);
    separations(&mut group);
    straight_edges(&mut group);
    group
}

/// Adds separations on either side of their minimum and maximum.
fn separations(group: &mut Group) {
    let both = Draft::new(9, &[2]).separation(1, 1, 2, 4);
    group.note("minimum 2 and maximum 4: yes");
    add(group, &both, &[&[3, 5], &[3, 6], &[3, 7], &[5, 9]]);
    group.note("broken at the minimum: no");
    add(group, &both, &[&[3, 4], &[3, 3], &[3, 2], &[3, 0], &[9, 0]]);
    group.note("broken at the maximum: no");
    add(group, &both, &[&[3, 8], &[3, 9], &[0, 5], &[0, 9]]);
    group.note("maximum 0 is none: yes");
    let none = Draft::new(WIDTH_LIMIT, &[2]).separation(1, 1, 2, 0);
    add(group, &none, &[&[0, 2], &[0, 3], &[0, 4095], &[4093, 4095]]);
    group.note("maximum 0 is none, the minimum counts: no");
    add(group, &none, &[&[0, 1], &[0, 0], &[4095, 0], &[4094, 4095]]);
    group.note("a difference that is right in 16 bits only: no");
    add(group, &none, &[&[65535, 1], &[65534, 0], &[4095, 4097]]);
    group.note("minimum and maximum 4,095: yes");
    let tied = Draft::new(WIDTH_LIMIT, &[2]).separation(1, 1, 4095, 4095);
    add(group, &tied, &[&[0, 4095]]);
    group.note("minimum and maximum 4,095, one step less: no");
    add(group, &tied, &[&[0, 4094], &[1, 4095], &[1, 4096]]);
    let three = Draft::new(9, &[1, 3])
        .separation(2, 1, 1, 3)
        .separation(2, 2, 2, 2);
    group.note("three nodes in the second layer: yes");
    add(group, &three, &[&[9, 0, 1, 3], &[0, 4, 7, 9]]);
    group.note("the first, the second, and both separations broken: no");
    let broken: [&[u16]; 5] = [
        &[9, 1, 1, 3],
        &[9, 0, 4, 6],
        &[9, 0, 1, 2],
        &[9, 0, 1, 4],
        &[9, 3, 2, 1],
    ];
    add(group, &three, &broken);
}

/// Adds straight edges, broken or not.
fn straight_edges(group: &mut Group) {
    let chain = Draft::new(9, &[1, 1, 1])
        .edge(1, 1, 1, STRAIGHT)
        .edge(2, 1, 1, STRAIGHT);
    group.note("two straight edges: yes");
    add(group, &chain, &[&[0, 0, 0], &[4, 4, 4], &[9, 9, 9]]);
    group.note("straight edges broken: no");
    let broken: [&[u16]; 7] = [
        &[4, 4, 5],
        &[4, 4, 3],
        &[5, 4, 4],
        &[3, 4, 4],
        &[4, 5, 4],
        &[4, 5, 6],
        &[9, 0, 9],
    ];
    add(group, &chain, &broken);
    group.note("the same edges plain: no");
    let plain = Draft::new(9, &[1, 1, 1])
        .edge(1, 1, 1, PLAIN)
        .edge(2, 1, 1, PLAIN);
    add(group, &plain, &broken);
    group.note("the same edges plain, without length: yes");
    add(group, &plain, &[&[0, 0, 0], &[4, 4, 4]]);
    group.note("a broken straight edge without floor, and with one in its favour: no");
    let edge = Draft::new(1, &[1, 1]).edge(1, 1, 1, STRAIGHT);
    for list in [[0; 5], [1, 0, 1, 1, 0], [-1, 1, 0, 0, 1], [1, 0, 0, 0, 0]] {
        group.check(&Case::new(&edge, &[0, 1], &list));
        group.check(&Case::new(&edge, &[1, 0], &list));
    }
}

/// Other drawings of the same sheet, with the list of the leftmost least one.
pub fn others() -> Group {
    let mut group = Group::new("other drawings with the same list");
    let first = Case::drawn(&document::first());
    let (_, least) = least_drawings(&first.draft.sheet()).expect("the sheet has a drawing");
    group.note("first sheet, every least drawing, leftmost or not: yes");
    group.check_places(&first, least.clone());
    group.note("first sheet, drawings that are not least, the last node at 0 or 1: no");
    let mut longer = drawings(&first.draft.sheet());
    longer.retain(|places| !least.contains(places) && places[2] < 2);
    group.check_places(&first, longer);
    group.note("stair, width 3, drawings that are not least: no");
    let stair = Case::drawn(&document::stair(3, PLAIN));
    for places in [
        [0, 1, 0, 1, 0, 1],
        [0, 1, 0, 1, 1, 2],
        [0, 1, 1, 2, 1, 2],
        [0, 1, 1, 2, 1, 3],
        [1, 2, 1, 2, 2, 3],
    ] {
        group.check(&Case::new(&stair.draft, &places, &stair.list));
    }
    let narrow = Draft {
        width: 2,
        ..document::first()
    };
    group.note("first sheet at width 2, all places from 0 to 2, drawings or not");
    let case = Case::drawn(&narrow);
    let every = (0..27).map(|i| vec![i % 3, i / 3 % 3, i / 9]).collect();
    group.check_places(&case, every);
    group
}
