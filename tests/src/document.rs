//! The examples of document 01, and those of document 02's ticket 4.

use crate::draft::Draft;
use second::sheet::{PLAIN, STRAIGHT, WIDTH_LIMIT};

/// The sheet with one node and no edges, in bytes.
pub const ONE_NODE: [u8; 7] = [0x53, 0x50, 0x31, 0x00, 0x01, 0x01, 0x00];
/// A sheet without a drawing, in bytes.
pub const NO_DRAWING: [u8; 9] = [0x53, 0x50, 0x31, 0x00, 0x01, 0x02, 0x01, 0x00, 0x00];
/// The pull list of the first sheet.
pub const FIRST_LIST: [i32; 8] = [1, -1, 0, 1, 0, 0, 0, 0];

/// The examples of refusals 1 to 6, with names.
pub const REFUSED: [(&str, &[u8]); 6] = [
    ("1: the input ends", &[0x53, 0x50]),
    ("2: not a sheet", &[0x53, 0x51, 0x31]),
    ("3: not the fewest bytes", &[0x53, 0x50, 0x31, 0x80, 0x00]),
    ("4: outside its limits", &[0x53, 0x50, 0x31, 0x05, 0x00]),
    (
        "5: maximum below minimum",
        &[0x53, 0x50, 0x31, 0x05, 0x01, 0x02, 0x03, 0x02],
    ),
    (
        "6: something follows",
        &[0x53, 0x50, 0x31, 0x00, 0x01, 0x01, 0x00, 0x00],
    ),
];

/// The first sheet.
pub fn first() -> Draft {
    Draft::new(5, &[2, 1])
        .edge(1, 1, 1, PLAIN)
        .edge(1, 2, 1, PLAIN)
}

/// The stair; the kind is that of its second edge.
pub fn stair(width: u16, kind: u16) -> Draft {
    Draft::new(width, &[2, 2, 2])
        .edge(1, 2, 1, PLAIN)
        .edge(2, 2, 1, kind)
}

/// Two straight edges that cross.
pub fn crossing() -> Draft {
    Draft::new(WIDTH_LIMIT, &[2, 2])
        .edge(1, 1, 2, STRAIGHT)
        .edge(1, 2, 1, STRAIGHT)
}

/// Layers of two and three nodes with a maximum separation in the upper one.
pub fn two_over_three(maximum: u16) -> Draft {
    Draft::new(2, &[2, 3])
        .separation(1, 1, 1, maximum)
        .edge(1, 1, 1, PLAIN)
        .edge(1, 2, 3, PLAIN)
}

/// One node over three, with two parallel edges to the third.
pub fn one_over_three() -> Draft {
    one_over_three_of([PLAIN, PLAIN])
}

/// The same where the parallel edges have these kinds.
pub fn one_over_three_of(kinds: [u16; 2]) -> Draft {
    Draft::new(2, &[1, 3])
        .edge(1, 1, 1, PLAIN)
        .edge(1, 1, 3, kinds[0])
        .edge(1, 1, 3, kinds[1])
}

/// The same with the other edge between the parallel ones.
pub fn one_over_three_apart() -> Draft {
    let mut draft = one_over_three();
    draft.edges.swap(0, 1);
    draft
}

/// One node, width 0 and no edges.
pub fn one_node() -> Draft {
    Draft::new(0, &[1])
}

/// A sheet with parallel edges, and its answer.
pub struct Traced {
    pub name: &'static str,
    pub draft: Draft,
    pub total: u32,
    pub places: [u16; 4],
    pub list: [i32; 11],
}

/// The sheets of ticket 4 with their answers.
pub fn traced() -> [Traced; 3] {
    let answer = |name, draft, places, list| Traced {
        name,
        draft,
        total: 2,
        places,
        list,
    };
    [
        answer(
            "one node over three",
            one_over_three(),
            [0, 0, 1, 2],
            [-1, 1, 0, 0, 0, 0, 1, 0, 1, 0, 0],
        ),
        answer(
            "the same, another edge between the parallel ones",
            one_over_three_apart(),
            [0, 0, 1, 2],
            [1, -1, 0, 0, 0, 0, 1, 0, 1, 0, 0],
        ),
        answer(
            "the same, the second parallel edge straight",
            one_over_three_of([PLAIN, STRAIGHT]),
            [2, 0, 1, 2],
            [-1, 2, 0, 0, 1, 1, 2, 0, 2, 0, 0],
        ),
    ]
}

/// The sheets on either side of each edge, with names; some have no drawing.
pub fn sheets() -> Vec<(String, Draft)> {
    let mut sheets = vec![("first sheet".to_string(), first())];
    for width in 0..=3 {
        sheets.push(("stair".to_string(), stair(width, PLAIN)));
    }
    for width in 1..=2 {
        let name = "stair, second edge straight";
        sheets.push((name.to_string(), stair(width, STRAIGHT)));
    }
    sheets.push(("crossing straight edges".to_string(), crossing()));
    for maximum in [1, 0] {
        let name = format!("layers of two and three, upper maximum {maximum}");
        sheets.push((name, two_over_three(maximum)));
    }
    sheets.push(("one node over three".to_string(), one_over_three()));
    sheets.push(("one node".to_string(), one_node()));
    for (name, draft) in &mut sheets {
        *name = format!("{name}, width {}", draft.width);
    }
    sheets
}
