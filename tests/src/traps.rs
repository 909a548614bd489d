//! Document 01's traps on the drawing board: ways of drawing that seem right, each with a sheet
//! on which it does not find the answer.

use crate::document;
use crate::draft::Draft;
use second::drawing::{is_drawing, total, Separation, Sheet};
use second::sheet::{PLAIN, WIDTH_LIMIT};
use second::solver::solve;

/// A sheet, and what the trap draws on it.
pub struct Trap {
    pub name: &'static str,
    pub draft: Draft,
    /// None where the trap finds no drawing.
    pub places: Option<Vec<u16>>,
}

/// The traps, in the order of document 01.
pub fn traps() -> Vec<Trap> {
    let trap = |name, draft: Draft, draws: fn(&Sheet) -> Option<Vec<u16>>| {
        let places = draws(&draft.sheet());
        Trap {
            name,
            draft,
            places,
        }
    };
    vec![
        trap(
            "every layer packed to the left",
            document::stair(3, PLAIN),
            |sheet| Some(packed(sheet)),
        ),
        trap(
            "drawn without the width and squeezed",
            wide_stair(),
            squeezed,
        ),
        trap(
            "maximum 0 taken as a limit",
            document::two_over_three(0),
            limited,
        ),
        trap("rounded averages of neighbours", uneven_three(), |sheet| {
            Some(averaged(sheet))
        }),
        trap("no single node can move", fixed_pair(), |sheet| {
            Some(moved(sheet))
        }),
    ]
}

/// A stair in width 3 with one edge at its first step and two at its second.
fn wide_stair() -> Draft {
    Draft::new(3, &[2, 3, 3])
        .edge(1, 2, 1, PLAIN)
        .edge(2, 2, 1, PLAIN)
        .edge(2, 3, 2, PLAIN)
}

/// One node over three that fill the width, the third far from the others.
fn uneven_three() -> Draft {
    Draft::new(4, &[1, 3])
        .separation(2, 2, 3, 0)
        .edge(1, 1, 1, PLAIN)
        .edge(1, 1, 2, PLAIN)
        .edge(1, 1, 3, PLAIN)
}

/// Two nodes of fixed distance over four that fill the width; they belong over the last two.
fn fixed_pair() -> Draft {
    Draft::new(3, &[2, 4])
        .separation(1, 1, 1, 1)
        .edge(1, 1, 3, PLAIN)
        .edge(1, 2, 4, PLAIN)
}

/// Every node as near to its left neighbour as it may stand.
fn packed(sheet: &Sheet) -> Vec<u16> {
    let mut places = vec![0; sheet.node_count()];
    for pair in separations(sheet) {
        places[pair.right] = places[pair.left] + pair.minimum;
    }
    places
}

/// The answer in the greatest width, then every node moved left as far as the width makes it.
fn squeezed(sheet: &Sheet) -> Option<Vec<u16>> {
    let mut wide = sheet.clone();
    wide.width = WIDTH_LIMIT;
    let mut places = solve(&wide)?.places;
    for layer in &sheet.layers {
        places[layer.last] = sheet.width.min(places[layer.last]);
        for pair in layer.separations.iter().rev() {
            let limit = places[pair.right] - pair.minimum;
            places[pair.left] = limit.min(places[pair.left]);
        }
    }
    Some(places)
}

/// The answer where no maximum means a maximum of 0.
fn limited(sheet: &Sheet) -> Option<Vec<u16>> {
    let mut limited = sheet.clone();
    for layer in &mut limited.layers {
        for pair in &mut layer.separations {
            pair.maximum = pair.maximum.or(Some(0));
        }
    }
    Some(solve(&limited)?.places)
}

/// Every node in turn moved to the rounded average of the nodes it is joined to, where it may stand there.
fn averaged(sheet: &Sheet) -> Vec<u16> {
    let mut places = packed(sheet);
    for node in 0..places.len() {
        let ends = sheet.edges.iter().map(|edge| (edge.upper, edge.lower));
        let joined: Vec<u16> = ends
            .filter(|&(upper, lower)| upper == node || lower == node)
            .map(|(upper, lower)| places[if upper == node { lower } else { upper }])
            .collect();
        let (sum, count) = (joined.iter().sum::<u16>(), joined.len() as u16);
        if count > 0 {
            let mut tried = places.clone();
            tried[node] = (2 * sum + count) / (2 * count);
            if is_drawing(sheet, &tried) {
                places = tried;
            }
        }
    }
    places
}

/// Single nodes moved by one step from the packed drawing as long as that makes the total smaller.
fn moved(sheet: &Sheet) -> Vec<u16> {
    let mut places = packed(sheet);
    while let Some(better) = better_by_one_move(sheet, &places) {
        places = better;
    }
    places
}

/// A drawing of smaller total in which one node stands one step to the side.
fn better_by_one_move(sheet: &Sheet, places: &[u16]) -> Option<Vec<u16>> {
    let with = |node: usize, place: u16| {
        let mut tried = places.to_vec();
        tried[node] = place;
        tried
    };
    let right = (0..places.len()).map(|node| with(node, places[node] + 1));
    let left = (0..places.len()).map(|node| with(node, places[node].saturating_sub(1)));
    let is_better =
        |tried: &Vec<u16>| is_drawing(sheet, tried) && total(sheet, tried) < total(sheet, places);
    right.chain(left).find(is_better)
}

/// The separations of all layers, left to right.
fn separations(sheet: &Sheet) -> impl Iterator<Item = &Separation> {
    sheet.layers.iter().flat_map(|layer| &layer.separations)
}
