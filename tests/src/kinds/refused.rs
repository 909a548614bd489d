//! Sheets of full size that are refused.

use super::layered::sheets;
use super::Kind;
use crate::damage::DAMAGES;
use crate::draft::{encode_behind, Draft, Separation};
use crate::families::conflicts::{crossed, spiral};
use crate::families::orders::{in_order, orders};
use crate::families::realistic::with_plain;
use crate::families::turned::{mirrored, upside_down};
use crate::families::widths::in_width;
use crate::random::Random;
use second::coordinates;
use second::minimum_width::least_width;
use second::sheet::{read, EDGE_LIMIT, LAYER_LIMIT, NODE_LIMIT, NUMBER_LIMIT};

/// Good sheets without a drawing, by the reason.
pub fn undrawn() -> Vec<Kind> {
    let kind = |name: &str, sheets| Kind {
        name: name.to_owned(),
        sheets,
    };
    vec![
        kind("spirals", spirals()),
        kind("one too narrow", narrow()),
        kind("crossed", crossing()),
    ]
}

/// Sheets damaged in each way, those that are bad, and sheets with the signature of a coordinate file.
pub fn bad() -> Vec<Vec<u8>> {
    let mut random = Random::new(31);
    let mut bad = Vec::new();
    for sheet in layered() {
        let bytes = sheet.bytes();
        bad.extend(DAMAGES.map(|(_, damage)| damage(&mut random, &bytes)));
        bad.push(encode_behind(coordinates::SIGNATURE, &sheet.numbers()));
    }
    bad.retain(|bytes| read(bytes, &mut [0; NUMBER_LIMIT]).is_err());
    bad
}

/// Some layered sheets with chains.
fn layered() -> Vec<Draft> {
    let some = |percent| sheets(NODE_LIMIT, percent).into_iter().take(7);
    [15, 40, 60].into_iter().flat_map(some).collect()
}

/// Spirals that miss by one step, filled up to full size: turned around in each way, with the edges in
/// several orders.
fn spirals() -> Vec<Draft> {
    let mut random = Random::new(32);
    let mut spirals = Vec::new();
    for greatest in [1, 40] {
        let steps = [0; LAYER_LIMIT as usize].map(|_| random.within(1..=greatest));
        let full = filled(&mut random, spiral(&steps, 1));
        for turned in [full.clone(), mirrored(&full), upside_down(&full)] {
            let orders = orders(&mut random, &turned);
            spirals.extend(orders.iter().map(|order| in_order(&turned, order)));
            spirals.push(turned);
        }
    }
    spirals
}

/// The sheet with one node more at the end of each layer, and plain edges until there are 512.
fn filled(random: &mut Random, mut draft: Draft) -> Draft {
    for layer in &mut draft.layers {
        layer.push(Separation {
            minimum: 1,
            maximum: 0,
        });
    }
    let plain = EDGE_LIMIT - draft.edges.len() as u16;
    with_plain(random, draft, plain)
}

/// Layered sheets in a width of one less than they need.
fn narrow() -> Vec<Draft> {
    let narrow = |draft: &Draft| {
        let needed = least_width(&draft.sheet()).expect("a layered sheet has a drawing");
        in_width(draft, needed - 1)
    };
    layered().iter().map(narrow).collect()
}

/// Layered sheets with two straight edges that cross.
fn crossing() -> Vec<Draft> {
    let mut random = Random::new(33);
    let crossing = |draft| crossed(&mut random, draft);
    layered().iter().filter_map(crossing).collect()
}
