//! Changes of good inputs that keep them good; those of sheets.

use second::sheet::{
    EDGE_LIMIT, LAYER_LIMIT, LAYER_NODE_LIMIT, NODE_LIMIT, PLAIN, SEPARATION_LIMIT, STRAIGHT,
    WIDTH_LIMIT,
};
use strip_tests::draft::{Draft, Edge, Separation};
use strip_tests::files::any;
use strip_tests::generate::{good, small};
use strip_tests::planted::{planted, Plan};
use strip_tests::random::Random;

use crate::parts::{count, fit, parts};
use crate::rows;

/// The sheet or coordinate file changed a few times; none where its bytes are better changed as they
/// are.
pub fn input(random: &mut Random, bytes: &[u8]) -> Option<Vec<u8>> {
    if random.once_in(6) {
        return None;
    }
    if random.once_in(60) {
        return Some(another(random).bytes());
    }
    if random.once_in(240) {
        return Some(any(random).bytes());
    }
    sheet(random, bytes).or_else(|| rows::file(random, bytes))
}

/// The sheet changed a few times; none where it is not good.
fn sheet(random: &mut Random, bytes: &[u8]) -> Option<Vec<u8>> {
    let mut draft = parts(bytes)?;
    for _ in 0..random.within(1..=4) {
        change(random, &mut draft);
    }
    Some(draft.bytes())
}

/// A sheet that has nothing to do with any other.
fn another(random: &mut Random) -> Draft {
    match random.within(0..=2) {
        0 => good(random),
        1 => small(random),
        _ => {
            let plan = any_plan(random);
            planted(random, &plan)
        }
    }
}

/// What a sheet with a drawing is to be like; few are of full size.
fn any_plan(random: &mut Random) -> Plan {
    let most = if random.once_in(8) { NODE_LIMIT } else { 60 };
    let nodes = random.within(2..=most);
    let fewest_layers = nodes.div_ceil(LAYER_NODE_LIMIT);
    Plan {
        layers: random.within(fewest_layers..=nodes.min(LAYER_LIMIT)),
        nodes,
        edges: random.within(0..=2 * nodes),
        distance: random.within(1..=40),
        play: random.within(0..=9),
        margin: random.within(0..=90),
        straight: random.within(1..=8),
        maximum: random.within(1..=5),
    }
}

/// Changes one part of a sheet.
fn change(random: &mut Random, draft: &mut Draft) {
    match random.within(0..=9) {
        0 => draft.width = near(random, draft.width, 0, WIDTH_LIMIT),
        1 | 2 => separation(random, draft),
        3 => add_node(random, draft),
        4 => remove_node(random, draft),
        5 => layer(random, draft),
        6 | 7 => add_edge(random, draft),
        8 => change_edge(random, draft),
        _ => remove_edge(random, draft),
    }
    fit(draft);
}

/// A number within limits: a little more or less, an end of the limits, or any.
fn near(random: &mut Random, n: u16, least: u16, greatest: u16) -> u16 {
    match random.within(0..=9) {
        0 => least,
        1 => greatest,
        2 => random.within(least..=greatest),
        3..=5 => (n + random.within(1..=3)).min(greatest),
        _ => n.saturating_sub(random.within(1..=3)).max(least),
    }
}

/// Changes the separation of two neighbours.
fn separation(random: &mut Random, draft: &mut Draft) {
    let layer = random.index(draft.layers.len());
    let pairs = &mut draft.layers[layer];
    if pairs.is_empty() {
        return;
    }
    let at = random.index(pairs.len());
    pairs[at] = any_separation(random, pairs[at].minimum);
}

/// A separation with a minimum near this one.
fn any_separation(random: &mut Random, minimum: u16) -> Separation {
    let minimum = near(random, minimum, 1, SEPARATION_LIMIT);
    let maximum = match random.within(0..=3) {
        0 => minimum,
        1 => near(random, minimum, minimum, SEPARATION_LIMIT),
        _ => 0,
    };
    Separation { minimum, maximum }
}

/// Adds a node to a layer, where the limits allow it.
fn add_node(random: &mut Random, draft: &mut Draft) {
    let nodes: usize = draft.layers.iter().map(|layer| layer.len() + 1).sum();
    let layer = random.index(draft.layers.len());
    let pairs = &mut draft.layers[layer];
    if nodes < NODE_LIMIT.into() && pairs.len() + 1 < LAYER_NODE_LIMIT.into() {
        let at = random.index(pairs.len() + 1);
        pairs.insert(at, any_separation(random, 1));
    }
}

/// Removes a node from a layer, but not the last one.
fn remove_node(random: &mut Random, draft: &mut Draft) {
    let layer = random.index(draft.layers.len());
    let pairs = &mut draft.layers[layer];
    if !pairs.is_empty() {
        pairs.remove(random.index(pairs.len()));
    }
}

/// Removes a layer, or doubles one where the limits allow it.
fn layer(random: &mut Random, draft: &mut Draft) {
    let at = random.index(draft.layers.len());
    let nodes: usize = draft.layers.iter().map(|layer| layer.len() + 1).sum();
    let more = draft.layers[at].len() + 1;
    if random.once_in(2) && draft.layers.len() > 1 {
        draft.layers.remove(at);
    } else if draft.layers.len() < LAYER_LIMIT.into() && nodes + more <= NODE_LIMIT.into() {
        draft.layers.insert(at, draft.layers[at].clone());
    }
}

/// Adds an edge, or one that is parallel to another.
fn add_edge(random: &mut Random, draft: &mut Draft) {
    if draft.layers.len() == 1 || draft.edges.len() == EDGE_LIMIT.into() {
        return;
    }
    let mut edge = any_edge(random, draft);
    if random.once_in(5) && !draft.edges.is_empty() {
        let kind = edge.kind;
        let parallel = draft.edges[random.index(draft.edges.len())].clone();
        edge = Edge { kind, ..parallel };
    }
    let at = random.index(draft.edges.len() + 1);
    draft.edges.insert(at, edge);
}

/// Any edge of a sheet with two layers or more; most are plain.
fn any_edge(random: &mut Random, draft: &Draft) -> Edge {
    let layer = random.within(1..=draft.layers.len() as u16 - 1);
    Edge {
        layer,
        upper: random.within(1..=count(draft, layer)),
        lower: random.within(1..=count(draft, layer + 1)),
        kind: if random.once_in(4) { STRAIGHT } else { PLAIN },
    }
}

/// Turns the kind of an edge, or moves one of its ends.
fn change_edge(random: &mut Random, draft: &mut Draft) {
    if draft.edges.is_empty() {
        return;
    }
    let at = random.index(draft.edges.len());
    let mut edge = draft.edges[at].clone();
    let (above, below) = (count(draft, edge.layer), count(draft, edge.layer + 1));
    match random.within(0..=2) {
        0 => edge.kind = PLAIN + STRAIGHT - edge.kind,
        1 => edge.upper = near(random, edge.upper, 1, above),
        _ => edge.lower = near(random, edge.lower, 1, below),
    }
    draft.edges[at] = edge;
}

/// Removes an edge.
fn remove_edge(random: &mut Random, draft: &mut Draft) {
    if !draft.edges.is_empty() {
        draft.edges.remove(random.index(draft.edges.len()));
    }
}
