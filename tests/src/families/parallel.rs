//! Sheets with parallel edges: of all kinds in each order, few and many, near and far in the sheet; and
//! changes of parallel edges that leave the drawing as it is.

use std::collections::HashSet;

use crate::draft::{Draft, Edge};
use crate::families::sizes;
use crate::mutation::parallel_pairs;
use crate::random::Random;
use second::sheet::{EDGE_LIMIT, LAYER_NODE_LIMIT, NODE_LIMIT, PLAIN, STRAIGHT};

/// Two nodes, one above the other, with edges of these kinds between them.
pub fn between_two(width: u16, kinds: &[u16]) -> Draft {
    let mut draft = Draft::new(width, &[1, 1]);
    for &kind in kinds {
        draft = draft.edge(1, 1, 1, kind);
    }
    draft
}

/// A list of such a sheet in which the boundaries push against all pulls together.
pub fn balanced(pulls: &[i32]) -> Vec<i32> {
    let sum: i32 = pulls.iter().sum();
    let (down, up) = (sum.max(0), (-sum).max(0));
    [pulls, &[up, down, down, up]].concat()
}

/// One node over three with two to four edges to the third, of all kinds in each order, and before each
/// of them an edge to another node or none. The other edges are parallel to each other, too.
pub fn all_kinds() -> Vec<Draft> {
    let mut sheets = Vec::new();
    for width in [2, 3] {
        for count in 2..=4 {
            for choice in 0..1 << (2 * count) {
                let is_set = |bit: u16| choice >> bit & 1 == 1;
                let mut draft = Draft::new(width, &[1, 3]);
                for i in 0..count {
                    if is_set(count + i) {
                        draft = draft.edge(1, 1, i % 2 + 1, PLAIN);
                    }
                    draft = draft.edge(1, 1, 3, if is_set(i) { STRAIGHT } else { PLAIN });
                }
                sheets.push(draft);
            }
        }
    }
    sheets
}

/// Two nodes over one, with so many edges from the second, of which one is straight or none, and one
/// edge from the first before them where there is room for it.
pub fn counted(count: u16, straight: Option<u16>) -> Draft {
    let mut draft = Draft::new(5, &[2, 1]);
    if count < EDGE_LIMIT {
        draft = draft.edge(1, 1, 1, PLAIN);
    }
    for i in 0..count {
        let kind = if straight == Some(i) { STRAIGHT } else { PLAIN };
        draft = draft.edge(1, 2, 1, kind);
    }
    draft
}

/// From two to 512 parallel edges: all plain, or the first, the middle or the last one straight.
pub fn all_counts() -> Vec<Draft> {
    let mut sheets = Vec::new();
    for count in 2..=EDGE_LIMIT {
        let middle = (count > 2).then_some(Some(count / 2));
        let straight = [None, Some(0), Some(count - 1)].into_iter().chain(middle);
        sheets.extend(straight.map(|straight| counted(count, straight)));
    }
    sheets
}

/// A sheet of medium or full size whose last edges are parallel to its first ones. Where these are
/// straight, the first ones stay so, the last ones do, or both.
pub fn far_apart(random: &mut Random) -> Draft {
    let mut draft = match random.once_in(10) {
        true => sizes::full(random, 8),
        false => sizes::medium(random),
    };
    let count = draft.edges.len() / 4;
    let last = draft.edges.len() - count;
    for i in 0..count {
        draft.edges[last + i] = draft.edges[i].clone();
        match random.within(0..=2) {
            0 => draft.edges[i].kind = PLAIN,
            1 => draft.edges[last + i].kind = PLAIN,
            _ => {}
        }
    }
    draft
}

/// A sheet of 256 nodes, most of them in layers of 64, and 512 edges between few positions. Edges of
/// different layers have equal positions, and nodes that are 64 apart; some straight edges have
/// parallel ones before or behind them.
pub fn layers_of_64(random: &mut Random) -> Draft {
    let first = [LAYER_NODE_LIMIT, 1, 2, 33, 63][random.index(5)];
    let mut counts = vec![first, LAYER_NODE_LIMIT, LAYER_NODE_LIMIT];
    let left = NODE_LIMIT - counts.iter().sum::<u16>();
    counts.push(left.min(LAYER_NODE_LIMIT));
    if left > LAYER_NODE_LIMIT {
        counts.push(left - LAYER_NODE_LIMIT);
    }
    let positions = [1, 2, 31, 32, 33, 63, 64];
    let mut draft = Draft::new(63 + random.within(0..=9), &counts);
    for _ in 0..EDGE_LIMIT {
        let upper_layer = random.index(counts.len() - 1);
        let mut position = |layer: usize| positions[random.index(7)].min(counts[layer]);
        let (upper, lower) = (position(upper_layer), position(upper_layer + 1));
        let is_straight = upper == lower && random.once_in(8);
        let kind = if is_straight { STRAIGHT } else { PLAIN };
        draft = draft.edge(upper_layer as u16 + 1, upper, lower, kind);
    }
    draft
}

/// The sheet with plain edges only, but for a straight one behind the edge it is parallel to, if there
/// is any edge.
pub fn only_later_straight(random: &mut Random, draft: &Draft) -> Option<Draft> {
    let mut changed = draft.clone();
    changed.edges.truncate(usize::from(EDGE_LIMIT) - 1);
    for edge in &mut changed.edges {
        edge.kind = PLAIN;
    }
    if changed.edges.is_empty() {
        return None;
    }
    let first = random.index(changed.edges.len());
    let straight = Edge {
        kind: STRAIGHT,
        ..changed.edges[first].clone()
    };
    let behind = first + 1 + random.index(changed.edges.len() - first);
    changed.edges.insert(behind, straight);
    Some(changed)
}

/// The sheet without its later plain edges: a plain edge stays only where no parallel one is before it.
/// Tells for each edge of the given sheet whether it stays.
pub fn without_later_plain(draft: &Draft) -> (Draft, Vec<bool>) {
    let mut known = HashSet::new();
    let mut is_first = |edge: &Edge| known.insert((edge.layer, edge.upper, edge.lower));
    let stays = |edge: &Edge| is_first(edge) || edge.kind == STRAIGHT;
    let stays: Vec<bool> = draft.edges.iter().map(stays).collect();
    let mut reduced = draft.clone();
    let mut each = stays.iter();
    reduced.edges.retain(|_| each.next() == Some(&true));
    (reduced, stays)
}

/// The sheet with a plain edge once more, anywhere, if there is one and room for it.
pub fn with_plain_doubled(random: &mut Random, draft: &Draft) -> Option<Draft> {
    let plain: Vec<&Edge> = draft
        .edges
        .iter()
        .filter(|edge| edge.kind == PLAIN)
        .collect();
    if plain.is_empty() || draft.edges.len() == EDGE_LIMIT.into() {
        return None;
    }
    let edge = plain[random.index(plain.len())].clone();
    let mut doubled = draft.clone();
    doubled
        .edges
        .insert(random.index(draft.edges.len() + 1), edge);
    Some(doubled)
}

/// The sheet with the kinds of two parallel edges exchanged, if any two have different kinds.
pub fn with_kinds_exchanged(random: &mut Random, draft: &Draft) -> Option<Draft> {
    let mut pairs = parallel_pairs(&draft.sheet());
    pairs.retain(|&(i, j)| draft.edges[i].kind != draft.edges[j].kind);
    if pairs.is_empty() {
        return None;
    }
    let (i, j) = pairs[random.index(pairs.len())];
    let mut exchanged = draft.clone();
    exchanged.edges.swap(i, j);
    Some(exchanged)
}
