//! Changes of good coordinate files that keep them good.

use second::coordinates::{read, NUMBER_LIMIT, PLACE_LIMIT};
use second::sheet::{LAYER_LIMIT, LAYER_NODE_LIMIT, NODE_LIMIT};
use strip_tests::files::Rows;
use strip_tests::random::Random;

/// The file changed a few times; none where it is not good.
pub fn file(random: &mut Random, bytes: &[u8]) -> Option<Vec<u8>> {
    let mut rows = parts(bytes)?;
    for _ in 0..random.within(1..=4) {
        change(random, &mut rows.0);
    }
    Some(rows.bytes())
}

/// The places of each layer of a file; none where it is not good.
fn parts(bytes: &[u8]) -> Option<Rows> {
    let mut numbers = [0; NUMBER_LIMIT];
    let count = read(bytes, &mut numbers).ok()?;
    let mut numbers = numbers[..count].iter().copied();
    let mut next = || numbers.next().expect("a good file has all its numbers");
    let mut rows = Vec::new();
    for _ in 0..next() {
        let count = next();
        rows.push((0..count).map(|_| next()).collect());
    }
    Some(Rows(rows))
}

/// Changes one layer, or the count of layers.
fn change(random: &mut Random, rows: &mut Vec<Vec<u16>>) {
    let at = random.index(rows.len());
    match random.within(0..=5) {
        0 | 1 => move_node(random, &mut rows[at]),
        2 => move_layer(random, &mut rows[at]),
        3 if count(rows) < NODE_LIMIT.into() => add_node(random, &mut rows[at]),
        4 => remove_node(random, &mut rows[at]),
        _ => layer(random, rows, at),
    }
}

/// The count of nodes in all layers together.
fn count(rows: &[Vec<u16>]) -> usize {
    rows.iter().map(Vec::len).sum()
}

/// Removes a layer, or doubles it where the limits allow it.
fn layer(random: &mut Random, rows: &mut Vec<Vec<u16>>, at: usize) {
    let more = rows[at].len();
    if random.once_in(2) && rows.len() > 1 {
        rows.remove(at);
    } else if rows.len() < LAYER_LIMIT.into() && count(rows) + more <= NODE_LIMIT.into() {
        rows.insert(at, rows[at].clone());
    }
}

/// Removes a node, but not the last one.
fn remove_node(random: &mut Random, row: &mut Vec<u16>) {
    if row.len() > 1 {
        row.remove(random.index(row.len()));
    }
}

/// Moves a node to a place between its neighbours: next to one of them, or any.
fn move_node(random: &mut Random, row: &mut [u16]) {
    let at = random.index(row.len());
    let least = if at == 0 { 0 } else { row[at - 1] + 1 };
    let greatest = row.get(at + 1).map_or(PLACE_LIMIT, |right| right - 1);
    row[at] = match random.within(0..=2) {
        0 => least,
        1 => greatest,
        _ => random.within(least..=greatest),
    };
}

/// Moves all nodes of a layer: to the left end, to the right end, or anywhere.
fn move_layer(random: &mut Random, row: &mut [u16]) {
    let first = row[0];
    let most = PLACE_LIMIT - (row[row.len() - 1] - first);
    let to = match random.within(0..=2) {
        0 => 0,
        1 => most,
        _ => random.within(0..=most),
    };
    for place in row {
        *place = *place - first + to;
    }
}

/// Adds a node at a place that is free, where the limit allows it.
fn add_node(random: &mut Random, row: &mut Vec<u16>) {
    let place = random.within(0..=PLACE_LIMIT);
    if let (Err(at), true) = (
        row.binary_search(&place),
        row.len() < LAYER_NODE_LIMIT.into(),
    ) {
        row.insert(at, place);
    }
}
