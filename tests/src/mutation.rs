//! Changes of lists: of the bytes and numbers of sheets, of places, and of pull lists.

use crate::random::Random;
use second::drawing::Sheet;
use second::network::arcs;
use second::solver::solve;

/// The list cut off before each of its elements.
pub fn truncated<T: Clone>(list: &[T]) -> Vec<Vec<T>> {
    (0..list.len()).map(|end| list[..end].to_vec()).collect()
}

/// The list with one element changed in each of the ways that `changes` gives for it.
pub fn changed<T: Copy + PartialEq>(list: &[T], changes: fn(T) -> Vec<T>) -> Vec<Vec<T>> {
    let mut results = Vec::new();
    for (i, &element) in list.iter().enumerate() {
        for change in changes(element) {
            let mut result = list.to_vec();
            result[i] = change;
            if change != element && !results.contains(&result) {
                results.push(result);
            }
        }
    }
    results
}

/// The list with one element standing there twice.
pub fn doubled<T: Copy + PartialEq>(list: &[T]) -> Vec<Vec<T>> {
    let mut results = Vec::new();
    for (i, &element) in list.iter().enumerate() {
        let mut result = list.to_vec();
        result.insert(i, element);
        if !results.contains(&result) {
            results.push(result);
        }
    }
    results
}

/// The bytes of a sheet damaged in every way, with the name of each way.
pub fn damages(bytes: &[u8], changes: fn(u8) -> Vec<u8>) -> [(&'static str, Vec<Vec<u8>>); 4] {
    let appended = [bytes, &[0x01]].concat();
    [
        ("cut off at every byte: refused", truncated(bytes)),
        ("one byte appended: refused", vec![appended]),
        ("one byte changed", changed(bytes, changes)),
        ("one byte doubled", doubled(bytes)),
    ]
}

/// The list with two different neighbours exchanged.
pub fn exchanged<T: Copy + PartialEq>(list: &[T]) -> Vec<Vec<T>> {
    let mut results = Vec::new();
    for i in 1..list.len() {
        if list[i - 1] != list[i] {
            let mut result = list.to_vec();
            result.swap(i - 1, i);
            results.push(result);
        }
    }
    results
}

/// A number list near a good one.
pub fn near_list(random: &mut Random, mut numbers: Vec<u16>) -> Vec<u16> {
    let values = [0, 1, 2, 64, 65, 512, 513, 4095, 4096, 16384, 32768, 65535];
    for _ in 0..random.within(1..=2) {
        let i = random.index(numbers.len());
        match random.within(0..=5) {
            0 => numbers.truncate(i),
            1 => numbers.push(random.within(0..=9)),
            2 => numbers[i] = values[random.index(values.len())],
            3 => numbers[i] = random.within(0..=65535),
            4 => numbers[i] = numbers[i].wrapping_add(1),
            _ => numbers[i] = numbers[i].wrapping_sub(1),
        }
        if numbers.is_empty() {
            break;
        }
    }
    numbers
}

/// What a byte is changed to.
pub fn byte_changes(byte: u8) -> Vec<u8> {
    vec![0x00, 0x7f, 0x80, 0xff, byte.wrapping_add(1), byte ^ 0x80]
}

/// What a number of a pull list is changed to: one more, one less, the sign turned.
pub fn pull_changes(n: i32) -> Vec<i32> {
    vec![n.wrapping_add(1), n.wrapping_sub(1), n.wrapping_neg()]
}

/// What a place is changed to: one step to either side.
pub fn place_changes(place: u16) -> Vec<u16> {
    let left = place.checked_sub(1);
    let right = place.checked_add(1);
    left.into_iter().chain(right).collect()
}

/// The places of the drawing in which every node stands as far left as it can, however long the edges
/// are then, if the sheet has a drawing.
pub fn lowest(sheet: &Sheet) -> Option<Vec<u16>> {
    // without edges to be short, what is leftmost is leftmost of all
    let mut loose = sheet.clone();
    loose.edges.retain(|edge| edge.straight);
    Some(solve(&loose)?.places)
}

/// The index of a layer's first push in a pull list; the others of the layer follow it.
pub fn first_push(sheet: &Sheet, layer: usize) -> usize {
    sheet.edges.len() + 2 * sheet.layers[layer].first
}

/// The lists in which the pushes of two neighbouring pairs of a layer are exchanged.
pub fn moved_pushes(sheet: &Sheet, list: &[i32]) -> Vec<Vec<i32>> {
    let mut results = Vec::new();
    for (i, layer) in sheet.layers.iter().enumerate() {
        for pair in 1..layer.separations.len() {
            let left = first_push(sheet, i) + 2 * pair - 1;
            let mut result = list.to_vec();
            result.swap(left, left + 2);
            result.swap(left + 1, left + 3);
            if result != list {
                results.push(result);
            }
        }
    }
    results
}

/// The lists in which an amount runs once around one layer: left boundary, minima, right boundary.
pub fn around_layers(sheet: &Sheet, list: &[i32], amount: i32) -> Vec<Vec<i32>> {
    let mut results = Vec::new();
    for (i, layer) in sheet.layers.iter().enumerate() {
        let left = first_push(sheet, i);
        let right = left + 2 * layer.separations.len() + 1;
        let mut result = list.to_vec();
        result[left] += amount;
        for minimum in (left + 1..right).step_by(2) {
            result[minimum] += amount;
        }
        result[right] += amount;
        results.push(result);
    }
    results
}

/// The lists in which an amount is added to both pushes of one pair.
pub fn around_pairs(sheet: &Sheet, list: &[i32], amount: i32) -> Vec<Vec<i32>> {
    let mut results = Vec::new();
    for (i, layer) in sheet.layers.iter().enumerate() {
        for pair in 0..layer.separations.len() {
            let minimum = first_push(sheet, i) + 2 * pair + 1;
            let mut result = list.to_vec();
            result[minimum] += amount;
            result[minimum + 1] += amount;
            results.push(result);
        }
    }
    results
}

/// The lists in which an amount is moved from one edge to a later parallel one.
///
/// The balance stays as it is; where the list meets the rules, none of these does.
pub fn around_parallel_edges(sheet: &Sheet, list: &[i32], amount: i32) -> Vec<Vec<i32>> {
    let moved = |(from, to)| moved_pull(list, from, to, amount);
    parallel_pairs(sheet).into_iter().map(moved).collect()
}

/// The list with an amount moved from one pull to another.
pub fn moved_pull(list: &[i32], from: usize, to: usize, amount: i32) -> Vec<i32> {
    let mut result = list.to_vec();
    result[from] = result[from].wrapping_sub(amount);
    result[to] = result[to].wrapping_add(amount);
    result
}

/// The indices of every two parallel edges, the first in the sheet first.
pub fn parallel_pairs(sheet: &Sheet) -> Vec<(usize, usize)> {
    let mut pairs = Vec::new();
    for (i, edge) in sheet.edges.iter().enumerate() {
        let later = sheet.edges.iter().enumerate().skip(i + 1);
        let parallel = later.filter(|(_, other)| other.ends() == edge.ends());
        pairs.extend(parallel.map(|(j, _)| (i, j)));
    }
    pairs
}

/// Adds an amount to a random cycle of flows, in the direction in which it is found.
///
/// The balance stays as it is at every node; limits and floor need not. A walk along random
/// arcs, none of which it leaves as it came, is cut to its first cycle.
pub fn circulate(random: &mut Random, sheet: &Sheet, list: &mut [i32], amount: i32) {
    let arcs = arcs(sheet);
    let mut walk: Vec<(usize, i32)> = Vec::new();
    let mut nodes = vec![random.index(sheet.node_count())];
    loop {
        let at = nodes[nodes.len() - 1];
        let arc = random.index(arcs.len());
        if walk.last().is_some_and(|&(last, _)| last == arc) {
            continue;
        }
        let (next, sign) = match &arcs[arc] {
            found if found.tail == at => (found.head, 1),
            found if found.head == at => (found.tail, -1),
            _ => continue,
        };
        walk.push((arc, sign));
        if let Some(start) = nodes.iter().position(|&node| node == next) {
            for &(arc, sign) in &walk[start..] {
                list[arc] = list[arc].wrapping_add(sign * amount);
            }
            return;
        }
        nodes.push(next);
    }
}
