//! Near misses: number lists, places and pull lists that differ a little from good ones.

use second::drawing::Sheet;
use strip_tests::mutation::{circulate, moved_pull, parallel_pairs};
use strip_tests::random::Random;

/// Number lists with one number changed, one fewer and one more.
pub fn numbers(random: &mut Random, numbers: &[u16]) -> Vec<Vec<u16>> {
    let mut lists = Vec::new();
    let mut change = |to: fn(u16) -> u16| {
        let mut list = numbers.to_vec();
        let i = random.index(list.len());
        list[i] = to(list[i]);
        lists.push(list);
    };
    change(|n| n.wrapping_add(1));
    change(|n| n.wrapping_sub(1));
    change(|_| 0);
    change(|n| n + 64);
    change(|_| 4096);
    change(|_| u16::MAX);
    lists.push([numbers, &[0]].concat());
    lists.push(numbers[..random.index(numbers.len())].to_vec());
    lists
}

/// Places and pull lists near the given ones: some are as good, most are not.
pub fn drawings(
    random: &mut Random,
    sheet: &Sheet,
    places: &[u16],
    list: &[i32],
) -> Vec<(Vec<u16>, Vec<i32>)> {
    let mut pairs = Vec::new();
    for list in lists(random, sheet, list) {
        pairs.push((places.to_vec(), list));
    }
    for places in moved(random, sheet, places) {
        pairs.push((places, list.to_vec()));
    }
    let behind = [i32::MIN, i32::MAX, 1];
    let longer = [places, &[u16::MAX, 0, 1]].concat();
    pairs.push((longer, [list, &behind].concat()));
    pairs
}

/// Lists with one number changed, a sign turned, a flow around a cycle, and extreme numbers.
fn lists(random: &mut Random, sheet: &Sheet, list: &[i32]) -> Vec<Vec<i32>> {
    let mut lists = Vec::new();
    let any = random.signed();
    for change in [
        |n: i32, _| n.wrapping_add(1),
        |n: i32, _| n.wrapping_sub(1),
        |n: i32, _| n.wrapping_neg(),
        |_, _| i32::MAX,
        |_, _| i32::MIN,
        |_, any| any,
    ] {
        let mut changed = list.to_vec();
        let i = random.index(list.len());
        changed[i] = change(changed[i], any);
        lists.push(changed);
    }
    if let Some(i) = list.iter().position(|&n| n != 0) {
        let mut turned = list.to_vec();
        turned[i] = -turned[i];
        lists.push(turned);
    }
    for amount in [1, -1, i32::MAX] {
        let mut changed = list.to_vec();
        circulate(random, sheet, &mut changed, amount);
        lists.push(changed);
    }
    lists.push(vec![0; list.len()]);
    lists.extend(parallel(random, sheet, list));
    lists
}

/// Lists in which a pull, or 1 of it, is moved between two parallel edges; none where there are no such
/// edges. The balance stays.
fn parallel(random: &mut Random, sheet: &Sheet, list: &[i32]) -> Vec<Vec<i32>> {
    let pairs = parallel_pairs(sheet);
    if pairs.is_empty() {
        return Vec::new();
    }
    let (from, to) = pairs[random.index(pairs.len())];
    let mut amounts = vec![1, -1];
    if list[from].abs() > 1 {
        amounts.push(list[from]);
    }
    let moved = |amount| moved_pull(list, from, to, amount);
    amounts.into_iter().map(moved).collect()
}

/// Places with one node, one layer or all nodes moved, and extreme places.
fn moved(random: &mut Random, sheet: &Sheet, places: &[u16]) -> Vec<Vec<u16>> {
    let mut lists = Vec::new();
    let layer = &sheet.layers[random.index(sheet.layers.len())];
    let node = random.index(places.len());
    for nodes in [node..=node, layer.first..=layer.last, 0..=places.len() - 1] {
        for step in [1, u16::MAX] {
            let mut moved = places.to_vec();
            for place in &mut moved[nodes.clone()] {
                *place = place.wrapping_add(step);
            }
            lists.push(moved);
        }
    }
    for place in [0, sheet.width, sheet.width + 1, u16::MAX] {
        let mut moved = places.to_vec();
        moved[random.index(places.len())] = place;
        lists.push(moved);
    }
    lists
}
