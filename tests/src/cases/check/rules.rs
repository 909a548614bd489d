//! Pull lists that break one rule, while their floor equals the total.

use super::{Case, Group};
use crate::document;
use crate::draft::Draft;
use crate::families::parallel::{balanced, between_two};
use crate::mutation::{around_pairs, changed, first_push, moved_pushes, pull_changes};
use second::sheet::{PLAIN, STRAIGHT};

/// Lists whose floor equals the total, and all rules but one are met.
pub fn lists() -> Group {
    let mut group = Group::new("one rule broken, the floor equal to the total");
    pulls(&mut group);
    pushes(&mut group);
    balance(&mut group);
    one_of_three_pairs(&mut group);
    floor(&mut group);
    group
}

/// Adds pulls of parallel edges that have these kinds, in width 0; boundaries push against all of them.
fn balanced_pulls<const N: usize>(group: &mut Group, kinds: [u16; N], pulls: &[[i32; N]]) {
    let draft = between_two(0, &kinds);
    for pulls in pulls {
        group.check_tight(&Case::new(&draft, &[0, 0], &balanced(pulls)));
    }
}

/// Adds pulls on either side of their limits.
fn pulls(group: &mut Group) {
    group.note("a plain edge, its pull within limits: yes");
    balanced_pulls(group, [PLAIN], &[[0], [1], [-1]]);
    group.note("a plain edge, its pull out of limits: no");
    balanced_pulls(group, [PLAIN], &[[2], [-2], [100], [-70000]]);
    group.note("a straight edge is free: yes");
    balanced_pulls(group, [STRAIGHT], &[[0], [1], [2], [-2], [-70000]]);
    parallel_pulls(group);
    let straight = between_two(3, &[STRAIGHT]);
    group.note("the floor of the pulls is kept, but not the balance: no");
    for pull in [1, -1, 70000] {
        let list = [pull, 0, 0, 0, 0];
        group.check_tight(&Case::new(&straight, &[2, 2], &list));
    }
    long_edges(group);
}

/// Adds pulls of parallel edges: only the first one pulls, as much as any of them allows.
fn parallel_pulls(group: &mut Group) {
    let with_straight = [[STRAIGHT, STRAIGHT], [STRAIGHT, PLAIN], [PLAIN, STRAIGHT]];
    group.note("the first of two plain parallel edges within limits: yes");
    balanced_pulls(group, [PLAIN; 2], &[[0, 0], [1, 0], [-1, 0]]);
    group.note("out of limits: no");
    balanced_pulls(group, [PLAIN; 2], &[[2, 0], [-2, 0], [100, 0]]);
    group.note("the first of two is free where either is straight: yes");
    for kinds in with_straight {
        balanced_pulls(group, kinds, &[[0, 0], [1, 0], [-2, 0], [70000, 0]]);
    }
    group.note("the later one pulls, alone, against the first or with it: no");
    for kinds in with_straight.into_iter().chain([[PLAIN; 2]]) {
        let pulls = [[0, 1], [0, -1], [1, -1], [-1, 1], [1, 1], [2, -2], [0, 9]];
        balanced_pulls(group, kinds, &pulls);
    }
    let one_straight = [
        [STRAIGHT, PLAIN, PLAIN],
        [PLAIN, STRAIGHT, PLAIN],
        [PLAIN, PLAIN, STRAIGHT],
    ];
    group.note("the first of three is free where any is straight: yes");
    for kinds in one_straight {
        balanced_pulls(group, kinds, &[[0; 3], [2, 0, 0], [-70000, 0, 0]]);
    }
    group.note("the second or the third pulls: no");
    for kinds in one_straight {
        let pulls = [[0, 1, 0], [0, 0, 1], [0, 1, -1], [2, -1, -1], [1, 0, -1]];
        balanced_pulls(group, kinds, &pulls);
    }
}

/// Adds pulls of parallel plain edges that have a length.
fn long_edges(group: &mut Group) {
    let long = Draft::new(1, &[2, 2])
        .edge(1, 2, 1, PLAIN)
        .edge(1, 2, 1, PLAIN);
    let case = Case::drawn(&long);
    group.note("parallel edges of length 1, the first pulled by one: yes");
    group.check_tight(&case);
    group.note("pulled by the same in all, on the later one or out of limits: no");
    for pull in [[0, -1], [-2, 1], [1, -2], [-3, 2]] {
        let mut case = case.clone();
        case.list[..2].copy_from_slice(&pull);
        group.check_tight(&case);
    }
    group.note("each pulled by one, the floor as if both counted: no");
    let pushes = case.list[2..].iter().map(|push| 2 * push);
    let list = [-1, -1].into_iter().chain(pushes).collect();
    group.check_lists(&case, vec![list]);
}

/// Adds pushes on either side of 0, and pushes of a maximum that is not set.
fn pushes(group: &mut Group) {
    let rigid = Draft::new(3, &[3])
        .separation(1, 1, 1, 1)
        .separation(1, 2, 2, 2);
    let combinations = (0..27).map(|i| [i % 3 - 1, i / 3 % 3 - 1, i / 9 - 1]);
    let (bad, good) = combinations.partition(|amounts| amounts.contains(&-1));
    let mut add = |name: &str, combinations: Vec<[i32; 3]>| {
        group.note(name);
        for [layer, left, right] in combinations {
            let list = [layer, layer + left, left, layer + right, right, layer];
            group.check_tight(&Case::new(&rigid, &[0, 1, 3], &list));
        }
    };
    add("pushes on a rigid layer: yes", good);
    add("the same with a push below 0: no", bad);
    minimum_below_0(group);
    let loose = Draft::new(2, &[2]);
    group.note("a maximum pushes that is not set: no");
    for times in [1, 2, 1 << 20] {
        let list = [1, 2, 1, 1].map(|n| n * times);
        group.check_tight(&Case::new(&loose, &[0, 1], &list));
        group.check_tight(&Case::new(&loose, &[0, 2], &list));
    }
    group.note("a maximum pushes that is set and equals the minimum: yes");
    let tied = Draft::new(2, &[2]).separation(1, 1, 1, 1);
    group.check_tight(&Case::new(&tied, &[0, 1], &[0, 1, 1, 0]));
    group.check_tight(&Case::new(&tied, &[1, 2], &[0, 1, 1, 0]));
}

/// Adds lists in which only the minimum of a pair pushes below 0, in place of its maximum.
fn minimum_below_0(group: &mut Group) {
    let draft = Draft::new(4, &[3, 3])
        .separation(1, 1, 1, 1)
        .separation(1, 2, 1, 1)
        .separation(2, 1, 2, 0)
        .separation(2, 2, 2, 0)
        .edge(1, 1, 1, PLAIN)
        .edge(1, 3, 3, PLAIN);
    let case = Case::drawn(&draft);
    group.note("three nodes that maxima hold together: yes");
    group.check_tight(&case);
    group.note("the minimum of one pair below 0, in place of its maximum: no");
    for list in around_pairs(&draft.sheet(), &case.list, -1).iter().take(2) {
        group.check_tight(&Case::new(&draft, &case.places, list));
    }
}

/// Adds lists that break the balance at one node only; a second layer mends the floor.
fn balance(group: &mut Group) {
    let draft = Draft::new(3, &[3, 2]).separation(2, 1, 1, 2);
    let case = Case::drawn(&draft);
    let sheet = draft.sheet();
    let mend = first_push(&sheet, 1) + 1;
    group.note("the balance broken at one node: no");
    for layer in 0..2 {
        let left = first_push(&sheet, layer);
        for passed in 0..sheet.layers[layer].separations.len() + 1 {
            let mut case = case.clone();
            case.list[left] += 1;
            for pair in 0..passed {
                case.list[left + 1 + 2 * pair] += 1;
            }
            case.list[mend] += passed as i32;
            case.list[mend + 1] += passed as i32;
            group.check_tight(&case);
        }
    }
    group.note("one push of the left boundary: no");
    for (_, draft) in document::sheets() {
        if let Some(mut case) = Case::solved(&draft) {
            case.list[first_push(&draft.sheet(), 0)] += 1;
            group.check_tight(&case);
        }
    }
    group.note("one push of the right boundary, width 0: no");
    let case = Case::drawn(&document::one_node());
    group.check_tight(&Case::new(&case.draft, &[0], &[0, 1]));
    group.note("both boundaries, width 0: yes");
    group.check_tight(&Case::new(&case.draft, &[0], &[5, 5]));
    edge_balance(group);
}

/// Adds a layer of four nodes with a push on one pair, and the push moved to the next pair.
fn one_of_three_pairs(group: &mut Group) {
    for left in 1..=3 {
        let draft = Draft::new(5, &[4, 1])
            .edge(1, left, 1, PLAIN)
            .edge(1, left + 1, 1, PLAIN);
        let case = Case::drawn(&draft);
        group.note(&format!("a push on pair {left} of three: yes"));
        group.check_tight(&case);
        group.note("the push moved to the next pair or the one before: no");
        for list in moved_pushes(&draft.sheet(), &case.list) {
            group.check_tight(&Case::new(&draft, &case.places, &list));
        }
    }
}

/// Adds lists in which only the pulls are out of balance.
fn edge_balance(group: &mut Group) {
    let square = Draft::new(3, &[2, 2])
        .edge(1, 1, 1, PLAIN)
        .edge(1, 1, 2, PLAIN)
        .edge(1, 2, 1, PLAIN)
        .edge(1, 2, 2, PLAIN);
    let case = Case::drawn(&square);
    group.note("the balance broken at the ends of one edge: no");
    group.check_lists(&case, {
        let pulls = changed(&case.list[..4], pull_changes);
        let whole = |pulls: Vec<i32>| [&pulls[..], &case.list[4..]].concat();
        pulls.into_iter().map(whole).collect()
    });
    let aligned = Draft::new(3, &[1, 1, 1])
        .edge(1, 1, 1, STRAIGHT)
        .edge(2, 1, 1, STRAIGHT);
    group.note("a pull through three layers that nothing pushes against: no");
    for list in [[1, 1], [-1, -1], [1, 0], [0, 1], [1, -1]] {
        let list = [&list[..], &[0; 6]].concat();
        group.check_tight(&Case::new(&aligned, &[1, 1, 1], &list));
    }
    group.note("the left boundaries push against it, one of them below 0: no");
    group.check_tight(&Case::new(&aligned, &[0; 3], &[1, 1, -1, 0, 0, 0, 1, 0]));
}

/// Adds lists that meet all rules and have a floor below the total.
fn floor(group: &mut Group) {
    let draft = Draft::new(3, &[2]).separation(1, 1, 1, 2);
    group.note("all rules met and the floor below the total: no");
    for list in [[0, 1, 1, 0], [1, 1, 0, 1], [0, 9, 9, 0], [2, 3, 1, 2]] {
        group.check(&Case::new(&draft, &[0, 1], &list));
    }
    group.note("all rules met and the floor equal to the total: yes");
    group.check_tight(&Case::new(&draft, &[0, 1], &[0; 4]));
    group.check_tight(&Case::new(&draft, &[1, 3], &[0; 4]));
}
