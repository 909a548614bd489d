//! Pull lists in the second implementation, against the rules of document 01 written out by hand, and
//! brute force.

use second::certificate::{floor, length, meets_rules};
use second::drawing::{least_drawings, Sheet};
use second::sheet::{PLAIN, STRAIGHT};
use second::solver::solve;
use strip_tests::document::{self, FIRST_LIST};
use strip_tests::draft::Draft;
use strip_tests::families::parallel::{balanced, between_two};
use strip_tests::generate::{good, tiny};
use strip_tests::mutation::{around_parallel_edges, circulate};
use strip_tests::random::Random;

/// How many random tiny sheets a test takes.
const SHEETS: usize = 3000;
/// How many lists each of them gets.
const LISTS: usize = 60;

#[test]
fn a_list_has_a_number_for_each_edge_and_two_for_each_node() {
    assert_eq!(length(&document::first().sheet()), 8);
    assert_eq!(length(&document::stair(0, PLAIN).sheet()), 14);
    assert_eq!(length(&document::one_node().sheet()), 2);
}

#[test]
fn list_of_the_first_sheet_meets_the_rules() {
    let sheet = document::first().sheet();
    assert!(meets_rules(&sheet, &FIRST_LIST));
    assert_eq!(floor(&sheet, &FIRST_LIST), 1);
    assert!(meets_rules(&sheet, &[0; 8]));
    assert_eq!(floor(&sheet, &[0; 8]), 0);
    let longer = [&FIRST_LIST[..], &[i32::MIN, i32::MAX]].concat();
    assert!(meets_rules(&sheet, &longer));
    assert_eq!(floor(&sheet, &longer), 1);
}

#[test]
fn floor_weighs_each_push() {
    let draft = Draft::new(100, &[2, 3])
        .separation(1, 1, 2, 3)
        .separation(2, 1, 5, 7)
        .separation(2, 2, 11, 0)
        .edge(1, 1, 1, PLAIN);
    let weights = [0, 0, 2, -3, -100, 0, 5, -7, 11, 0, -100];
    let sheet = draft.sheet();
    assert_eq!(length(&sheet), weights.len());
    for (i, &weight) in weights.iter().enumerate() {
        for n in [1, -1, i32::MAX, i32::MIN] {
            let mut list = [0; 11];
            list[i] = n;
            assert_eq!(floor(&sheet, &list), weight * i64::from(n), "{i}");
        }
    }
    let sum: i64 = weights.iter().sum();
    assert_eq!(floor(&sheet, &[i32::MIN; 11]), sum * i64::from(i32::MIN));
}

/// Whether pulls of edges of these kinds between two nodes meet the rules, balanced by the boundaries.
fn may_pull(kinds: &[u16], pulls: &[i32]) -> bool {
    meets_rules(&between_two(3, kinds).sheet(), &balanced(pulls))
}

#[test]
fn plain_pulls_have_limits_and_straight_ones_have_none() {
    for pull in [0, 1, -1, 2, -2, i32::MAX] {
        assert!(may_pull(&[STRAIGHT], &[pull]));
        assert_eq!(may_pull(&[PLAIN], &[pull]), pull.abs() <= 1);
    }
}

#[test]
fn the_first_parallel_edge_is_free_if_any_is_straight() {
    for count in 1..=4 {
        for choice in 0..1 << count {
            let kinds: Vec<u16> = (0..count).map(|i| choice >> i & 1).collect();
            for pull in [0, 1, -1, 2, -2, i32::MAX] {
                let mut pulls = vec![0; count];
                pulls[0] = pull;
                let is_allowed = pull.abs() <= 1 || kinds.contains(&STRAIGHT);
                assert_eq!(may_pull(&kinds, &pulls), is_allowed);
            }
        }
    }
}

#[test]
fn later_parallel_edges_carry_0() {
    for kinds in [[PLAIN; 3], [STRAIGHT; 3], [PLAIN, STRAIGHT, PLAIN]] {
        assert!(may_pull(&kinds, &[1, 0, 0]));
        for pulls in [
            [0, 1, 0],
            [0, 0, 1],
            [0, 0, -1],
            [1, -1, 0],
            [1, 0, -1],
            [0, 1, -1],
            [-1, 1, 0],
            [2, -1, 0],
            [1, 1, 1],
            [0, i32::MAX, -i32::MAX],
        ] {
            assert!(!may_pull(&kinds, &pulls), "{pulls:?}");
        }
    }
}

#[test]
fn lists_of_ticket_4_meet_the_rules() {
    for traced in document::traced() {
        let sheet = traced.draft.sheet();
        assert!(meets_rules(&sheet, &traced.list), "{}", traced.name);
        assert_eq!(floor(&sheet, &traced.list), traced.total.into());
        for pull in [1, -1, 2] {
            for list in around_parallel_edges(&sheet, &traced.list, pull) {
                assert!(!meets_rules(&sheet, &list), "{}", traced.name);
            }
        }
    }
}

#[test]
fn pushes_are_never_below_0() {
    let sheet = Draft::new(1, &[2]).separation(1, 1, 1, 1).sheet();
    for (list, expected) in [
        ([1, 1, 0, 1], true),
        ([0, 1, 1, 0], true),
        ([1, 3, 2, 1], true),
        ([-1, -1, 0, -1], false),
        ([0, -1, -1, 0], false),
        ([-1, 0, 1, -1], false),
        ([1, 0, -1, 1], false),
    ] {
        assert_eq!(meets_rules(&sheet, &list), expected, "{list:?}");
    }
}

#[test]
fn a_maximum_that_is_not_set_does_not_push() {
    let list = [0, 1, 1, 0];
    let set = Draft::new(5, &[2]).separation(1, 1, 1, 4).sheet();
    assert!(meets_rules(&set, &list));
    assert!(!meets_rules(&Draft::new(5, &[2]).sheet(), &list));
}

#[test]
fn balance_has_the_directions_of_the_document() {
    let sheet = Draft::new(5, &[2, 1])
        .separation(1, 1, 1, 3)
        .edge(1, 1, 1, STRAIGHT)
        .edge(1, 2, 1, STRAIGHT)
        .sheet();
    for (list, expected) in [
        ([0, 0, 0, 0, 0, 0, 0, 0], true),
        // A pull leaves the first node downward: its push goes toward smaller places.
        ([1, -1, 0, 1, 0, 0, 0, 0], true),
        ([-1, 1, 0, 1, 0, 0, 0, 0], false),
        ([-1, 1, 0, 0, 1, 0, 0, 0], true),
        ([1, -1, 0, 0, 1, 0, 0, 0], false),
        // The left boundary pushes the first node to greater places.
        ([-1, 0, 1, 0, 0, 0, 0, 1], true),
        ([1, 0, 1, 0, 0, 0, 1, 0], false),
        // The right boundary pushes the last node to smaller places.
        ([0, 1, 0, 0, 0, 1, 1, 0], true),
        ([1, 0, 0, 0, 0, 1, 1, 0], false),
        ([0, -1, 0, 0, 0, 1, 0, 1], false),
        // Boundaries push against each other through the minimum.
        ([0, 0, 2, 2, 0, 2, 0, 0], true),
        ([0, 0, 2, 0, 2, 2, 0, 0], false),
        ([0, 0, 0, 0, 0, 0, 3, 3], true),
        ([0, 0, 0, 0, 0, 0, 3, 0], false),
    ] {
        assert_eq!(meets_rules(&sheet, &list), expected, "{list:?}");
    }
}

/// A random list near one that meets the rules, or anything else.
fn any_list(random: &mut Random, sheet: &Sheet, list: &[i32]) -> Vec<i32> {
    let mut list = list.to_vec();
    match random.within(0..=5) {
        0 => {
            let i = random.index(list.len());
            list[i] = random.signed();
        }
        1 => {
            for n in &mut list {
                *n = i32::from(random.within(0..=2)) - 1;
            }
        }
        _ => {
            for _ in 0..random.within(1..=8) {
                let mut next = list.clone();
                circulate(random, sheet, &mut next, 1);
                if meets_rules(sheet, &next) || random.once_in(8) {
                    list = next;
                }
            }
        }
    }
    list
}

#[test]
fn no_list_that_meets_the_rules_has_a_floor_above_the_least_total() {
    let mut random = Random::new(7);
    let (mut met, mut tight) = (0, 0);
    for _ in 0..SHEETS {
        let sheet = tiny(&mut random).sheet();
        let Some((least, _)) = least_drawings(&sheet) else {
            continue;
        };
        let solution = solve(&sheet).expect("the sheet has a drawing");
        for start in [solution.list.clone(), vec![0; solution.list.len()]] {
            for _ in 0..LISTS {
                let list = any_list(&mut random, &sheet, &start);
                if meets_rules(&sheet, &list) {
                    assert!(floor(&sheet, &list) <= least.into(), "{sheet:?} {list:?}");
                    met += 1;
                    tight += usize::from(floor(&sheet, &list) == least.into());
                }
            }
        }
    }
    assert!(met > 20 * SHEETS && tight > SHEETS, "{met} {tight}");
    assert!(met - tight > 10 * SHEETS, "{met} {tight}");
}

#[test]
fn sheets_without_a_drawing_have_lists_of_any_floor() {
    let sheet = Draft::new(0, &[2]).sheet();
    for times in [1, 2, i32::MAX] {
        let list = [times, times, 0, times];
        assert!(meets_rules(&sheet, &list));
        assert_eq!(floor(&sheet, &list), times.into());
    }
}

#[test]
fn lists_of_any_numbers_never_overflow() {
    let mut random = Random::new(8);
    for _ in 0..SHEETS {
        let sheet = good(&mut random).sheet();
        let end = |random: &mut Random| match random.within(0..=2) {
            0 => i32::MIN,
            1 => i32::MAX,
            _ => random.signed(),
        };
        let list: Vec<i32> = (0..length(&sheet)).map(|_| end(&mut random)).collect();
        let list_of_min = vec![i32::MIN; length(&sheet)];
        let list_of_max = vec![i32::MAX; length(&sheet)];
        for list in [list, list_of_min, list_of_max] {
            let largest = 512 * 4095 * (1 << 31);
            assert!(floor(&sheet, &list).abs() <= largest);
            meets_rules(&sheet, &list);
        }
    }
}
