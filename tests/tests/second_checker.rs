//! The second implementation's checker, against the examples of document 01 written out by hand, and
//! brute force.

use second::checker::check;
use second::drawing::{drawings, least_drawings};
use second::refusal::Refusal;
use second::sheet::STRAIGHT;
use second::solver::solve;
use strip_tests::document::{self, FIRST_LIST, NO_DRAWING, ONE_NODE, REFUSED};
use strip_tests::draft::Draft;
use strip_tests::generate::{good, largest, tiny};
use strip_tests::mutation::circulate;
use strip_tests::random::Random;

/// How many random tiny sheets a test takes.
const SHEETS: usize = 3000;

/// A refusal as `check` gives it.
fn refused(number: u32, offset: usize) -> Result<bool, Refusal> {
    Err(Refusal { number, offset })
}

#[test]
fn both_lists_of_the_first_sheet() {
    let bytes = document::first().bytes();
    assert_eq!(bytes[..9], [0x53, 0x50, 0x31, 5, 2, 2, 1, 0, 1]);
    assert_eq!(check(&bytes, &[0, 1, 0], &FIRST_LIST), Ok(true));
    assert_eq!(check(&bytes, &[0, 1, 0], &[0; 8]), Ok(false));
}

#[test]
fn refusals_of_the_sheet_come_first() {
    let expected = [(1, 2), (2, 0), (3, 3), (4, 4), (5, 7), (6, 7)];
    for ((_, bytes), (number, offset)) in REFUSED.into_iter().zip(expected) {
        assert_eq!(check(bytes, &[], &[]), refused(number, offset));
        assert_eq!(check(bytes, &[0; 9], &[0; 9]), refused(number, offset));
    }
}

#[test]
fn slices_that_are_too_short_are_refused_before_a_no() {
    let short = refused(7, 0);
    assert_eq!(check(&ONE_NODE, &[], &[0, 0]), short);
    assert_eq!(check(&ONE_NODE, &[0], &[0]), short);
    assert_eq!(check(&ONE_NODE, &[0], &[0, 0]), Ok(true));
    let bytes = document::first().bytes();
    assert_eq!(check(&bytes, &[9, 9], &FIRST_LIST), short);
    assert_eq!(check(&bytes, &[9, 9, 9], &FIRST_LIST[..7]), short);
    assert_eq!(check(&bytes, &[0, 1], &[5; 8]), short);
    assert_eq!(check(&bytes, &[0, 1, 0], &[5; 7]), short);
    let largest = largest().bytes();
    assert_eq!(check(&largest, &[0; 255], &[0; 1024]), short);
    assert_eq!(check(&largest, &[0; 256], &[0; 1023]), short);
    assert_eq!(check(&largest, &[0; 256], &[0; 1024]), Ok(false));
}

#[test]
fn excess_is_not_looked_at() {
    let bytes = document::first().bytes();
    let list = [&FIRST_LIST[..], &[i32::MIN, 7]].concat();
    assert_eq!(check(&bytes, &[0, 1, 0, 65535], &list), Ok(true));
}

#[test]
fn a_sheet_without_a_drawing_gets_a_no() {
    assert_eq!(check(&NO_DRAWING, &[0, 0], &[0; 4]), Ok(false));
    assert_eq!(check(&NO_DRAWING, &[0, 1], &[0; 4]), Ok(false));
    let stair = document::stair(1, STRAIGHT).bytes();
    let list = [0, -2, 0, 0, 0, 0, 2, 2, 0, 0, 0, 2, 0, 2];
    assert_eq!(check(&stair, &[0, 1, 0, 1, 0, 1], &list), Ok(false));
}

#[test]
fn places_list_and_floor_all_count() {
    let bytes = document::first().bytes();
    for places in [[0, 1, 0], [0, 1, 1], [4, 5, 4], [4, 5, 5], [2, 3, 2]] {
        assert_eq!(check(&bytes, &places, &FIRST_LIST), Ok(true), "{places:?}");
    }
    for places in [[0, 2, 0], [0, 1, 2], [5, 6, 5], [1, 1, 0], [1, 0, 0]] {
        assert_eq!(check(&bytes, &places, &FIRST_LIST), Ok(false), "{places:?}");
    }
    let rigid = Draft::new(4095, &[2]).separation(1, 1, 4095, 0).bytes();
    let most = i32::MAX;
    assert_eq!(check(&rigid, &[0, 4095], &[most, most, 0, most]), Ok(true));
    assert_eq!(check(&rigid, &[0, 4095], &[most, most, 0, 1]), Ok(false));
}

#[test]
fn a_yes_is_always_a_drawing_of_least_total() {
    let mut random = Random::new(9);
    let (mut yes, mut no) = (0, 0);
    for _ in 0..SHEETS {
        let draft = tiny(&mut random);
        let (sheet, bytes) = (draft.sheet(), draft.bytes());
        let least = least_drawings(&sheet).map_or(Vec::new(), |(_, least)| least);
        let drawings = drawings(&sheet);
        let (mut list, mut places) = match solve(&sheet) {
            Some(solution) => (solution.list, solution.places),
            None => (
                vec![0; sheet.edges.len() + 2 * sheet.node_count()],
                vec![0; sheet.node_count()],
            ),
        };
        for _ in 0..20 {
            match random.within(0..=3) {
                0 => circulate(&mut random, &sheet, &mut list, 1),
                1 if !drawings.is_empty() => {
                    places.clone_from(&drawings[random.index(drawings.len())]);
                }
                2 if !least.is_empty() => {
                    places.clone_from(&least[random.index(least.len())]);
                }
                _ => {
                    let i = random.index(places.len());
                    places[i] = random.within(0..=draft.width + 1);
                }
            }
            if check(&bytes, &places, &list) == Ok(true) {
                assert!(least.contains(&places), "{draft:?} {places:?} {list:?}");
                yes += 1;
            } else {
                no += 1;
            }
        }
    }
    assert!(yes > SHEETS / 2 && no > SHEETS / 2, "{yes} {no}");
}

#[test]
fn any_places_and_lists_are_answered() {
    let mut random = Random::new(10);
    for _ in 0..SHEETS {
        let bytes = good(&mut random).bytes();
        let places: Vec<u16> = (0..256).map(|_| random.within(0..=65535)).collect();
        let list: Vec<i32> = (0..1024).map(|_| random.signed()).collect();
        assert_eq!(check(&bytes, &places, &list), Ok(false));
    }
}
