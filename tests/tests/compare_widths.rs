//! The minimum width of sheets by hand: what documents 01 and 02 say of each, answered by the library
//! and the second implementation. Each comparison also draws the sheet in that width and in one less,
//! and asks again with other widths in the sheet.

use compare::Proved;
use second::minimum_width::Minimum;
use second::refusal::Refusal;
use second::sheet::{PLAIN, STRAIGHT};
use strip_tests::document::{self, NO_DRAWING, ONE_NODE, REFUSED};
use strip_tests::families::sizes::{longest_edges, longest_parallel};
use strip_tests::families::widths::layer;

/// Compares all that is answered to a sheet, and gives width and total, or number and offset.
fn narrowest(bytes: &[u8]) -> Result<(u16, u32), (u32, usize)> {
    match compare::sheet(&Proved, bytes).minimum {
        Ok(Minimum { width, total }) => Ok((width, total)),
        Err(Refusal { number, offset }) => Err((number, offset)),
    }
}

/// The refusal of a sheet that has a drawing in no width.
const NO_WIDTH: Result<(u16, u32), (u32, usize)> = Err((10, 0));

#[test]
fn stair() {
    for width in [0, 1, 2, 3, 4095] {
        let stair = document::stair(width, PLAIN);
        assert_eq!(narrowest(&stair.bytes()), Ok((1, 2)), "{width}");
    }
}

#[test]
fn stair_with_its_second_edge_straight() {
    for width in [0, 1, 2, 4095] {
        let stair = document::stair(width, STRAIGHT);
        assert_eq!(narrowest(&stair.bytes()), Ok((2, 1)), "{width}");
    }
}

#[test]
fn straight_edges_that_cross() {
    assert_eq!(narrowest(&document::crossing().bytes()), NO_WIDTH);
}

#[test]
fn two_over_three_with_a_maximum_of_1() {
    let draft = document::two_over_three(1);
    assert_eq!(narrowest(&draft.bytes()), Ok((2, 1)));
}

#[test]
fn two_over_three_without_a_maximum() {
    let draft = document::two_over_three(0);
    assert_eq!(narrowest(&draft.bytes()), Ok((2, 0)));
}

#[test]
fn one_over_three() {
    for traced in document::traced() {
        let least = narrowest(&traced.draft.bytes());
        assert_eq!(least, Ok((2, traced.total)), "{}", traced.name);
    }
}

#[test]
fn one_node() {
    assert_eq!(narrowest(&ONE_NODE), Ok((0, 0)));
}

#[test]
fn two_minima_of_4095_in_a_layer() {
    assert_eq!(narrowest(&layer(&[4095, 4095]).bytes()), NO_WIDTH);
    assert_eq!(narrowest(&layer(&[4095, 1]).bytes()), NO_WIDTH);
}

#[test]
fn exactly_4095() {
    for minima in [&[4095][..], &[4094, 1], &[1, 2000, 2094], &[65; 63]] {
        let sheet = layer(minima).bytes();
        assert_eq!(narrowest(&sheet), Ok((4095, 0)), "{minima:?}");
    }
    let longest = longest_edges().bytes();
    assert_eq!(narrowest(&longest), Ok((4095, 2_096_108)));
    let parallel = longest_parallel().bytes();
    assert_eq!(narrowest(&parallel), Ok((4095, 4095)));
}

#[test]
fn width_0_in_a_sheet_that_needs_3() {
    let sheet = layer(&[3]).bytes();
    assert_eq!(narrowest(&sheet), Ok((3, 0)));
    let drawn = compare::sheet(&Proved, &sheet).drawn;
    assert_eq!(drawn, Err(Refusal::new(8, 0)));
    assert_eq!(narrowest(&NO_DRAWING), Ok((1, 0)));
}

#[test]
fn refusals_1_to_6_are_those_of_reading() {
    let offsets = [2, 0, 3, 4, 7, 7];
    for ((number, (name, bytes)), offset) in (1..).zip(REFUSED).zip(offsets) {
        assert_eq!(narrowest(bytes), Err((number, offset)), "{name}");
    }
    assert_eq!(narrowest(&[]), Err((1, 0)));
}

#[test]
fn the_width_that_does_not_count_is_read() {
    let in_bytes = |width: &[u8]| [&ONE_NODE[..3], width, &ONE_NODE[4..]].concat();
    assert_eq!(narrowest(&in_bytes(&[0xff, 0x1f])), Ok((0, 0)));
    assert_eq!(narrowest(&in_bytes(&[0x80, 0x20])), Err((4, 3)));
    assert_eq!(narrowest(&in_bytes(&[0x80, 0x80])), Err((3, 3)));
    assert_eq!(narrowest(&in_bytes(&[0x80, 0x00])), Err((3, 3)));
}

#[test]
fn refusal_6_comes_before_10() {
    for sheet in [document::crossing().bytes(), layer(&[4095, 4095]).bytes()] {
        let longer = [&sheet[..], &[0]].concat();
        assert_eq!(narrowest(&longer), Err((6, sheet.len())));
    }
}
