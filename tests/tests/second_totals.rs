//! The totals at many widths that the second implementation finds: by hand, against brute force, and
//! against its engine; and what it refuses.

use second::certificate;
use second::drawing::least_drawings;
use second::engine::draw;
use second::refusal::{Refusal, NO_DRAWING};
use second::sheet::{PLAIN, STRAIGHT};
use second::totals::{totals, Totals, NO_TOTAL, WIDTHS_LIMIT};
use strip_tests::document::{self, ONE_NODE, REFUSED};
use strip_tests::draft::Draft;
use strip_tests::families::widths::in_width;
use strip_tests::families::{exhaustive, realistic, sizes};
use strip_tests::generate::{good, small, tiny};
use strip_tests::random::Random;

/// What every element of a slice holds before a call.
const FILL: u32 = 0xa5a5_a5a5;

/// The entries in a slice of just their count, or number and offset. Behind them nothing is written, and
/// nothing is on a refusal.
fn entries(bytes: &[u8], widths: &[u32]) -> Result<Vec<u32>, (u32, usize)> {
    let exact = lent(bytes, widths, widths.len());
    assert_eq!(lent(bytes, widths, widths.len() + 3), exact);
    exact
}

/// The entries in a slice of this length.
fn lent(bytes: &[u8], widths: &[u32], room: usize) -> Result<Vec<u32>, (u32, usize)> {
    let mut slice = vec![FILL; room];
    let answer = totals(bytes, widths, &mut slice);
    let kept = slice.split_off(answer.unwrap_or(0));
    assert!(kept.iter().all(|&element| element == FILL));
    match answer {
        Ok(count) => {
            assert_eq!(count, widths.len());
            Ok(slice)
        }
        Err(Refusal { number, offset }) => Err((number, offset)),
    }
}

#[test]
fn stair() {
    let expected = [NO_TOTAL, 2, 1, 0, 0];
    for own in [0, 1, 3, 4095] {
        let stair = document::stair(own, PLAIN).bytes();
        assert_eq!(entries(&stair, &[0, 1, 2, 3, 4]), Ok(expected.to_vec()));
    }
}

#[test]
fn stair_with_its_second_edge_straight() {
    let stair = document::stair(1, STRAIGHT).bytes();
    let expected = [NO_TOTAL, NO_TOTAL, 1, 0, 0];
    assert_eq!(entries(&stair, &[0, 1, 2, 3, 4]), Ok(expected.to_vec()));
}

#[test]
fn straight_edges_that_cross() {
    let widths: Vec<u32> = (0..64).map(|i| i * 65).collect();
    assert_eq!(widths[63], 4095);
    let crossing = document::crossing().bytes();
    assert_eq!(entries(&crossing, &widths), Ok(vec![NO_TOTAL; 64]));
}

#[test]
fn first_sheet() {
    let first = document::first().bytes();
    assert_eq!(entries(&first, &[5, 0]), Ok(vec![1, NO_TOTAL]));
}

#[test]
fn parallel_edges_count_once() {
    for traced in document::traced() {
        let found = entries(&traced.draft.bytes(), &[2, 1, 4095]);
        let expected = vec![traced.total, NO_TOTAL, traced.total];
        assert_eq!(found, Ok(expected), "{}", traced.name);
    }
}

#[test]
fn a_sheet_without_a_drawing_at_its_own_width_is_taken() {
    assert_eq!(
        entries(&document::NO_DRAWING, &[0, 1]),
        Ok(vec![NO_TOTAL, 0])
    );
}

#[test]
fn widths_in_any_order_and_repeated() {
    let stair = document::stair(0, PLAIN).bytes();
    let found = entries(&stair, &[3, 1, 2, 1, 0, 0, 4095, 1]);
    let expected = vec![0, 2, 1, 2, NO_TOTAL, NO_TOTAL, 0, 2];
    assert_eq!(found, Ok(expected));
}

#[test]
fn a_list_without_widths() {
    assert_eq!(entries(&ONE_NODE, &[]), Ok(vec![]));
    assert_eq!(entries(&ONE_NODE[..6], &[]), Err((1, 6)));
    for ((number, (name, bytes)), offset) in (1..).zip(REFUSED).zip([2, 0, 3, 4, 7, 7]) {
        assert_eq!(entries(bytes, &[]), Err((number, offset)), "{name}");
    }
}

#[test]
fn at_most_64_widths() {
    for count in [1, 2, 63, 64] {
        let found = entries(&ONE_NODE, &vec![9; count]);
        assert_eq!(found, Ok(vec![0; count]));
    }
    for count in [65, 66, 1000] {
        assert_eq!(entries(&ONE_NODE, &vec![9; count]), Err((11, 0)));
    }
    assert_eq!(WIDTHS_LIMIT, 64);
}

#[test]
fn all_bits_of_a_width_count() {
    assert_eq!(entries(&ONE_NODE, &[0, 4095]), Ok(vec![0, 0]));
    for width in [4096, 4097, 65_535, 65_536, 65_541, 1 << 31, NO_TOTAL] {
        assert_eq!(entries(&ONE_NODE, &[width]), Err((4, 0)), "{width}");
        assert_eq!(entries(&ONE_NODE, &[5, 5, width]), Err((4, 2)), "{width}");
        let first = [5, width, 4096, 5];
        assert_eq!(entries(&ONE_NODE, &first), Err((4, 1)), "{width}");
    }
    let mut last = vec![5; 64];
    last[63] = 4096;
    assert_eq!(entries(&ONE_NODE, &last), Err((4, 63)));
}

#[test]
fn refusals_come_in_their_order() {
    let cut_off = &ONE_NODE[..5];
    let mut many = vec![0; 65];
    many[0] = 4096;
    // 1 to 6 before all others, 11 before 4 and 7, 4 before 7
    assert_eq!(lent(cut_off, &many, 0), Err((1, 5)));
    assert_eq!(lent(&ONE_NODE, &many, 0), Err((11, 0)));
    assert_eq!(lent(&ONE_NODE, &many[..64], 0), Err((4, 0)));
    assert_eq!(lent(&ONE_NODE, &many[1..], 0), Err((7, 0)));
    assert_eq!(lent(&ONE_NODE, &many[1..], 63), Err((7, 0)));
    assert_eq!(lent(&ONE_NODE, &many[1..], 64), Ok(vec![0; 64]));
}

#[test]
fn each_width_is_drawn_once() {
    let mut sheet = Totals::of(&document::stair(0, PLAIN).bytes()).expect("a good sheet");
    let mut slice = [FILL; 6];
    for widths in [&[2, 1, 2][..], &[1, 3, 1, 2]] {
        assert_eq!(sheet.write(widths, &mut slice), Ok(widths.len()));
    }
    assert_eq!(slice, [2, 0, 2, 1, FILL, FILL]);
    let known: Vec<(u16, u32)> = sheet.known().collect();
    assert_eq!(known, [(1, 2), (2, 1), (3, 0)]);
}

/// Compares the entries for all widths up to some with those of brute force, and counts those with a
/// total and those without.
fn check_tried(draft: &Draft, most: u16, counts: &mut [usize; 2]) {
    let widths: Vec<u32> = (0..=most.into()).collect();
    let found = entries(&draft.bytes(), &widths).expect("a good sheet");
    for (width, entry) in (0..).zip(found) {
        let least = least_drawings(&in_width(draft, width).sheet());
        let expected = least.map_or(NO_TOTAL, |(total, _)| total);
        assert_eq!(entry, expected, "at width {width}, {draft:?}");
        counts[usize::from(entry == NO_TOTAL)] += 1;
    }
}

#[test]
fn all_very_small_sheets_have_the_totals_found_by_trying() {
    let mut counts = [0; 2];
    for draft in exhaustive::sheets().iter().filter(|draft| draft.width == 0) {
        check_tried(draft, 6, &mut counts);
    }
    assert!(counts[0] > 20_000 && counts[1] > 15_000, "{counts:?}");
}

#[test]
fn tiny_sheets_have_the_totals_found_by_trying() {
    let mut random = Random::new(171);
    let mut counts = [0; 2];
    for _ in 0..300 {
        check_tried(&tiny(&mut random), 5, &mut counts);
    }
    assert!(counts[0] > 700 && counts[1] > 300, "{counts:?}");
}

/// Compares the entries of a sheet with what the engine draws at each width, and counts the same.
fn check_drawn(draft: &Draft, widths: &[u32], counts: &mut [usize; 2]) {
    let found = entries(&draft.bytes(), widths).expect("a good sheet");
    let sheet = draft.sheet();
    let (places, list) = (sheet.node_count(), certificate::length(&sheet));
    for (&width, entry) in widths.iter().zip(found) {
        let bytes = in_width(draft, width as u16).bytes();
        let drawn = draw(&bytes, &mut vec![0; places], &mut vec![0; list]);
        let expected = match entry {
            NO_TOTAL => Err(Refusal::new(NO_DRAWING, 0)),
            total => Ok(total),
        };
        assert_eq!(drawn, expected, "at width {width}, {draft:?}");
        counts[usize::from(entry == NO_TOTAL)] += 1;
    }
}

#[test]
fn sheets_have_the_totals_with_which_they_are_drawn() {
    let mut random = Random::new(172);
    let mut counts = [0; 2];
    for i in 0..400 {
        let draft = match i % 40 {
            0 => sizes::full(&mut random, 8),
            1..=4 => sizes::medium(&mut random),
            5..=8 => realistic::any(&mut random),
            9..=18 => good(&mut random),
            _ => small(&mut random),
        };
        let mut widths = vec![0, 4095, draft.width.into()];
        widths.extend((0..5).map(|_| u32::from(random.within(0..=4095))));
        widths.extend((0..5).map(|_| u32::from(random.within(0..=40))));
        check_drawn(&draft, &widths, &mut counts);
    }
    assert!(counts[0] > 1_500 && counts[1] > 1_000, "{counts:?}");
}
