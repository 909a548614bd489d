//! The minimum width that the second implementation finds, against brute force and against its engine.

use second::drawing::{least_drawings, total, Sheet};
use second::minimum_width::{least_width, minimum_width, Minimum};
use second::refusal::{Refusal, NO_WIDTH};
use second::solver::solve;
use strip_tests::draft::Draft;
use strip_tests::families::widths::{in_width, narrowest};
use strip_tests::families::{exhaustive, realistic, sizes};
use strip_tests::generate::{good, small, tiny};
use strip_tests::random::Random;

/// The refusal where there is none.
const NONE: Result<Minimum, Refusal> = Err(Refusal {
    number: NO_WIDTH,
    offset: 0,
});

/// The least width with a drawing and the least total there, by trying every list of places in one
/// width after the other. In a very small sheet all minima together are at most 6.
fn by_trying(draft: &Draft) -> Result<Minimum, Refusal> {
    let least = (0..=6).find_map(|width| {
        let (total, _) = least_drawings(&in_width(draft, width).sheet())?;
        Some(Minimum { width, total })
    });
    least.map_or(NONE, Ok)
}

#[test]
fn all_very_small_sheets_have_the_width_found_by_trying() {
    let (mut told, mut refused) = (0, 0);
    for draft in exhaustive::sheets().iter().filter(|draft| draft.width == 0) {
        let answer = minimum_width(&draft.bytes());
        assert_eq!(answer, by_trying(draft), "{draft:?}");
        match answer {
            Ok(_) => told += 1,
            Err(_) => refused += 1,
        }
    }
    assert!(told > 3_000 && refused > 1_000, "{told} {refused}");
}

/// Compares with the width in which the engine just draws a sheet, and gives it.
fn check(draft: &Draft) -> Option<u16> {
    let width = narrowest(draft);
    assert_eq!(least_width(&draft.sheet()), width, "{draft:?}");
    let total = |sheet: &Sheet| solve(sheet).map(|found| total(sheet, &found.places));
    let expected = width.map_or(NONE, |width| {
        let total = total(&in_width(draft, width).sheet()).expect("a drawing");
        Ok(Minimum { width, total })
    });
    for other in [draft.width, 0, 4095] {
        let answer = minimum_width(&in_width(draft, other).bytes());
        assert_eq!(answer, expected, "{draft:?}");
    }
    width
}

/// Compares random sheets, and checks how many have a width and how many have none.
fn check_random(seed: u64, count: usize, draft: fn(&mut Random) -> Draft, least: [usize; 2]) {
    let mut random = Random::new(seed);
    let told = (0..count).filter(|_| check(&draft(&mut random)).is_some());
    let told = told.count();
    let counts = [told, count - told];
    assert!(counts[0] >= least[0] && counts[1] >= least[1], "{counts:?}");
}

#[test]
fn tiny_and_small_sheets_have_the_width_in_which_they_are_drawn() {
    check_random(141, 3_000, tiny, [2_000, 100]);
    check_random(142, 3_000, small, [2_000, 100]);
}

#[test]
fn sheets_of_any_numbers_have_the_width_in_which_they_are_drawn() {
    check_random(143, 1_000, good, [100, 500]);
}

#[test]
fn larger_sheets_have_the_width_in_which_they_are_drawn() {
    check_random(144, 200, sizes::medium, [200, 0]);
    check_random(145, 200, realistic::any, [150, 1]);
    check_random(146, 20, |random| sizes::full(random, 8), [20, 0]);
}
