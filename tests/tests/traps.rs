//! The traps on the drawing board: what each draws is a drawing, and is not the answer.

use second::drawing::{is_drawing, least_drawings, leftmost, total};
use second::solver::solve;
use strip_tests::traps::traps;

/// For each trap the answer's places and total, and the trap's total.
const ANSWERS: [(&[u16], u32, Option<u32>); 5] = [
    (&[0, 1, 1, 2, 2, 3], 0, Some(2)),
    (&[0, 1, 0, 1, 2, 1, 2, 3], 1, Some(2)),
    (&[0, 2, 0, 1, 2], 0, None),
    (&[1, 0, 1, 4], 4, Some(5)),
    (&[2, 3, 0, 1, 2, 3], 0, Some(4)),
];

#[test]
fn traps_draw_what_is_not_least() {
    let traps = traps();
    assert_eq!(traps.len(), ANSWERS.len());
    for (trap, (answer, least, drawn)) in traps.iter().zip(ANSWERS) {
        let sheet = trap.draft.sheet();
        assert_eq!(solve(&sheet).unwrap().places, answer, "{}", trap.name);
        assert_eq!(total(&sheet, answer), least, "{}", trap.name);
        let found = trap.places.as_ref().map(|places| {
            assert!(is_drawing(&sheet, places), "{}", trap.name);
            total(&sheet, places)
        });
        assert_eq!(found, drawn, "{}", trap.name);
        assert!(drawn.map_or(true, |total| total > least), "{}", trap.name);
    }
}

#[test]
fn answers_to_the_traps_are_the_leftmost_least_drawings() {
    for trap in traps() {
        let sheet = trap.draft.sheet();
        let (_, drawings) = least_drawings(&sheet).unwrap();
        let expected = leftmost(&drawings);
        assert_eq!(solve(&sheet).unwrap().places, expected, "{}", trap.name);
    }
}
