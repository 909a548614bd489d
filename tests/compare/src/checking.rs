//! Comparing checkers.

use crate::drawing::Drawn;
use crate::{near, Library};
use second::certificate;
use second::checker;
use second::drawing::Sheet;
use second::refusal::Refusal;
use strip_tests::random::Random;

/// Compares what both checkers say, and gives it.
pub fn judge(
    library: &impl Library,
    bytes: &[u8],
    places: &[u16],
    list: &[i32],
) -> Result<bool, Refusal> {
    let expected = checker::check(bytes, places, list);
    let found = library.check(bytes, places, list);
    let told = || format!("checking {bytes:02x?}, places {places:?}, list {list:?}");
    assert_eq!(found, expected, "{}", told());
    expected
}

/// Compares checking bytes that are not a sheet.
pub fn bad(library: &impl Library, bytes: &[u8]) {
    for (places, list) in [(0, 0), (256, 1024)] {
        let answer = judge(library, bytes, &vec![0; places], &vec![0; list]);
        assert!(answer.is_err(), "checking {bytes:02x?}");
    }
}

/// Compares checking the drawing of a sheet with the lists of both, and near misses; gives how often
/// both checkers say yes and no.
pub fn good(
    library: &impl Library,
    random: &mut Random,
    bytes: &[u8],
    sheet: &Sheet,
    drawn: Result<&Drawn, &Refusal>,
) -> (usize, usize) {
    let (mut yes, mut no) = (0, 0);
    let start = match drawn {
        Ok(drawn) => {
            for list in [&drawn.first, &drawn.second] {
                let answer = judge(library, bytes, &drawn.places, list);
                assert_eq!(answer, Ok(true), "checking {bytes:02x?}, list {list:?}");
            }
            yes += 2;
            (drawn.places.clone(), drawn.first.clone())
        }
        Err(_) => {
            let (places, list) = (sheet.node_count(), certificate::length(sheet));
            (vec![0; places], vec![0; list])
        }
    };
    short(library, bytes, &start.0, &start.1);
    for (places, list) in near::drawings(random, sheet, &start.0, &start.1) {
        match judge(library, bytes, &places, &list) {
            Ok(true) => yes += 1,
            _ => no += 1,
        }
    }
    (yes, no)
}

/// Compares checking with slices that are too short.
fn short(library: &impl Library, bytes: &[u8], places: &[u16], list: &[i32]) {
    let (fewer_places, fewer_list) = (&places[1..], &list[1..]);
    for (places, list) in [
        (fewer_places, list),
        (places, fewer_list),
        (&[][..], list),
        (places, &[][..]),
    ] {
        let answer = judge(library, bytes, places, list);
        assert!(answer.is_err(), "checking {bytes:02x?}");
    }
}
