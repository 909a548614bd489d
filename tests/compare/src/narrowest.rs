//! Comparing minimum widths.

use crate::{drawing, Library};
use second::minimum_width::{minimum_width, Minimum};
use second::refusal::{Refusal, NO_DRAWING};
use second::sheet::WIDTH_LIMIT;
use strip_tests::draft::encode;

/// Compares what both tell of the minimum width, and gives it.
pub fn told(library: &impl Library, bytes: &[u8]) -> Result<Minimum, Refusal> {
    let expected = minimum_width(bytes);
    let found = library.narrowest(bytes);
    assert_eq!(found, expected, "the minimum width of {bytes:02x?}");
    expected
}

/// Compares the minimum width of a good sheet with these numbers, and gives it.
///
/// The library must tell the same of the sheet in other widths. It must draw the sheet in the minimum
/// width with the total told, and not in one less; where there is no minimum, not in the greatest.
pub fn good(library: &impl Library, bytes: &[u8], numbers: &[u16]) -> Result<Minimum, Refusal> {
    let answer = told(library, bytes);
    let (drawn, undrawn) = match answer {
        Ok(minimum) => (Some(minimum), minimum.width.checked_sub(1)),
        Err(_) => (None, Some(WIDTH_LIMIT)),
    };
    let others = [0, WIDTH_LIMIT].into_iter();
    for width in others.chain(drawn.map(|minimum| minimum.width)) {
        let found = library.narrowest(&in_width(numbers, width));
        assert_eq!(found, answer, "in width {width}, {bytes:02x?}");
    }
    if let Some(minimum) = drawn {
        let found = drawing::total(library, &in_width(numbers, minimum.width));
        assert_eq!(found, Ok(minimum.total), "{minimum:?} of {bytes:02x?}");
    }
    if let Some(width) = undrawn {
        let found = drawing::total(library, &in_width(numbers, width));
        let refusal = Refusal::new(NO_DRAWING, 0);
        assert_eq!(found, Err(refusal), "in width {width}, {bytes:02x?}");
    }
    answer
}

/// The sheet of these numbers in another width.
pub fn in_width(numbers: &[u16], width: u16) -> Vec<u8> {
    encode(&[&[width], &numbers[1..]].concat())
}
