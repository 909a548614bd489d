//! Comparing engines.

use crate::Library;
use second::certificate;
use second::checker::check;
use second::drawing::Sheet;
use second::engine;
use second::refusal::{Refusal, SLICE_TOO_SHORT};

/// What every place holds before a call.
const PLACE_FILL: u16 = 0xa5a5;
/// What every number of the list holds before a call.
const LIST_FILL: i32 = 0xa5a5_a5a5_u32 as i32;

/// A drawing with the pull lists of both.
pub struct Drawn {
    pub total: u32,
    pub places: Vec<u16>,
    /// The list of the library.
    pub first: Vec<i32>,
    /// The list of the second implementation.
    pub second: Vec<i32>,
}

/// Slices lent to an engine.
#[derive(PartialEq)]
struct Slices {
    places: Vec<u16>,
    list: Vec<i32>,
}

impl Slices {
    /// Slices of these lengths as they are before a call.
    fn new(places: usize, list: usize) -> Slices {
        Slices {
            places: vec![PLACE_FILL; places],
            list: vec![LIST_FILL; list],
        }
    }

    /// Whether nothing has been written.
    fn are_kept(&self) -> bool {
        *self == Slices::new(self.places.len(), self.list.len())
    }
}

/// Compares drawing into slices of these lengths, and gives the total.
pub fn into(
    library: &impl Library,
    bytes: &[u8],
    places: usize,
    list: usize,
) -> Result<u32, Refusal> {
    let mut ours = Slices::new(places, list);
    let expected = engine::draw(bytes, &mut ours.places, &mut ours.list);
    let (answer, theirs) = drawn(library, bytes, places, list);
    let told = || format!("drawing {bytes:02x?} into {places}, {list}");
    assert_eq!(answer, expected, "{}", told());
    assert_eq!(theirs.places, ours.places, "{}", told());
    if let Ok(sheet) = Sheet::from_bytes(bytes) {
        let mut behind = theirs.list.iter().skip(certificate::length(&sheet));
        assert!(behind.all(|&number| number == LIST_FILL), "{}", told());
    }
    expected
}

/// Compares drawing bytes that are not a sheet, into slices of two lengths.
pub fn bad(library: &impl Library, bytes: &[u8]) {
    refused(library, bytes, 257, 1025);
    refused(library, bytes, 0, 0);
}

/// Compares drawing a sheet into slices that are too short, exact and longer.
pub fn good(library: &impl Library, bytes: &[u8], sheet: &Sheet) -> Result<Drawn, Refusal> {
    let (places, list) = (sheet.node_count(), certificate::length(sheet));
    for (places, list) in [
        (places - 1, list),
        (places, list - 1),
        (places - 1, list + 9),
        (places + 9, list - 1),
        (0, 0),
    ] {
        let refusal = refused(library, bytes, places, list);
        assert_eq!(refusal.number, SLICE_TOO_SHORT, "drawing {bytes:02x?}");
    }
    let mut ours = Slices::new(places, list);
    let expected = engine::draw(bytes, &mut ours.places, &mut ours.list);
    let exact = drawn(library, bytes, places, list);
    let longer = drawn(library, bytes, places + 3, list + 5);
    let (answer, theirs) = exact;
    assert_eq!(answer, expected, "drawing {bytes:02x?}");
    assert_eq!(theirs.places, ours.places, "drawing {bytes:02x?}");
    check_longer(bytes, (answer, &theirs), &longer);
    let total = expected?;
    Ok(Drawn {
        total,
        places: ours.places,
        first: theirs.list,
        second: ours.list,
    })
}

/// The total of the library's drawing in slices that are long enough for every sheet.
pub fn total(library: &impl Library, bytes: &[u8]) -> Result<u32, Refusal> {
    drawn(library, bytes, 256, 1024).0
}

/// Checks that in longer slices the answer is the same and the rest is kept.
fn check_longer(
    bytes: &[u8],
    exact: (Result<u32, Refusal>, &Slices),
    longer: &(Result<u32, Refusal>, Slices),
) {
    let (answer, slices) = longer;
    assert_eq!(*answer, exact.0, "drawing {bytes:02x?}");
    let (places, list) = (exact.1.places.len(), exact.1.list.len());
    assert_eq!(
        slices.places[..places],
        exact.1.places,
        "drawing {bytes:02x?}"
    );
    assert_eq!(slices.list[..list], exact.1.list, "drawing {bytes:02x?}");
    let kept = Slices {
        places: slices.places[places..].to_vec(),
        list: slices.list[list..].to_vec(),
    };
    assert!(kept.are_kept(), "drawing {bytes:02x?}");
}

/// Lets the library draw into slices of these lengths; a list must serve, a refusal keep both.
fn drawn(
    library: &impl Library,
    bytes: &[u8],
    places: usize,
    list: usize,
) -> (Result<u32, Refusal>, Slices) {
    let mut slices = Slices::new(places, list);
    let answer = library.draw(bytes, &mut slices.places, &mut slices.list);
    match answer {
        Ok(_) => {
            let word = check(bytes, &slices.places, &slices.list);
            assert_eq!(word, Ok(true), "the list {:?} of {bytes:02x?}", slices.list);
        }
        Err(_) => assert!(slices.are_kept(), "drawing {bytes:02x?}"),
    }
    (answer, slices)
}

/// Compares drawing where there must be a refusal, and gives it.
fn refused(library: &impl Library, bytes: &[u8], places: usize, list: usize) -> Refusal {
    let answer = into(library, bytes, places, list);
    answer.expect_err("bytes or lengths are to be refused")
}
