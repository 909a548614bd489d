//! A library with a deliberate fault, which the self-test must find.

use compare::{Library, Proved};
use second::refusal::Refusal;

/// The total of the sheets that are drawn wrong.
const TOTAL: u32 = 77;

/// The proved library, but in drawings of one total the last place is one too far right.
pub struct Faulty;

impl Library for Faulty {
    fn draw(&self, sheet: &[u8], places: &mut [u16], list: &mut [i32]) -> Result<u32, Refusal> {
        let total = Proved.draw(sheet, places, list)?;
        if let (TOTAL, Some(place)) = (total, places.last_mut()) {
            *place += 1;
        }
        Ok(total)
    }
}
