//! The engine: draws a sheet.

use crate::certificate::length;
use crate::drawing::{total, Sheet};
use crate::refusal::{Refusal, NO_DRAWING, SLICE_TOO_SHORT};
use crate::solver::solve;

/// Writes the leftmost least drawing of a sheet and a pull list that shows its total to be least
/// into the fronts of the slices, and gives the total.
pub fn draw(bytes: &[u8], places: &mut [u16], list: &mut [i32]) -> Result<u32, Refusal> {
    let sheet = Sheet::from_bytes(bytes)?;
    let (place_count, list_length) = (sheet.node_count(), length(&sheet));
    if places.len() < place_count || list.len() < list_length {
        return Err(Refusal::new(SLICE_TOO_SHORT, 0));
    }
    let Some(found) = solve(&sheet) else {
        return Err(Refusal::new(NO_DRAWING, 0));
    };
    places[..place_count].copy_from_slice(&found.places);
    list[..list_length].copy_from_slice(&found.list);
    Ok(total(&sheet, &found.places))
}
