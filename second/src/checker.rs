//! The checker of pull lists.

use crate::certificate::{floor, length, meets_rules};
use crate::drawing::{is_drawing, total, Sheet};
use crate::refusal::{Refusal, SLICE_TOO_SHORT};

/// Says whether the list shows that the places are a drawing of least total.
///
/// Elements of `places` and `list` behind the ones that the sheet needs are not looked at.
pub fn check(bytes: &[u8], places: &[u16], list: &[i32]) -> Result<bool, Refusal> {
    let sheet = Sheet::from_bytes(bytes)?;
    if places.len() < sheet.node_count() || list.len() < length(&sheet) {
        return Err(Refusal::new(SLICE_TOO_SHORT, 0));
    }
    let is_tight = floor(&sheet, list) == i64::from(total(&sheet, places));
    Ok(is_drawing(&sheet, places) && meets_rules(&sheet, list) && is_tight)
}
