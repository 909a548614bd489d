//! The totals of a sheet at many widths (document 02: many widths for one sheet).
//!
//! Each total is that of a drawing of its own, which the engine's solver finds: none is taken from the
//! total at another width. Only a width that comes again is not drawn again.

use std::collections::BTreeMap;

use crate::drawing::{total, Sheet};
use crate::refusal::{Refusal, MANY_WIDTHS, OUTSIDE_LIMITS, SLICE_TOO_SHORT};
use crate::sheet::WIDTH_LIMIT;
use crate::solver::solve;

/// The greatest count of widths in a list.
pub const WIDTHS_LIMIT: usize = 64;
/// The entry for a width at which the sheet has no drawing.
pub const NO_TOTAL: u32 = 4_294_967_295;

/// Writes the least total of a sheet in bytes at each width of a list, or `NO_TOTAL` if there is no
/// drawing, into the front of `totals`, and says how many entries there are. The sheet's own width
/// does not count.
pub fn totals(bytes: &[u8], widths: &[u32], totals: &mut [u32]) -> Result<usize, Refusal> {
    Totals::of(bytes)?.write(widths, totals)
}

/// A sheet that is read once, with its entries for the widths asked for so far.
pub struct Totals {
    sheet: Sheet,
    known: BTreeMap<u16, u32>,
}

impl Totals {
    /// Reads a sheet.
    pub fn of(bytes: &[u8]) -> Result<Totals, Refusal> {
        let sheet = Sheet::from_bytes(bytes)?;
        let known = BTreeMap::new();
        Ok(Totals { sheet, known })
    }

    /// Writes the entry for each width of a list, in order, into the front of `totals`.
    pub fn write(&mut self, widths: &[u32], totals: &mut [u32]) -> Result<usize, Refusal> {
        if widths.len() > WIDTHS_LIMIT {
            return Err(Refusal::new(MANY_WIDTHS, 0));
        }
        let widths = within_limits(widths)?;
        let Some(front) = totals.get_mut(..widths.len()) else {
            return Err(Refusal::new(SLICE_TOO_SHORT, 0));
        };
        for (entry, &width) in front.iter_mut().zip(&widths) {
            *entry = self.entry(width);
        }
        Ok(widths.len())
    }

    /// The entry for a width within its limits.
    fn entry(&mut self, width: u16) -> u32 {
        *self.known.entry(width).or_insert_with(|| {
            self.sheet.width = width;
            let found = solve(&self.sheet);
            found.map_or(NO_TOTAL, |found| total(&self.sheet, &found.places))
        })
    }

    /// Each width asked for so far, from the least one on, with its entry.
    pub fn known(&self) -> impl Iterator<Item = (u16, u32)> + '_ {
        self.known.iter().map(|(&width, &entry)| (width, entry))
    }
}

/// The widths, if each is within its limits.
fn within_limits(widths: &[u32]) -> Result<Vec<u16>, Refusal> {
    let width = |(i, &width): (usize, &u32)| match u16::try_from(width) {
        Ok(width) if width <= WIDTH_LIMIT => Ok(width),
        _ => Err(Refusal::new(OUTSIDE_LIMITS, i)),
    };
    widths.iter().enumerate().map(width).collect()
}
