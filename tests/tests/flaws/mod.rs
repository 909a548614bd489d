//! Totals at many widths with one flaw, or none.

use std::collections::BTreeSet;

use second::drawing::{total, Sheet};
use second::minimum_width::least_width;
use second::refusal::{
    Refusal, MANY_WIDTHS, NO_DRAWING, NO_WIDTH, OUTSIDE_LIMITS, SLICE_TOO_SHORT,
};
use second::sheet::WIDTH_LIMIT;
use second::solver::solve;
use second::totals::{totals, NO_TOTAL, WIDTHS_LIMIT};

/// What is wrong about the totals.
#[derive(Clone, Copy, Debug, PartialEq)]
pub enum Flaw {
    /// Every entry is the one for the first width.
    FirstWidth,
    /// Every entry is the one for the sheet's own width.
    OwnWidth,
    /// A width past the sheet's own gets the entry for that.
    WithinOwn,
    /// An entry is the one for a width of one more.
    Wider,
    /// A width that is one more than the one before it in the list gets the same entry.
    Before,
    /// The entries are in the order of rising widths.
    Rising,
    /// The entry for a width without a drawing is 0.
    Zero,
    /// Entries behind the first width without a drawing are not written.
    Stops,
    /// Only the first of equal widths gets its entry.
    Repeated,
    /// Only the first 16 different widths are drawn, and others get no total.
    Different,
    /// A sheet without a drawing at its own width is refused with 8.
    Undrawn,
    /// A sheet without a drawing at any width is refused with 10.
    NoWidth,
    /// Only the lower 16 bits of a width count.
    LowerBits,
    /// The greatest width is refused.
    Greatest,
    /// A width of 4,096 is taken for the greatest.
    PastGreatest,
    /// 64 widths are refused.
    Sixtyfour,
    /// 65 widths are taken.
    Sixtyfive,
    /// The offset of a width is one too high.
    Offset,
    /// The last width that is too great is told.
    LastOutside,
    /// 7 comes before 4.
    SliceFirst,
    /// 4 comes before 11.
    WidthsFirst,
    /// 11 comes before 1 to 6.
    CountFirst,
    /// A list without widths is taken, whatever the sheet.
    EmptyUnread,
    /// An empty slice is refused, even if there are no widths.
    EmptySlice,
    /// One element more is written.
    Behind,
    /// An element is written on a refusal.
    OnRefusal,
}

/// All flaws.
pub const FLAWS: [Flaw; 26] = [
    Flaw::FirstWidth,
    Flaw::OwnWidth,
    Flaw::WithinOwn,
    Flaw::Wider,
    Flaw::Before,
    Flaw::Rising,
    Flaw::Zero,
    Flaw::Stops,
    Flaw::Repeated,
    Flaw::Different,
    Flaw::Undrawn,
    Flaw::NoWidth,
    Flaw::LowerBits,
    Flaw::Greatest,
    Flaw::PastGreatest,
    Flaw::Sixtyfour,
    Flaw::Sixtyfive,
    Flaw::Offset,
    Flaw::LastOutside,
    Flaw::SliceFirst,
    Flaw::WidthsFirst,
    Flaw::CountFirst,
    Flaw::EmptyUnread,
    Flaw::EmptySlice,
    Flaw::Behind,
    Flaw::OnRefusal,
];

/// The flaw of a library's totals, if there is one.
#[derive(Clone, Copy)]
pub struct Flawed(pub Option<Flaw>);

impl Flawed {
    /// Writes the totals of a sheet at widths into the front of a slice.
    pub fn totals(self, bytes: &[u8], widths: &[u32], slice: &mut [u32]) -> Result<usize, Refusal> {
        let answer = self.entries(bytes, widths, slice.len());
        let touched = match &answer {
            Ok(entries) if self.is(Flaw::Behind) => slice.get_mut(entries.len()),
            Err(_) if self.is(Flaw::OnRefusal) => slice.first_mut(),
            _ => None,
        };
        if let Some(element) = touched {
            *element = 0;
        }
        let entries = answer?;
        for (element, entry) in slice.iter_mut().zip(&entries) {
            *element = entry.unwrap_or(*element);
        }
        Ok(entries.len())
    }

    /// Whether the totals have this flaw.
    fn is(self, flaw: Flaw) -> bool {
        self.0 == Some(flaw)
    }

    /// The entries for a slice of this length; none where one is not written.
    fn entries(
        self,
        bytes: &[u8],
        widths: &[u32],
        room: usize,
    ) -> Result<Vec<Option<u32>>, Refusal> {
        if self.is(Flaw::EmptyUnread) && widths.is_empty() {
            return Ok(Vec::new());
        }
        if let (true, Some(refusal)) = (self.is(Flaw::CountFirst), self.too_many(widths)) {
            return Err(refusal);
        }
        let sheet = Sheet::from_bytes(bytes)?;
        if let Some(refusal) = self.refused(&sheet, widths, room) {
            return Err(refusal);
        }
        let taken = |&width: &u32| (width as u16).min(WIDTH_LIMIT);
        let mut widths: Vec<u16> = widths.iter().map(taken).collect();
        if self.is(Flaw::Rising) {
            widths.sort();
        }
        Ok(self.written(&sheet, &widths))
    }

    /// The refusal of a good sheet, if there is one.
    fn refused(self, sheet: &Sheet, widths: &[u32], room: usize) -> Option<Refusal> {
        let tests = [
            self.too_many(widths),
            self.outside(widths),
            self.too_short(widths, room),
        ];
        let order = match self.0 {
            Some(Flaw::SliceFirst) => [0, 2, 1],
            Some(Flaw::WidthsFirst) => [1, 0, 2],
            _ => [0, 1, 2],
        };
        let refusal = order.into_iter().find_map(|test| tests[test]);
        refusal.or_else(|| match self.0 {
            Some(Flaw::Undrawn) if solve(sheet).is_none() => Some(Refusal::new(NO_DRAWING, 0)),
            Some(Flaw::NoWidth) if least_width(sheet).is_none() => Some(Refusal::new(NO_WIDTH, 0)),
            _ => None,
        })
    }

    /// The refusal of a list for its length.
    fn too_many(self, widths: &[u32]) -> Option<Refusal> {
        let most = match self.0 {
            Some(Flaw::Sixtyfour) => WIDTHS_LIMIT - 1,
            Some(Flaw::Sixtyfive) => WIDTHS_LIMIT + 1,
            _ => WIDTHS_LIMIT,
        };
        (widths.len() > most).then_some(Refusal::new(MANY_WIDTHS, 0))
    }

    /// The refusal of a list for one of its widths.
    fn outside(self, widths: &[u32]) -> Option<Refusal> {
        let limit = match self.0 {
            Some(Flaw::Greatest) => WIDTH_LIMIT - 1,
            Some(Flaw::PastGreatest) => WIDTH_LIMIT + 1,
            _ => WIDTH_LIMIT,
        };
        let is_outside = |width: &u32| match self.is(Flaw::LowerBits) {
            true => *width as u16 > limit,
            false => *width > limit.into(),
        };
        let at = match self.is(Flaw::LastOutside) {
            true => widths.iter().rposition(is_outside),
            false => widths.iter().position(is_outside),
        };
        let offset = at? + usize::from(self.is(Flaw::Offset));
        Some(Refusal::new(OUTSIDE_LIMITS, offset))
    }

    /// The refusal of a slice of this length.
    fn too_short(self, widths: &[u32], room: usize) -> Option<Refusal> {
        let least = usize::from(self.is(Flaw::EmptySlice));
        (room < widths.len().max(least)).then_some(Refusal::new(SLICE_TOO_SHORT, 0))
    }

    /// The entries for these widths; none where one is not written.
    fn written(self, sheet: &Sheet, widths: &[u16]) -> Vec<Option<u32>> {
        let (mut entries, mut seen) = (Vec::new(), BTreeSet::new());
        let mut is_stopped = false;
        for (i, &width) in widths.iter().enumerate() {
            let is_new = seen.insert(width);
            let entry = match self.0 {
                Some(Flaw::FirstWidth) => entry(sheet, widths[0]),
                Some(Flaw::OwnWidth) => entry(sheet, sheet.width),
                Some(Flaw::WithinOwn) => entry(sheet, width.min(sheet.width)),
                Some(Flaw::Wider) => entry(sheet, (width + 1).min(WIDTH_LIMIT)),
                Some(Flaw::Before) if i > 0 && width == widths[i - 1] + 1 => {
                    entry(sheet, widths[i - 1])
                }
                Some(Flaw::Different) if seen.len() > 16 => NO_TOTAL,
                _ => entry(sheet, width),
            };
            let is_left_out = match self.0 {
                Some(Flaw::Stops) => is_stopped,
                Some(Flaw::Repeated) => !is_new,
                _ => false,
            };
            is_stopped |= entry == NO_TOTAL;
            entries.push(match entry {
                _ if is_left_out => None,
                NO_TOTAL if self.is(Flaw::Zero) => Some(0),
                _ => Some(entry),
            });
        }
        entries
    }
}

/// The entry of a sheet for a width.
fn entry(sheet: &Sheet, width: u16) -> u32 {
    let sheet = at_width(sheet, width);
    let found = solve(&sheet);
    found.map_or(NO_TOTAL, |found| total(&sheet, &found.places))
}

/// A sheet with another width.
fn at_width(sheet: &Sheet, width: u16) -> Sheet {
    Sheet {
        width,
        ..sheet.clone()
    }
}

/// Writes the totals of a sheet at widths as a library does that finds each of them in this way.
pub fn totals_by(
    bytes: &[u8],
    widths: &[u32],
    slice: &mut [u32],
    least_total: impl Fn(&Sheet) -> Option<u32>,
) -> Result<usize, Refusal> {
    let count = totals(bytes, widths, slice)?;
    let sheet = Sheet::from_bytes(bytes)?;
    for (entry, &width) in slice.iter_mut().zip(widths) {
        *entry = least_total(&at_width(&sheet, width as u16)).unwrap_or(NO_TOTAL);
    }
    Ok(count)
}
