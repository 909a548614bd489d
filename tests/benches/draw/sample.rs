//! Calls of the library on one sheet.

use std::hint::black_box;

use second::drawing::Sheet;
use strip_tests::kinds::widths;

/// A sheet, with slices for its numbers, its drawing, its list and its totals at widths.
pub struct Sample {
    pub bytes: Vec<u8>,
    numbers: Vec<u16>,
    places: Vec<u16>,
    list: Vec<i32>,
    widths: Vec<u32>,
    totals: Vec<u32>,
}

impl Sample {
    /// The sample of a sheet's bytes.
    pub fn new(bytes: Vec<u8>) -> Sample {
        Sample {
            bytes,
            numbers: vec![0; strip::MAX_NUMBERS],
            places: vec![0; strip::MAX_PLACES],
            list: vec![0; strip::MAX_LIST],
            widths: Vec::new(),
            totals: vec![0; strip::MAX_WIDTHS],
        }
    }

    /// Chooses the widths for totals; the sheet must be good and have a minimum width.
    pub fn choose_widths(&mut self) {
        self.widths = widths(&self.sheet());
    }

    /// The sheet in its parts; it must be good.
    pub fn sheet(&self) -> Sheet {
        Sheet::from_bytes(&self.bytes).expect("a good sheet")
    }

    /// Draws the sheet: the total, if it has a drawing.
    pub fn draw(&mut self) -> Option<u32> {
        strip::draw(black_box(&self.bytes), &mut self.places, &mut self.list).ok()
    }

    /// Reads the sheet, and says whether it is good.
    pub fn read(&mut self) -> bool {
        strip::read(black_box(&self.bytes), &mut self.numbers).is_ok()
    }

    /// Checks the drawing, and says whether it is least.
    pub fn check(&mut self) -> bool {
        strip::check(black_box(&self.bytes), &self.places, &self.list) == Ok(true)
    }

    /// Tells the minimum width, and says whether there is one.
    pub fn narrowest(&mut self) -> bool {
        strip::narrowest(black_box(&self.bytes)).is_ok()
    }

    /// Tells the totals at the widths, and says whether the last one, at the greatest width, is there.
    pub fn totals(&mut self) -> bool {
        let answer = strip::totals(black_box(&self.bytes), &self.widths, &mut self.totals);
        answer.is_ok_and(|count| self.totals[count - 1] != strip::NO_TOTAL)
    }
}
