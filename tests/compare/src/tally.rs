//! Counts of what has been compared.

use std::env;

use crate::totals::Entries;
use crate::{page, sheet, Library, Outcome};
use second::refusal::{Refusal, NO_DRAWING, NO_WIDTH};
use strip_tests::draft::Draft;
use strip_tests::random::Random;

/// How many times more sheets are compared than by default: the environment variable
/// `STRIP_TEST_SCALE`, or 1.
pub fn scale() -> usize {
    match env::var("STRIP_TEST_SCALE") {
        Ok(text) => match text.parse() {
            Ok(scale) if scale > 0 => scale,
            _ => panic!("STRIP_TEST_SCALE is {text:?}, not a number from 1 on"),
        },
        Err(_) => 1,
    }
}

/// What has been compared of one kind of sheets.
#[derive(Default)]
pub struct Tally {
    pub sheets: usize,
    pub drawn: usize,
    /// Drawn with a total above 0.
    pub long: usize,
    /// By the number of the refusal.
    pub refused: [usize; 9],
    /// With a minimum width.
    pub narrowed: usize,
    /// Refused by the call that tells the minimum width: no width has a drawing.
    pub without_width: usize,
    /// The totals at widths.
    pub entries: Entries,
    /// What the checkers said to drawings and near misses.
    pub yes: usize,
    pub no: usize,
}

impl Tally {
    /// Compares sheets as they come, and tells the counts.
    pub fn of(library: &impl Library, kind: &str, drafts: impl Iterator<Item = Draft>) -> Tally {
        let mut tally = Tally::default();
        for draft in drafts {
            tally.add(&sheet(library, &draft.bytes()));
        }
        tally.print(kind);
        tally
    }

    /// The same for so many random sheets, times the scale.
    pub fn of_random(
        library: &impl Library,
        kind: &str,
        (seed, count): (u64, usize),
        draft: impl Fn(&mut Random) -> Draft,
    ) -> Tally {
        let mut random = Random::new(seed);
        let drafts = (0..count * scale()).map(|_| draft(&mut random));
        Tally::of(library, kind, drafts)
    }

    /// How many sheets have no drawing.
    pub fn undrawn(&self) -> usize {
        self.refused[NO_DRAWING as usize]
    }

    /// Counts one more sheet.
    pub fn add(&mut self, outcome: &Outcome) {
        self.sheets += 1;
        self.entries.add(&outcome.entries);
        self.yes += outcome.yes;
        self.no += outcome.no;
        match &outcome.drawn {
            Ok((total, _)) => {
                self.drawn += 1;
                self.long += usize::from(*total > 0);
            }
            Err(refusal) => self.refused[refusal.number as usize] += 1,
        }
        match outcome.minimum {
            Ok(_) => self.narrowed += 1,
            Err(Refusal { number, .. }) => self.without_width += usize::from(number == NO_WIDTH),
        }
    }

    /// Prints a line with all counts, and checks those that the page has, and that some sheets had a list
    /// of 64 widths.
    pub fn print(&self, kind: &str) {
        let mut line = format!("compared: {} {kind}", grouped(self.sheets));
        line += &format!(": {} drawn", grouped(self.drawn));
        for (number, &count) in self.refused.iter().enumerate() {
            if count > 0 {
                line += &format!(", {} refused {number}", grouped(count));
            }
        }
        let (narrowed, without) = (grouped(self.narrowed), grouped(self.without_width));
        line += &format!("; minimum width: {narrowed} told, {without} refused {NO_WIDTH}");
        let [full_lists, totals, without] = self.entries.row().map(grouped);
        line += &format!("; {full_lists} lists of 64 widths: {totals} totals, {without} without");
        let (yes, no) = (grouped(self.yes), grouped(self.no));
        println!("{line}; checked: {yes} yes, {no} no");
        page::check_row(kind, &self.row());
        page::check_row(kind, &self.entries.row());
        assert!(self.entries.full_lists > 0, "{kind}: no list of 64 widths");
    }

    /// The counts as the page has them.
    fn row(&self) -> [usize; 7] {
        let refused = self.sheets - self.drawn;
        let (narrowed, without) = (self.narrowed, self.without_width);
        [
            self.sheets,
            self.drawn,
            refused,
            narrowed,
            without,
            self.yes,
            self.no,
        ]
    }
}

/// A number with commas between groups of three digits.
pub fn grouped(number: usize) -> String {
    let digits = number.to_string();
    let mut text = String::new();
    for (i, digit) in digits.chars().enumerate() {
        if i > 0 && (digits.len() - i) % 3 == 0 {
            text.push(',');
        }
        text.push(digit);
    }
    text
}
