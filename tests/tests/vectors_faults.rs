//! The vectors find the faults that the comparison finds: wrong traces, totals added with a mistake, flaws of
//! totals at many widths, broken rules of coordinate files; and a checker with too few bits. Each gives a
//! wrong answer in the file of the call that has the fault.

mod asked;
mod flaws;
mod rules;
mod sums;
mod wrong;

use asked::{answered, cases, stored};
use compare::Library;
use flaws::{totals_by, Flaw, Flawed, FLAWS};
use rules::{Broken, Rule, READER, WRITER};
use second::certificate::{floor, meets_rules};
use second::drawing::{is_drawing, total, Sheet};
use second::minimum_width::{minimum_width, Minimum};
use second::refusal::Refusal;
use second::{checker, engine};
use sums::{Mistake, MISTAKES};
use wrong::{Traces, Wrong, WAYS};

/// A library that goes by wrong traces.
struct WrongTraces(Wrong);

impl WrongTraces {
    /// The wrong traces.
    fn traces(&self) -> Traces {
        Traces(Some(self.0))
    }
}

impl Library for WrongTraces {
    fn draw(&self, sheet: &[u8], places: &mut [u16], list: &mut [i32]) -> Result<u32, Refusal> {
        self.traces().draw(sheet, places, list)
    }

    fn check(&self, sheet: &[u8], places: &[u16], list: &[i32]) -> Result<bool, Refusal> {
        self.traces().check(sheet, places, list)
    }

    fn narrowest(&self, sheet: &[u8]) -> Result<Minimum, Refusal> {
        self.traces().narrowest(sheet)
    }

    fn totals(&self, sheet: &[u8], widths: &[u32], totals: &mut [u32]) -> Result<usize, Refusal> {
        totals_by(sheet, widths, totals, |sheet| {
            self.traces().least_total(sheet)
        })
    }
}

/// A library that adds totals with a mistake.
struct WrongSums(Mistake);

impl Library for WrongSums {
    fn draw(&self, sheet: &[u8], places: &mut [u16], list: &mut [i32]) -> Result<u32, Refusal> {
        engine::draw(sheet, places, list)?;
        Ok(self.0.total(&Sheet::from_bytes(sheet)?, places))
    }

    fn check(&self, sheet: &[u8], places: &[u16], list: &[i32]) -> Result<bool, Refusal> {
        checker::check(sheet, places, list)?;
        Ok(self.0.check(&Sheet::from_bytes(sheet)?, places, list))
    }

    fn narrowest(&self, sheet: &[u8]) -> Result<Minimum, Refusal> {
        let Minimum { width, .. } = minimum_width(sheet)?;
        let sheet = Sheet {
            width,
            ..Sheet::from_bytes(sheet)?
        };
        let total = self.0.least_total(&sheet).expect("the width is enough");
        Ok(Minimum { width, total })
    }

    fn totals(&self, sheet: &[u8], widths: &[u32], totals: &mut [u32]) -> Result<usize, Refusal> {
        totals_by(sheet, widths, totals, |sheet| self.0.least_total(sheet))
    }
}

/// A library whose totals at many widths have a flaw.
struct WrongTotals(Flaw);

impl Library for WrongTotals {
    fn totals(&self, sheet: &[u8], widths: &[u32], totals: &mut [u32]) -> Result<usize, Refusal> {
        Flawed(Some(self.0)).totals(sheet, widths, totals)
    }
}

/// A library whose coordinate files break a rule.
struct WrongFiles(Rule);

impl Library for WrongFiles {
    fn read_drawing(&self, file: &[u8], numbers: &mut [u16]) -> Result<usize, Refusal> {
        Broken(Some(self.0)).read(file, numbers)
    }

    fn write_drawing(&self, numbers: &[u16], file: &mut [u8]) -> Result<usize, Refusal> {
        Broken(Some(self.0)).write(numbers, file)
    }
}

/// A library whose checker compares only so many bits of the bound and the total.
struct FewBits(u32);

impl Library for FewBits {
    fn check(&self, sheet: &[u8], places: &[u16], list: &[i32]) -> Result<bool, Refusal> {
        checker::check(sheet, places, list)?;
        let sheet = Sheet::from_bytes(sheet)?;
        let difference = floor(&sheet, list) - i64::from(total(&sheet, places));
        let is_equal = difference % (1 << self.0) == 0;
        Ok(is_drawing(&sheet, places) && meets_rules(&sheet, list) && is_equal)
    }
}

/// How many answers of a library to the questions of a call are wrong.
fn wrong_answers(library: &impl Library, call: &str) -> usize {
    let text = &stored()[&format!("{call}.txt")];
    let cases = cases(text).into_iter();
    let wrong = cases.filter(|(question, answer)| answered(library, question) != *answer);
    wrong.count()
}

#[test]
fn wrong_traces_are_found() {
    for way in WAYS {
        let library = WrongTraces(way);
        assert!(wrong_answers(&library, "check") > 0, "{way:?}");
        // which of parallel edges carries the pull is seen in the list alone
        if way != Wrong::LastCarries {
            assert!(wrong_answers(&library, "draw") > 0, "{way:?}");
            assert!(wrong_answers(&library, "narrowest") > 0, "{way:?}");
            assert!(wrong_answers(&library, "totals") > 0, "{way:?}");
        }
    }
}

#[test]
fn mistakes_of_totals_are_found() {
    for mistake in MISTAKES {
        for call in ["draw", "check", "narrowest", "totals"] {
            let count = wrong_answers(&WrongSums(mistake), call);
            assert!(count > 0, "{call}: {mistake:?}");
        }
    }
}

#[test]
fn flaws_of_totals_at_many_widths_are_found() {
    // an answer does not show what stands in a slice behind it, or after a refusal
    let is_shown = |flaw: &&Flaw| ![Flaw::Behind, Flaw::OnRefusal].contains(flaw);
    for &flaw in FLAWS.iter().filter(is_shown) {
        let count = wrong_answers(&WrongTotals(flaw), "totals");
        assert!(count > 0, "{flaw:?}");
    }
}

#[test]
fn broken_rules_of_coordinate_files_are_found() {
    for (call, rules) in [("read_drawing", &READER[..]), ("write_drawing", &WRITER)] {
        // an answer does not show what stands in a slice behind it, or after a refusal
        let is_shown = |rule: &&Rule| ![Rule::Behind, Rule::OnRefusal].contains(rule);
        for &rule in rules.iter().filter(is_shown) {
            let count = wrong_answers(&WrongFiles(rule), call);
            assert!(count > 0, "{call}: {rule:?}");
        }
    }
}

#[test]
fn bounds_in_too_few_bits_are_found() {
    for bits in [8, 16, 32, 40] {
        assert!(wrong_answers(&FewBits(bits), "check") > 0, "{bits} bits");
    }
    assert_eq!(wrong_answers(&FewBits(62), "check"), 0);
}
