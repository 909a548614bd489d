//! The comparison itself: it finds each fault that a library is given, and none where there is none.

mod flaws;
mod rules;
mod sums;
mod wrong;

use std::panic::{catch_unwind, AssertUnwindSafe};

use compare::{page, sheet, totals, Library};
use flaws::{totals_by, Flaw, Flawed, FLAWS};
use rules::{Broken, Rule, READER, WRITER};
use second::certificate;
use second::checker;
use second::drawing::{total, Sheet};
use second::engine;
use second::minimum_width::Minimum;
use second::refusal::{Refusal, NO_DRAWING, NO_WIDTH, SLICE_TOO_SHORT};
use second::sheet::{self as format, PLAIN};
use second::solver::solve;
use strip_tests::document::{self, REFUSED};
use strip_tests::families::parallel;
use strip_tests::families::turned::mirrored;
use strip_tests::files::{self, Rows};
use strip_tests::generate;
use strip_tests::mutation::lowest;
use strip_tests::random::Random;
use sums::{Mistake, MISTAKES};
use wrong::{Traces, Wrong, WAYS};

/// What is wrong with a library.
#[derive(Clone, Copy, Debug, PartialEq)]
enum Fault {
    Nothing,
    ReadOffset,
    ReadBehind,
    ReadOnRefusal,
    ReadShort,
    WriteIndex,
    WriteByte,
    WriteBehind,
    DrawTotal,
    DrawRightmost,
    DrawZeroList,
    DrawBehindPlaces,
    DrawBehindList,
    DrawOnRefusal,
    DrawShort,
    DrawNothing,
    CheckYes,
    CheckNo,
    CheckShort,
    CheckPlaces,
    CheckWraps,
    NarrowestMore,
    NarrowestWithin,
    NarrowestLowest,
    NarrowestWider,
    NarrowestNumber,
    NarrowestOffset,
    /// The engine goes by wrong traces.
    DrawTraces(Wrong),
    /// The checker goes by wrong traces.
    CheckTraces(Wrong),
    /// The total in the minimum width goes by wrong traces.
    NarrowestTraces(Wrong),
    /// The engine adds the total with a mistake.
    DrawSum(Mistake),
    /// The checker adds the total with a mistake.
    CheckSum(Mistake),
    /// The total in the minimum width is added with a mistake.
    NarrowestSum(Mistake),
    /// The totals at many widths have a flaw.
    Totals(Flaw),
    /// The totals at many widths go by wrong traces.
    TotalsTraces(Wrong),
    /// The totals at many widths are added with a mistake.
    TotalsSum(Mistake),
    /// The reader of coordinate files breaks a rule.
    ReadFile(Rule),
    /// The writer of coordinate files breaks a rule.
    WriteFile(Rule),
}

/// The faults that concern sheets.
const SHEET_FAULTS: [Fault; 26] = [
    Fault::ReadOffset,
    Fault::ReadBehind,
    Fault::ReadOnRefusal,
    Fault::ReadShort,
    Fault::WriteIndex,
    Fault::WriteByte,
    Fault::WriteBehind,
    Fault::DrawTotal,
    Fault::DrawRightmost,
    Fault::DrawZeroList,
    Fault::DrawBehindPlaces,
    Fault::DrawBehindList,
    Fault::DrawOnRefusal,
    Fault::DrawShort,
    Fault::DrawNothing,
    Fault::CheckYes,
    Fault::CheckNo,
    Fault::CheckShort,
    Fault::CheckPlaces,
    Fault::CheckWraps,
    Fault::NarrowestMore,
    Fault::NarrowestWithin,
    Fault::NarrowestLowest,
    Fault::NarrowestWider,
    Fault::NarrowestNumber,
    Fault::NarrowestOffset,
];

/// All faults.
fn faults() -> Vec<Fault> {
    let mut faults = SHEET_FAULTS.to_vec();
    faults.extend(WAYS.map(Fault::DrawTraces));
    faults.extend(WAYS.map(Fault::CheckTraces));
    faults.push(Fault::NarrowestTraces(Wrong::EveryEdge));
    faults.extend(MISTAKES.map(Fault::DrawSum));
    faults.extend(MISTAKES.map(Fault::CheckSum));
    faults.extend(MISTAKES.map(Fault::NarrowestSum));
    faults.extend(FLAWS.map(Fault::Totals));
    faults.push(Fault::TotalsTraces(Wrong::EveryEdge));
    faults.extend(MISTAKES.map(Fault::TotalsSum));
    faults.extend(READER.map(Fault::ReadFile));
    faults.extend(WRITER.map(Fault::WriteFile));
    faults
}

/// This package as a library with a fault.
struct Faulty(Fault);

/// The refusal of a slice that is too short.
fn too_short<T>() -> Result<T, Refusal> {
    Err(Refusal::new(SLICE_TOO_SHORT, 0))
}

impl Library for Faulty {
    fn read(&self, sheet: &[u8], numbers: &mut [u16]) -> Result<usize, Refusal> {
        let answer = format::read(sheet, numbers);
        match (self.0, answer) {
            (Fault::ReadOffset, Err(refusal)) if refusal.offset > 0 => {
                return Err(Refusal::new(refusal.number, refusal.offset - 1));
            }
            (Fault::ReadBehind, Ok(count)) if count < numbers.len() => numbers[count] = 0,
            (Fault::ReadOnRefusal, Err(_)) if !numbers.is_empty() => numbers[0] = 0,
            (Fault::ReadShort, Ok(count)) if count == numbers.len() => return too_short(),
            _ => {}
        }
        answer
    }

    fn write(&self, numbers: &[u16], sheet: &mut [u8]) -> Result<usize, Refusal> {
        let answer = format::write(numbers, sheet);
        match (self.0, answer) {
            (Fault::WriteIndex, Err(refusal)) if refusal.offset > 0 => {
                return Err(Refusal::new(refusal.number, refusal.offset * 2));
            }
            (Fault::WriteByte, Ok(count)) => sheet[count - 1] ^= 1,
            (Fault::WriteBehind, Ok(count)) if count < sheet.len() => sheet[count] = 0,
            _ => {}
        }
        answer
    }

    fn draw(&self, sheet: &[u8], places: &mut [u16], list: &mut [i32]) -> Result<u32, Refusal> {
        let wrong = match self.0 {
            Fault::DrawTraces(wrong) => Some(wrong),
            _ => None,
        };
        let answer = Traces(wrong).draw(sheet, places, list);
        let total = match answer {
            Ok(total) => total,
            Err(_) => {
                if self.0 == Fault::DrawOnRefusal && !places.is_empty() {
                    places[0] = 0;
                }
                return answer;
            }
        };
        let (place_count, list_length) = needed(sheet);
        match self.0 {
            Fault::DrawTotal => return Ok(total + 1),
            Fault::DrawSum(mistake) => return Ok(mistake.total(&own(sheet), places)),
            Fault::DrawRightmost if sheet == loose().as_slice() => {
                places[..place_count]
                    .iter_mut()
                    .for_each(|place| *place += 1);
            }
            Fault::DrawZeroList => list[..list_length].fill(0),
            Fault::DrawBehindPlaces => places[place_count..].fill(0),
            Fault::DrawBehindList => list[list_length..].fill(0),
            Fault::DrawShort if places.len() < 4 => return too_short(),
            Fault::DrawNothing => return Err(Refusal::new(NO_DRAWING, 0)),
            _ => {}
        }
        answer
    }

    fn check(&self, sheet: &[u8], places: &[u16], list: &[i32]) -> Result<bool, Refusal> {
        let wrong = match self.0 {
            Fault::CheckTraces(wrong) => Some(wrong),
            _ => None,
        };
        let answer = Traces(wrong).check(sheet, places, list);
        match (self.0, answer) {
            (Fault::CheckYes, Ok(_)) => Ok(true),
            (Fault::CheckNo, Ok(_)) => Ok(false),
            (Fault::CheckShort, Err(Refusal { number: 7, .. })) => Ok(false),
            (Fault::CheckPlaces, Ok(false)) => {
                let mut best = vec![0; places.len()];
                let drawn = engine::draw(sheet, &mut best, &mut vec![0; list.len()]);
                drawn.map_or(Ok(false), |_| checker::check(sheet, &best, list))
            }
            (Fault::CheckSum(mistake), Ok(_)) => Ok(mistake.check(&own(sheet), places, list)),
            (Fault::CheckWraps, Ok(_)) => {
                let wrapped: Vec<i32> = list.iter().map(|n| n << 1 >> 1).collect();
                checker::check(sheet, places, &wrapped)
            }
            _ => answer,
        }
    }

    fn narrowest(&self, sheet: &[u8]) -> Result<Minimum, Refusal> {
        let wrong = match self.0 {
            Fault::NarrowestTraces(wrong) => Some(wrong),
            _ => None,
        };
        let answer = Traces(wrong).narrowest(sheet);
        match (self.0, answer) {
            (Fault::NarrowestMore, Ok(minimum)) => Ok(Minimum {
                width: minimum.width + 1,
                ..minimum
            }),
            // the sheet's own width is the limit of the search
            (Fault::NarrowestWithin, Ok(minimum)) if minimum.width > own(sheet).width => {
                Err(Refusal::new(NO_WIDTH, 0))
            }
            // the total of the drawing in which every node stands as far left as it can
            (Fault::NarrowestLowest, Ok(minimum)) => Ok(Minimum {
                total: lowest_total(sheet, minimum.width),
                ..minimum
            }),
            // the total in the sheet's own width
            (Fault::NarrowestWider, Ok(minimum)) => Ok(Minimum {
                total: total_of(&own(sheet)).unwrap_or(minimum.total),
                ..minimum
            }),
            (Fault::NarrowestSum(mistake), Ok(Minimum { width, .. })) => {
                let sheet = Sheet {
                    width,
                    ..own(sheet)
                };
                let total = mistake.least_total(&sheet).expect("the width is enough");
                Ok(Minimum { width, total })
            }
            (Fault::NarrowestNumber, Err(Refusal { number: 10, .. })) => {
                Err(Refusal::new(NO_DRAWING, 0))
            }
            (Fault::NarrowestOffset, Err(Refusal { number: 10, .. })) => {
                Err(Refusal::new(NO_WIDTH, sheet.len()))
            }
            _ => answer,
        }
    }

    fn totals(&self, sheet: &[u8], widths: &[u32], totals: &mut [u32]) -> Result<usize, Refusal> {
        match self.0 {
            Fault::Totals(flaw) => Flawed(Some(flaw)).totals(sheet, widths, totals),
            Fault::TotalsTraces(wrong) => totals_by(sheet, widths, totals, |sheet| {
                Traces(Some(wrong)).least_total(sheet)
            }),
            Fault::TotalsSum(mistake) => {
                totals_by(sheet, widths, totals, |sheet| mistake.least_total(sheet))
            }
            _ => Flawed(None).totals(sheet, widths, totals),
        }
    }

    fn read_drawing(&self, file: &[u8], numbers: &mut [u16]) -> Result<usize, Refusal> {
        let broken = match self.0 {
            Fault::ReadFile(rule) => Some(rule),
            _ => None,
        };
        Broken(broken).read(file, numbers)
    }

    fn write_drawing(&self, numbers: &[u16], file: &mut [u8]) -> Result<usize, Refusal> {
        let broken = match self.0 {
            Fault::WriteFile(rule) => Some(rule),
            _ => None,
        };
        Broken(broken).write(numbers, file)
    }
}

/// A good sheet as it is.
fn own(bytes: &[u8]) -> Sheet {
    Sheet::from_bytes(bytes).expect("a good sheet")
}

/// The least total of a sheet, if it has a drawing.
fn total_of(sheet: &Sheet) -> Option<u32> {
    let solution = solve(sheet)?;
    Some(total(sheet, &solution.places))
}

/// The total of the drawing in which every node stands as far left as it can, in a width that is enough.
fn lowest_total(bytes: &[u8], width: u16) -> u32 {
    let sheet = Sheet {
        width,
        ..own(bytes)
    };
    let places = lowest(&sheet).expect("the width is enough");
    total(&sheet, &places)
}

/// How many places and list numbers a good sheet needs.
fn needed(bytes: &[u8]) -> (usize, usize) {
    let sheet = own(bytes);
    (sheet.node_count(), certificate::length(&sheet))
}

/// The bytes of a sheet with several least drawings.
fn loose() -> Vec<u8> {
    document::stair(5, PLAIN).bytes()
}

/// Sheets and coordinate files of all kinds, good and bad.
fn inputs() -> Vec<Vec<u8>> {
    let mut random = Random::new(41);
    let mut inputs: Vec<Vec<u8>> = REFUSED.iter().map(|(_, bytes)| bytes.to_vec()).collect();
    inputs.extend(document::sheets().iter().map(|(_, draft)| draft.bytes()));
    inputs.push(loose());
    inputs.extend(document::traced().map(|traced| traced.draft.bytes()));
    inputs.push(parallel::layers_of_64(&mut random).bytes());
    inputs.extend(files::GOOD.map(|(_, bytes, _)| bytes.to_vec()));
    inputs.extend(files::REFUSED.map(|(_, bytes, _)| bytes.to_vec()));
    inputs.push(files::side_by_side(4032).bytes());
    inputs.extend([files::longest(), too_many()].map(|rows| rows.bytes()));
    // a number list, since bytes are also written two by two
    let numbers = too_many().numbers().into_iter();
    inputs.push(numbers.flat_map(u16::to_le_bytes).collect());
    for _ in 0..300 {
        let draft = generate::tiny(&mut random);
        inputs.extend([draft.bytes(), mirrored(&draft).bytes()]);
    }
    inputs
}

/// A drawing of 257 nodes.
fn too_many() -> Rows {
    let mut rows = files::longest();
    rows.0[63].push(4095);
    rows
}

/// Whether comparing an input finds a difference.
fn is_found(fault: Fault, bytes: &[u8]) -> bool {
    catch_unwind(AssertUnwindSafe(|| sheet(&Faulty(fault), bytes))).is_err()
}

#[test]
fn a_library_without_fault_passes() {
    let mut drawn = 0;
    for bytes in inputs() {
        drawn += usize::from(sheet(&Faulty(Fault::Nothing), &bytes).drawn.is_ok());
    }
    assert!(drawn > 100, "{drawn}");
}

#[test]
fn the_page_tells_how_many_faults_there_are() {
    let (reader, writer) = (READER.len(), WRITER.len());
    for sentence in [
        format!("the reader breaks {reader} rules, one at a time, and the writer {writer} "),
        format!("go by traces that are wrong in {} ways ", WAYS.len()),
        format!("layer by layer with {} mistakes ", MISTAKES.len()),
        format!(
            "on one good sheet in {}, chosen by its bytes, at 64 too.",
            totals::SHARE
        ),
        format!("The totals at many widths have {} flaws ", FLAWS.len()),
        format!("are added with each of the {} mistakes.", MISTAKES.len()),
        format!("Each of the {} faults is found.", faults().len()),
    ] {
        page::check_said(&sentence);
    }
}

#[test]
fn every_fault_is_found() {
    let inputs = inputs();
    for fault in faults() {
        let found = inputs.iter().any(|bytes| is_found(fault, bytes));
        assert!(found, "{fault:?}");
    }
}
