//! Cases as lines of the input and the output of the program `library_test`.
//!
//! A line that starts with `#` names the cases below it; the output repeats it. Any other line of
//! input holds an operation letter, two numbers in four hexadecimal digits each, and a payload in
//! hexadecimal digits, with a space between them.
//!
//! - `R` reads the sheet whose bytes are the payload into a slice of so many numbers; the second
//!   number is 0.
//! - `W` writes the sheet whose numbers are the payload into a slice of so many bytes; the second
//!   number is 0.
//! - `G` reads one number at a position of the payload's bytes; the first number is 0.
//! - `P` writes one number, the payload, into a slice of so many bytes at a position.
//! - `C` checks so many places and so many list numbers. They are the payload, in four and in eight
//!   digits each, and the bytes of the sheet behind them.
//! - `D` draws the sheet whose bytes are the payload into slices of so many places and list numbers.
//!   The answer ends in the checker's word on that sheet and these slices.
//! - `N` tells the minimum width of the sheet whose bytes are the payload, and the least total there;
//!   both numbers are 0.
//! - `T` writes the totals of a sheet at so many widths, the second number, into a slice of so many
//!   totals, the first. The widths are the payload, in eight digits each, and the bytes of the sheet
//!   behind them.
//! - `F` reads the coordinate file whose bytes are the payload into a slice of so many numbers; the
//!   second number is 0.
//! - `S` writes the coordinate file whose number list is the payload into a slice of so many bytes; the
//!   second number is 0.
//!
//! Every byte of a slice is a5 before the call. The answer is followed by every element of each slice
//! as it is after the call.

use std::fmt::{Display, LowerHex};
use std::mem::size_of;

use second::certificate;
use second::checker::check;
use second::coordinates;
use second::drawing::Sheet;
use second::engine::draw;
use second::minimum_width::minimum_width;
use second::number::{self, Placed};
use second::refusal::Refusal;
use second::sheet;
use second::totals::totals;

use super::{Call, Line};

/// What every byte of a slice holds before the call.
const BYTE_FILL: u8 = 0xa5;
/// What every number or place of a slice holds before the call.
const NUMBER_FILL: u16 = 0xa5a5;
/// What every total of a slice holds before the call.
const TOTAL_FILL: u32 = 0xa5a5_a5a5;
/// What every list number of a slice holds before the call.
const LIST_FILL: i32 = TOTAL_FILL as i32;

impl Line {
    /// The line of input.
    pub fn input(&self) -> String {
        match self {
            Line::Note(text) => format!("# {text}"),
            Line::Case(call) => call.input(),
        }
    }

    /// The line of output that the second implementation computes.
    pub fn output(&self) -> String {
        match self {
            Line::Note(text) => format!("# {text}"),
            Line::Case(call) => call.output(),
        }
    }

    /// Whether a line of output is the one computed, or the same with another pull list that serves:
    /// document 01 leaves the list of a drawing open.
    pub fn is_answered_by(&self, output: &str) -> bool {
        let computed = self.output();
        match self {
            Line::Case(Call::Draw { bytes, .. }) if computed.starts_with("total ") => {
                differs_in_list_only(bytes, &computed, output)
            }
            _ => output == computed,
        }
    }
}

impl Call {
    /// The line of input in its fixed columns.
    fn input(&self) -> String {
        let (letter, first, second, payload) = match self {
            Call::Read { bytes, room } => ('R', *room, 0, digits(bytes, 2, "")),
            Call::Write { numbers, room } => ('W', *room, 0, digits(numbers, 4, "")),
            Call::ReadNumber { bytes, at } => ('G', 0, *at, digits(bytes, 2, "")),
            Call::WriteNumber { n, at, room } => ('P', *room, *at, digits(&[*n], 8, "")),
            Call::Check {
                bytes,
                places,
                list,
            } => {
                let payload = digits(places, 4, "") + &digits(list, 8, "") + &digits(bytes, 2, "");
                ('C', places.len(), list.len(), payload)
            }
            Call::Draw {
                bytes,
                places,
                list,
            } => ('D', *places, *list, digits(bytes, 2, "")),
            Call::Narrowest { bytes } => ('N', 0, 0, digits(bytes, 2, "")),
            Call::Totals {
                bytes,
                widths,
                room,
            } => {
                let payload = digits(widths, 8, "") + &digits(bytes, 2, "");
                ('T', *room, widths.len(), payload)
            }
            Call::ReadDrawing { file, room } => ('F', *room, 0, digits(file, 2, "")),
            Call::WriteDrawing { numbers, room } => ('S', *room, 0, digits(numbers, 4, "")),
        };
        format!("{letter} {first:04x} {second:04x} {payload}")
    }

    /// The line of output.
    fn output(&self) -> String {
        match self {
            Call::Read { bytes, room } => {
                filled(NUMBER_FILL, *room, |slice| sheet::read(bytes, slice))
            }
            Call::Write { numbers, room } => {
                filled(BYTE_FILL, *room, |slice| sheet::write(numbers, slice))
            }
            Call::ReadNumber { bytes, at } => match number::read(bytes, *at) {
                Ok((value, next)) => format!("value {value} next {next}"),
                Err(refusal) => refused(refusal),
            },
            Call::WriteNumber { n, at, room } => {
                let mut slice = vec![BYTE_FILL; *room];
                let answer = match number::write(&mut slice, *at, *n) {
                    Placed::Next(next) => format!("next {next}"),
                    Placed::NoForm => "no form".to_string(),
                    Placed::NoRoom => "no room".to_string(),
                };
                answer + ":" + &digits(&slice, 2, " ")
            }
            Call::Check {
                bytes,
                places,
                list,
            } => word(bytes, places, list),
            Call::Draw {
                bytes,
                places,
                list,
            } => drawn(bytes, *places, *list),
            Call::Narrowest { bytes } => match minimum_width(bytes) {
                Ok(minimum) => format!("narrowest {} {}", minimum.width, minimum.total),
                Err(refusal) => refused(refusal),
            },
            Call::Totals {
                bytes,
                widths,
                room,
            } => filled(TOTAL_FILL, *room, |slice| totals(bytes, widths, slice)),
            Call::ReadDrawing { file, room } => {
                filled(NUMBER_FILL, *room, |slice| coordinates::read(file, slice))
            }
            Call::WriteDrawing { numbers, room } => {
                filled(BYTE_FILL, *room, |slice| coordinates::write(numbers, slice))
            }
        }
    }
}

/// The line of output of a call that fills a slice of so many elements.
fn filled<T: Clone + LowerHex>(
    filling: T,
    room: usize,
    call: impl FnOnce(&mut [T]) -> Result<usize, Refusal>,
) -> String {
    let mut slice = vec![filling; room];
    let answer = answered("done", call(&mut slice));
    answer + ":" + &digits(&slice, 2 * size_of::<T>(), " ")
}

/// The line of output of a drawing.
fn drawn(bytes: &[u8], places: usize, list: usize) -> String {
    let mut places = vec![NUMBER_FILL; places];
    let mut list = vec![LIST_FILL; list];
    let answer = answered("total", draw(bytes, &mut places, &mut list));
    let numbers: String = list.iter().map(|number| format!(" {number}")).collect();
    let word = word(bytes, &places, &list);
    format!("{answer}:{};{numbers}; {word}", digits(&places, 4, " "))
}

/// The word of the checker.
fn word(bytes: &[u8], places: &[u16], list: &[i32]) -> String {
    match check(bytes, places, list) {
        Ok(true) => "yes".to_string(),
        Ok(false) => "no".to_string(),
        Err(refusal) => refused(refusal),
    }
}

/// A number behind its name, or a refusal.
fn answered(name: &str, answer: Result<impl Display, Refusal>) -> String {
    match answer {
        Ok(number) => format!("{name} {number}"),
        Err(refusal) => refused(refusal),
    }
}

/// A refusal in words.
fn refused(refusal: Refusal) -> String {
    format!("refused {} at {}", refusal.number, refusal.offset)
}

/// The elements in hexadecimal digits, each behind `before`.
fn digits<T: LowerHex>(elements: &[T], width: usize, before: &str) -> String {
    let element = |element| format!("{before}{element:0width$x}");
    elements.iter().map(element).collect()
}

/// The parts of a line of output of a drawing.
struct Parts<'a> {
    answer: &'a str,
    places: Vec<u16>,
    list: Vec<i32>,
    word: &'a str,
}

/// Takes such a line apart; nothing where it has another form.
fn parts(output: &str) -> Option<Parts<'_>> {
    let parts: Vec<&str> = output.split(';').collect();
    let [drawing, list, word] = parts[..] else {
        return None;
    };
    let (answer, places) = drawing.split_once(':')?;
    let places = places.split(' ').skip(1);
    let places = places.map(|digits| u16::from_str_radix(digits, 16));
    Some(Parts {
        answer,
        places: places.collect::<Result<_, _>>().ok()?,
        list: list
            .split(' ')
            .skip(1)
            .map(str::parse)
            .collect::<Result<_, _>>()
            .ok()?,
        word,
    })
}

/// Whether two lines of output tell the same drawing of a sheet, and the other one's list shows it to
/// be least; behind the list nothing is written.
fn differs_in_list_only(bytes: &[u8], output: &str, other: &str) -> bool {
    let (Some(one), Some(other)) = (parts(output), parts(other)) else {
        return false;
    };
    let sheet = Sheet::from_bytes(bytes).expect("a drawing is of a good sheet");
    let is_kept = |&number: &i32| number == LIST_FILL;
    one.answer == other.answer
        && one.places == other.places
        && one.word == other.word
        && one.list.len() == other.list.len()
        && check(bytes, &one.places, &other.list) == Ok(true)
        && other.list[certificate::length(&sheet)..]
            .iter()
            .all(is_kept)
}
