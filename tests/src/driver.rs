//! What the driver `tests/c/damaged.c` is given, and what it prints: calls of all functions with
//! slices of just the lengths that are needed, one element shorter, and longer.

mod files;
mod items;
mod variants;

use crate::generate::LONGEST;
use second::checker::check;
use second::drawing::Sheet;
use second::engine::draw;
use second::minimum_width::minimum_width;
use second::refusal::{Refusal, NO_DRAWING};
use second::sheet::{read, write, NUMBER_LIMIT};
use second::totals::{totals, WIDTHS_LIMIT};
use second::{certificate, coordinates};

pub use items::items;

/// A function that reads numbers from bytes into the front of a slice.
type Reader = fn(&[u8], &mut [u16]) -> Result<usize, Refusal>;
/// A function that writes bytes from numbers into the front of a slice.
type Writer = fn(&[u16], &mut [u8]) -> Result<usize, Refusal>;

/// The lengths by which the slices of readers and writers differ from what is needed.
const MORE: [isize; 3] = [-1, 0, 1];
/// The same for the places and the list of a drawing.
const MORE_DRAWN: [(isize, isize); 4] = [(-1, 0), (0, -1), (0, 0), (3, 5)];
/// The bytes of which places and lists are made that no engine drew.
const FILLINGS: [u8; 4] = [0x00, 0x7f, 0x80, 0xff];

/// What the driver calls the functions with.
pub enum Item {
    /// The bytes of a sheet: read, drawn and checked, its minimum width, and its totals at widths.
    Sheet(Vec<u8>),
    /// The number list of a sheet: written.
    Numbers(Vec<u16>),
    /// The bytes of a coordinate file: read.
    File(Vec<u8>),
    /// The number list of a coordinate file: written.
    Drawing(Vec<u16>),
}

/// The lengths of the slices that an item needs; 1 each where it is refused.
struct Needs {
    numbers: usize,
    places: usize,
    list: usize,
    bytes: usize,
}

impl Item {
    /// An item of these bytes.
    pub fn sheet(bytes: &[u8]) -> Item {
        Item::Sheet(bytes.to_vec())
    }

    /// A coordinate file of these bytes.
    pub fn file(bytes: &[u8]) -> Item {
        Item::File(bytes.to_vec())
    }

    /// The item as the driver reads it: six 32-bit numbers and the elements.
    pub fn bytes(&self) -> Vec<u8> {
        let (kind, elements) = match self {
            Item::Sheet(bytes) => (0, bytes.clone()),
            Item::Numbers(numbers) => (1, bytes_of(numbers)),
            Item::File(bytes) => (2, bytes.clone()),
            Item::Drawing(numbers) => (3, bytes_of(numbers)),
        };
        let needs = self.needs();
        let lengths = [needs.numbers, needs.places, needs.list, needs.bytes];
        let head = [kind, elements.len()].into_iter().chain(lengths);
        let mut bytes: Vec<u8> = head.flat_map(|n| (n as u32).to_le_bytes()).collect();
        bytes.extend(elements);
        bytes
    }

    /// What the slices must have room for.
    fn needs(&self) -> Needs {
        let mut needs = Needs {
            numbers: 1,
            places: 1,
            list: 1,
            bytes: 1,
        };
        match self {
            Item::Sheet(bytes) => {
                let mut numbers = [0; NUMBER_LIMIT];
                if let Ok(count) = read(bytes, &mut numbers) {
                    let sheet = Sheet::from_numbers(&numbers[..count]);
                    needs.numbers = count;
                    needs.places = sheet.node_count();
                    needs.list = certificate::length(&sheet);
                }
            }
            Item::Numbers(numbers) => {
                needs.bytes = write(numbers, &mut [0; LONGEST]).unwrap_or(1);
            }
            Item::File(bytes) => {
                needs.numbers = coordinates::read(bytes, &mut [0; NUMBER_LIMIT]).unwrap_or(1);
            }
            Item::Drawing(numbers) => {
                needs.bytes = coordinates::write(numbers, &mut [0; LONGEST]).unwrap_or(1);
            }
        }
        needs
    }
}

/// The lines that the driver prints for an item.
pub fn calls(item: &Item) -> Vec<String> {
    let needs = item.needs();
    let mut lines = Vec::new();
    match item {
        Item::Sheet(bytes) => {
            lines.extend(readings("strip_read", read, bytes, needs.numbers));
            for (places, list) in MORE_DRAWN {
                lines.extend(drawing(bytes, &needs, places, list));
            }
            lines.extend(FILLINGS.map(|byte| checking(bytes, &needs, byte)));
            lines.push(narrowest(bytes));
            lines.extend(lists().iter().map(|list| entries(bytes, list)));
        }
        Item::Numbers(numbers) => {
            lines.extend(writings("strip_write", write, numbers, needs.bytes));
        }
        Item::File(bytes) => {
            let read = coordinates::read;
            lines.extend(readings("strip_read_drawing", read, bytes, needs.numbers));
        }
        Item::Drawing(numbers) => {
            let write = coordinates::write;
            lines.extend(writings("strip_write_drawing", write, numbers, needs.bytes));
        }
    }
    lines
}

/// A length with so many more elements.
fn longer(length: usize, more: isize) -> usize {
    length.checked_add_signed(more).expect("a length is not 0")
}

/// The lines for reading bytes into slices of about this length.
fn readings(name: &str, read: Reader, bytes: &[u8], length: usize) -> [String; 3] {
    MORE.map(|more| {
        let mut numbers = vec![0; longer(length, more)];
        let answer = read(bytes, &mut numbers);
        numbers.truncate(answer.unwrap_or(0));
        let written = bytes_of(&numbers);
        shown(name, answer.map(|count| count as u32), written)
    })
}

/// The lines for writing a list into slices of about this length.
fn writings(name: &str, write: Writer, numbers: &[u16], length: usize) -> [String; 3] {
    MORE.map(|more| {
        let mut bytes = vec![0; longer(length, more)];
        let answer = write(numbers, &mut bytes);
        bytes.truncate(answer.unwrap_or(0));
        shown(name, answer.map(|count| count as u32), bytes)
    })
}

/// The lines for drawing a sheet and checking the drawing, with so much more room than needed.
/// Where no drawing exists there is nothing to check.
fn drawing(bytes: &[u8], needs: &Needs, more_places: isize, more_list: isize) -> Vec<String> {
    let mut places = vec![0; longer(needs.places, more_places)];
    let mut list = vec![0; longer(needs.list, more_list)];
    let answer = draw(bytes, &mut places, &mut list);
    let checked = check(bytes, &places, &list);
    places.truncate(answer.map_or(0, |_| needs.places));
    let mut lines = vec![shown("strip_draw", answer, bytes_of(&places))];
    if !answer.is_err_and(|refusal| refusal.number == NO_DRAWING) {
        lines.push(checked_line(checked));
    }
    lines
}

/// The line for checking places and a list that are made of one byte.
fn checking(bytes: &[u8], needs: &Needs, byte: u8) -> String {
    let places = vec![u16::from_le_bytes([byte; 2]); needs.places];
    let list = vec![i32::from_le_bytes([byte; 4]); needs.list];
    let answer = check(bytes, &places, &list);
    checked_line(answer)
}

/// The line for what the checker says.
fn checked_line(answer: Result<bool, Refusal>) -> String {
    format!("strip_check {:016x}", number(answer.map(u32::from)))
}

/// The line for the minimum width of a sheet.
fn narrowest(bytes: &[u8]) -> String {
    let answer = minimum_width(bytes);
    let second = answer.map_or(0, |minimum| u64::from(minimum.width) << 48);
    let word = second + number(answer.map(|minimum| minimum.total));
    format!("strip_narrowest {word:016x}")
}

/// Widths, and the length of the slice for their totals.
type List = (Vec<u32>, usize);

/// Lists of widths: none; three in slices of about their length; and such as are refused, for a width
/// that is too great before the slice that is too short, and for their length before their widths.
fn lists() -> Vec<List> {
    let (good, too_many) = (vec![4095, 0, 4095], vec![4096; WIDTHS_LIMIT + 1]);
    let mut lists = vec![(Vec::new(), 0)];
    lists.extend(MORE.map(|more| (good.clone(), longer(good.len(), more))));
    lists.push((vec![0, 4096], 1));
    lists.push((too_many, WIDTHS_LIMIT + 1));
    lists
}

/// The line for the totals of a sheet at widths.
fn entries(bytes: &[u8], (widths, length): &List) -> String {
    let mut slice = vec![0; *length];
    let answer = totals(bytes, widths, &mut slice);
    slice.truncate(answer.unwrap_or(0));
    let written = slice.iter().flat_map(|entry| entry.to_le_bytes());
    let count = answer.map(|count| count as u32);
    shown("strip_totals", count, written.collect())
}

/// The line for an answer and the bytes of the elements written.
fn shown(name: &str, answer: Result<u32, Refusal>, written: Vec<u8>) -> String {
    let written = sum(written.into_iter());
    format!("{name} {:016x} {written:08x}", number(answer))
}

/// The bytes of 16-bit numbers.
fn bytes_of(numbers: &[u16]) -> Vec<u8> {
    numbers.iter().flat_map(|n| n.to_le_bytes()).collect()
}

/// An answer without a second value as one number: that of the refusal · 2³² + value.
fn number(answer: Result<u32, Refusal>) -> u64 {
    match answer {
        Ok(value) => value.into(),
        Err(refusal) => (u64::from(refusal.number) << 32) + refusal.offset as u64,
    }
}

/// A sum of bytes (FNV-1a).
fn sum(bytes: impl Iterator<Item = u8>) -> u32 {
    let add = |sum: u32, byte: u8| (sum ^ u32::from(byte)).wrapping_mul(16_777_619);
    bytes.fold(2_166_136_261, add)
}
