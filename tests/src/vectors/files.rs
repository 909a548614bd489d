//! Sheets and coordinate files read and written: good ones, damaged ones, and number lists near good ones.

use crate::cases::Call;
use crate::damage::DAMAGES;
use crate::draft::Draft;
use crate::files::{any, encode_file, Rows};
use crate::generate::{good, small};
use crate::mutation::near_list;
use crate::random::Random;
use second::solver::solve;

use super::calls::{draw, narrow, noted, read, read_file, totals, write, write_file};
use super::Vector;

/// Sheets and files at random have no more bytes.
const SHORT: usize = 200;

/// The vectors.
pub fn vectors() -> Vec<Vector> {
    let mut random = Random::new(39);
    let mut vectors = sheets(&mut random);
    vectors.extend(damaged_sheets(&mut random));
    vectors.extend(places());
    vectors.extend(drawings(&mut random));
    vectors.extend(damaged_files(&mut random));
    vectors
}

/// Random sheets with any numbers within the limits, and lists near theirs.
fn sheets(random: &mut Random) -> Vec<Vector> {
    let (mut whole, mut near) = (Vec::new(), Vec::new());
    for _ in 0..20 {
        let draft = short_sheet(random);
        let numbers = draft.numbers();
        whole.extend([read(&draft.bytes()), write(&numbers)]);
        for _ in 0..2 {
            near.push(write(&near_list(random, numbers.clone())));
        }
    }
    let mut vectors = noted("sheets with any numbers within the limits", whole);
    vectors.extend(noted("number lists near good ones", near));
    vectors
}

/// A random sheet with few bytes.
fn short_sheet(random: &mut Random) -> Draft {
    loop {
        let draft = good(random);
        if draft.bytes().len() <= SHORT {
            return draft;
        }
    }
}

/// Damaged sheets: all are read, and some are drawn, narrowed and drawn at other widths.
fn damaged_sheets(random: &mut Random) -> Vec<Vector> {
    let mut vectors = Vec::new();
    for (name, damage) in DAMAGES {
        let mut calls = Vec::new();
        for i in 0..6 {
            let bytes = match i % 2 {
                0 => small(random).bytes(),
                _ => short_sheet(random).bytes(),
            };
            let damaged = damage(random, &bytes);
            calls.push(read(&damaged));
            if i == 0 {
                calls.extend([draw(&damaged), narrow(&damaged)]);
                calls.push(totals(&damaged, &[9, 20]));
            }
        }
        vectors.extend(noted(&format!("damaged sheets: {name}"), calls));
    }
    vectors
}

/// Places and distances of coordinate files on either side of each limit.
fn places() -> Vec<Vector> {
    let mut calls = Vec::new();
    for place in [0, 4094, 4095, 4096] {
        let first = [1, 1, place];
        calls.extend([read_file(&encode_file(&first)), write_file(&first)]);
        calls.push(write_file(&[1, 2, 4094, place]));
    }
    for distance in [0, 1, 2] {
        calls.push(read_file(&encode_file(&[1, 2, 4094, distance])));
    }
    noted("places on either side of each limit", calls)
}

/// The coordinate files of the drawings of random sheets, read and written.
fn drawings(random: &mut Random) -> Vec<Vector> {
    let mut calls: Vec<Call> = Vec::new();
    for _ in 0..24 {
        let sheet = small(random).sheet();
        if let Some(found) = solve(&sheet) {
            let rows = Rows::of(&sheet, &found.places);
            calls.extend([read_file(&rows.bytes()), write_file(&rows.numbers())]);
        }
    }
    noted("coordinate files of drawings", calls)
}

/// Damaged coordinate files, and lists near those of good ones.
fn damaged_files(random: &mut Random) -> Vec<Vector> {
    let mut vectors = Vec::new();
    for (name, damage) in DAMAGES {
        let mut calls = Vec::new();
        for _ in 0..4 {
            let rows = short_rows(random);
            calls.push(read_file(&damage(random, &rows.bytes())));
        }
        vectors.extend(noted(&format!("damaged coordinate files: {name}"), calls));
    }
    let near = (0..30).map(|_| {
        let numbers = short_rows(random).numbers();
        write_file(&near_list(random, numbers))
    });
    let near: Vec<Call> = near.collect();
    vectors.extend(noted(
        "number lists near those of good coordinate files",
        near,
    ));
    vectors
}

/// A random drawing with few bytes.
fn short_rows(random: &mut Random) -> Rows {
    loop {
        let rows = any(random);
        if rows.bytes().len() <= SHORT {
            return rows;
        }
    }
}
