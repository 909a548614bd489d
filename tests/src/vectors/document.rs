//! Every example of documents 01 and 02 whose request has landed.

use crate::cases::Call;
use crate::document::{
    crossing, first, one_over_three, sheets, stair, traced, FIRST_LIST, NO_DRAWING, ONE_NODE,
    REFUSED,
};
use crate::files::{GOOD, REFUSED as REFUSED_FILES};
use crate::traps::traps;
use second::certificate;
use second::sheet::{PLAIN, STRAIGHT};

use super::calls::{check, draw, narrow, noted, read, read_file, totals, write, write_file};
use super::Vector;

/// The examples, in the documents' order.
pub fn examples() -> Vec<Vector> {
    let mut vectors = Vec::new();
    vectors.extend(refusals());
    vectors.extend(drawings());
    vectors.extend(lists());
    vectors.extend(widths());
    vectors.extend(narrowest());
    vectors.extend(files());
    vectors.extend(many_widths());
    vectors
}

/// The table of refusals.
fn refusals() -> Vec<Vector> {
    let mut calls = Vec::new();
    for (_, bytes) in REFUSED {
        calls.extend([read(bytes), draw(bytes), narrow(bytes)]);
        calls.extend([check(bytes, &[], &[]), totals(bytes, &[5])]);
    }
    calls.push(Call::Draw {
        bytes: ONE_NODE.to_vec(),
        places: 0,
        list: 2,
    });
    calls.push(draw(&NO_DRAWING));
    noted("document 01, the table of refusals", calls)
}

/// The sheets on either side of each edge and the traps, read, written and drawn.
fn drawings() -> Vec<Vector> {
    let mut vectors = Vec::new();
    for (name, draft) in sheets() {
        let bytes = draft.bytes();
        let calls = [read(&bytes), write(&draft.numbers()), draw(&bytes)];
        vectors.extend(noted(&format!("document 01, {name}"), calls));
    }
    for trap in traps() {
        let note = format!("document 01, a trap: {}", trap.name);
        vectors.extend(noted(&note, [draw(&trap.draft.bytes())]));
        let list = vec![0; certificate::length(&trap.draft.sheet())];
        let calls = trap
            .places
            .map(|places| check(&trap.draft.bytes(), &places, &list));
        vectors.extend(noted(&note, calls));
    }
    for traced in traced() {
        let note = format!("document 02, ticket 4, {}", traced.name);
        vectors.extend(noted(&note, [draw(&traced.draft.bytes())]));
    }
    vectors
}

/// The pull lists.
fn lists() -> Vec<Vector> {
    let (sheet, places) = (first().bytes(), [0, 1, 0]);
    let lists = [FIRST_LIST, [0; 8]].map(|list| check(&sheet, &places, &list));
    let mut vectors = noted(
        "document 01, the first sheet and its list, then zeros",
        lists,
    );
    for traced in traced() {
        let call = check(&traced.draft.bytes(), &traced.places, &traced.list);
        vectors.extend(noted(
            &format!("document 02, ticket 4, {}", traced.name),
            [call],
        ));
    }
    let note = "document 02, ticket 4: the upper node at 2, which is least and not leftmost";
    let list = [-1, 1, 0, 0, 0, 0, 1, 0, 1, 0, 0];
    let call = check(&one_over_three().bytes(), &[2, 0, 1, 2], &list);
    vectors.extend(noted(note, [call]));
    vectors
}

/// The width of 4,095, of 4,096, and one that takes more than two bytes.
fn widths() -> Vec<Vector> {
    let sheet = |width: [u8; 2]| [&ONE_NODE[..3], &width, &ONE_NODE[4..]].concat();
    let mut calls = Vec::new();
    for width in [[0xff, 0x1f], [0x80, 0x20], [0x80, 0x80]] {
        let bytes = sheet(width);
        calls.extend([read(&bytes), draw(&bytes), narrow(&bytes)]);
    }
    noted("document 01, W as ff 1f, 80 20 and 80 80", calls)
}

/// The sheets of document 01, whose width does not count.
fn narrowest() -> Vec<Vector> {
    let mut vectors = Vec::new();
    for (name, draft) in sheets() {
        let note = format!("document 02, ticket 2, {name}");
        vectors.extend(noted(&note, [narrow(&draft.bytes())]));
    }
    vectors
}

/// Coordinate files and their number lists, good and refused.
fn files() -> Vec<Vector> {
    let mut vectors = Vec::new();
    for (name, file, numbers) in GOOD {
        let calls = [read_file(file), write_file(numbers)];
        vectors.extend(noted(&format!("document 02, ticket 3, {name}"), calls));
    }
    for (name, file, _) in REFUSED_FILES {
        vectors.extend(noted(
            &format!("document 02, ticket 3, {name}"),
            [read_file(file)],
        ));
    }
    let note = "document 02, ticket 3, a place that is not right of its left neighbour";
    let calls = [5, 4, 0].map(|place| write_file(&[1, 2, 5, place]));
    vectors.extend(noted(note, calls));
    vectors
}

/// Sheets of document 01 at many widths, and lists of widths that are refused.
fn many_widths() -> Vec<Vector> {
    let note = |name| format!("document 02, ticket 6, {name}");
    let widths = [0, 1, 2, 3, 4];
    let mut vectors = noted(&note("stair"), [totals(&stair(2, PLAIN).bytes(), &widths)]);
    for (name, draft, widths) in [
        (
            "stair, second edge straight",
            stair(2, STRAIGHT),
            &widths[..],
        ),
        ("crossing straight edges", crossing(), &[0, 1, 4095]),
        ("first sheet", first(), &[5, 0]),
    ] {
        vectors.extend(noted(&note(name), [totals(&draft.bytes(), widths)]));
    }
    let empty = [totals(&ONE_NODE, &[]), totals(&ONE_NODE[..6], &[])];
    vectors.extend(noted(&note("a list without entries"), empty));
    let outside = [4096, 65_541, u32::MAX].map(|width| totals(&ONE_NODE, &[0, 4095, width]));
    vectors.extend(noted(&note("a width outside its limits"), outside));
    let many = [64, 65].map(|count| totals(&ONE_NODE, &vec![0; count]));
    vectors.extend(noted(&note("64 and 65 widths"), many));
    vectors
}
