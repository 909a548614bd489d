//! The second implementation's reader and writer of sheets, against the examples and limits of
//! document 01 written out by hand.

mod common;

use common::{read_checked, write_checked};
use second::refusal::Refusal;
use second::sheet::{read, write};

/// The first sheet of document 01 in bytes.
const FIRST_BYTES: [u8; 18] = [
    0x53, 0x50, 0x31, 5, 2, 2, 1, 0, 1, 2, 1, 1, 1, 0, 1, 2, 1, 0,
];
/// The first sheet of document 01 in numbers.
const FIRST_NUMBERS: [u16; 15] = [5, 2, 2, 1, 0, 1, 2, 1, 1, 1, 0, 1, 2, 1, 0];
/// A sheet with one node, in bytes.
const ONE_NODE: [u8; 7] = [0x53, 0x50, 0x31, 0, 1, 1, 0];

/// The refusal of a slice that is too short.
const TOO_SHORT: Refusal = Refusal {
    number: 7,
    offset: 0,
};

/// Reads the bytes that follow the signature.
fn read_behind_signature(bytes: &[u8]) -> Result<Vec<u16>, (u32, usize)> {
    read_checked(&[&[0x53, 0x50, 0x31], bytes].concat())
}

#[test]
fn first_sheet_is_read_and_written() {
    assert_eq!(read_checked(&FIRST_BYTES), Ok(FIRST_NUMBERS.to_vec()));
    assert_eq!(write_checked(&FIRST_NUMBERS), Ok(FIRST_BYTES.to_vec()));
}

#[test]
fn sheets_on_either_side_of_each_edge_are_read_and_written() {
    let stair = [3, 3, 2, 1, 0, 2, 1, 0, 2, 1, 0, 2, 1, 2, 1, 0, 2, 2, 1, 0];
    let stair_straight = [2, 3, 2, 1, 0, 2, 1, 0, 2, 1, 0, 2, 1, 2, 1, 0, 2, 2, 1, 1];
    let two_over_three = [2, 2, 2, 1, 1, 3, 1, 0, 1, 0, 2, 1, 1, 1, 0, 1, 2, 3, 0];
    let one_over_three = [
        2, 2, 1, 3, 1, 0, 1, 0, 3, 1, 1, 1, 0, 1, 1, 3, 0, 1, 1, 3, 0,
    ];
    let sheets: [&[u8]; 5] = [
        &stair,
        &stair_straight,
        &two_over_three,
        &one_over_three,
        &[0, 1, 1, 0],
    ];
    for small in sheets {
        let numbers: Vec<u16> = small.iter().map(|&n| n.into()).collect();
        let bytes = [&[0x53, 0x50, 0x31], small].concat();
        assert_eq!(read_checked(&bytes), Ok(numbers.clone()));
        assert_eq!(write_checked(&numbers), Ok(bytes));
    }
}

#[test]
fn crossing_straight_edges_take_two_bytes_for_the_width() {
    let bytes = [
        0x53, 0x50, 0x31, 0xff, 0x1f, 2, 2, 1, 0, 2, 1, 0, 2, 1, 1, 2, 1, 1, 2, 1, 1,
    ];
    let numbers = [4095, 2, 2, 1, 0, 2, 1, 0, 2, 1, 1, 2, 1, 1, 2, 1, 1];
    assert_eq!(read_checked(&bytes), Ok(numbers.to_vec()));
    assert_eq!(write_checked(&numbers), Ok(bytes.to_vec()));
}

#[test]
fn reader_refuses_as_in_the_table() {
    assert_eq!(read_checked(&[0x53, 0x50]), Err((1, 2)));
    assert_eq!(read_checked(&[0x53, 0x51, 0x31]), Err((2, 0)));
    assert_eq!(read_behind_signature(&[0x80, 0x00]), Err((3, 3)));
    assert_eq!(read_behind_signature(&[5, 0]), Err((4, 4)));
    assert_eq!(read_behind_signature(&[5, 1, 2, 3, 2]), Err((5, 7)));
    assert_eq!(read_behind_signature(&[0, 1, 1, 0, 0]), Err((6, 7)));
    let mut numbers = [0xa5a5; 3];
    assert_eq!(read(&ONE_NODE, &mut numbers), Err(TOO_SHORT));
    assert_eq!(numbers, [0xa5a5; 3]);
    assert_eq!(read(&ONE_NODE, &mut []), Err(TOO_SHORT));
    let no_drawing = read_behind_signature(&[0, 1, 2, 1, 0, 0]);
    assert_eq!(no_drawing, Ok(vec![0, 1, 2, 1, 0, 0]));
}

#[test]
fn writer_refuses_at_indexes() {
    assert_eq!(write_checked(&[]), Err((1, 0)));
    assert_eq!(write_checked(&[5, 1]), Err((1, 2)));
    assert_eq!(write_checked(&[5, 0]), Err((4, 1)));
    assert_eq!(write_checked(&[65535]), Err((4, 0)));
    assert_eq!(write_checked(&[5, 1, 2, 3, 2]), Err((5, 4)));
    assert_eq!(write_checked(&[300, 1, 2, 300, 299]), Err((5, 4)));
    assert_eq!(write_checked(&[0, 1, 1, 0, 0]), Err((6, 4)));
    let mut bytes = [0xa5; 6];
    assert_eq!(write(&[0, 1, 1, 0], &mut bytes), Err(TOO_SHORT));
    assert_eq!(bytes, [0xa5; 6]);
    assert_eq!(write(&[0, 1, 1, 0], &mut []), Err(TOO_SHORT));
}

#[test]
fn slices_may_be_exactly_long_enough() {
    let mut numbers = [0xa5a5; 4];
    assert_eq!(read(&ONE_NODE, &mut numbers), Ok(4));
    assert_eq!(numbers, [0, 1, 1, 0]);
    let mut bytes = [0xa5; 7];
    assert_eq!(write(&[0, 1, 1, 0], &mut bytes), Ok(7));
    assert_eq!(bytes, ONE_NODE);
}

#[test]
fn widths_given_in_bytes() {
    let taken = read_behind_signature(&[0xff, 0x1f, 1, 1, 0]);
    assert_eq!(taken, Ok(vec![4095, 1, 1, 0]));
    let past = read_behind_signature(&[0x80, 0x20, 1, 1, 0]);
    assert_eq!(past, Err((4, 3)));
    let bad_form = read_behind_signature(&[0x80, 0x80, 1, 1, 0]);
    assert_eq!(bad_form, Err((3, 3)));
}

#[test]
fn fewer_than_three_bytes_are_always_refusal_1() {
    assert_eq!(read_checked(&[]), Err((1, 0)));
    assert_eq!(read_checked(&[0x00]), Err((1, 1)));
    assert_eq!(read_checked(&[0x00, 0x00]), Err((1, 2)));
    assert_eq!(read_checked(&[0x00, 0x00, 0x00]), Err((2, 0)));
    assert_eq!(read_checked(&[0x53, 0x50, 0x31]), Err((1, 3)));
}

#[test]
fn the_first_fault_is_told() {
    assert_eq!(read_checked(&[0x53, 0x51, 0x31, 0x80, 0x80]), Err((2, 0)));
    assert_eq!(read_behind_signature(&[5, 0x80, 0x00]), Err((3, 4)));
    assert_eq!(read_behind_signature(&[5, 0x80]), Err((1, 5)));
    let four_then_three = read_behind_signature(&[0x80, 0x20, 0x80, 0x80]);
    assert_eq!(four_then_three, Err((4, 3)));
    let four_then_five = read_behind_signature(&[5, 1, 2, 0x80, 0x20, 1, 0]);
    assert_eq!(four_then_five, Err((4, 6)));
    let above_both = read_behind_signature(&[5, 1, 2, 0xff, 0x1f, 0x80, 0x20, 0]);
    assert_eq!(above_both, Err((4, 8)));
    let five_then_extra = read_behind_signature(&[5, 1, 2, 3, 1, 0, 0]);
    assert_eq!(five_then_extra, Err((5, 7)));
    let mut none = [];
    let extra = Refusal {
        number: 6,
        offset: 7,
    };
    assert_eq!(read(&[&ONE_NODE[..], &[0]].concat(), &mut none), Err(extra));
}

#[test]
fn limits_of_small_numbers() {
    let one_past: [(&[u16], usize); 12] = [
        (&[4096, 1, 1, 0], 0),
        (&[0, 0, 1, 0], 1),
        (&[0, 65, 1, 0], 1),
        (&[0, 1, 0, 0], 2),
        (&[0, 1, 65, 0], 2),
        (&[0, 1, 2, 0, 0, 0], 3),
        (&[0, 1, 2, 4096, 0, 0], 3),
        (&[0, 1, 2, 1, 4096, 0], 4),
        (&[0, 1, 1, 513], 3),
        (&[0, 1, 1, 1, 1, 1, 1, 0], 4),
        (&[0, 2, 1, 1, 1, 0, 1, 1, 0], 5),
        (&[0, 2, 1, 1, 1, 2, 1, 1, 0], 5),
    ];
    for (numbers, index) in one_past {
        assert_eq!(write_checked(numbers), Err((4, index)), "{numbers:?}");
    }
    let at_limit: [&[u16]; 3] = [
        &[4095, 1, 2, 4095, 4095, 0],
        &[0, 1, 2, 1, 4095, 0],
        &[0, 1, 2, 4095, 0, 0],
    ];
    for numbers in at_limit {
        assert!(write_checked(numbers).is_ok(), "{numbers:?}");
    }
}

#[test]
fn limits_of_edge_ends() {
    let edge = |layer, upper, lower, kind| {
        let numbers = [9, 3, 1, 2, 1, 0, 1, 1, layer, upper, lower, kind];
        write_checked(&numbers).map(|bytes| bytes.len())
    };
    assert_eq!(edge(1, 1, 2, 0), Ok(15));
    assert_eq!(edge(2, 2, 1, 1), Ok(15));
    assert_eq!(edge(0, 1, 1, 0), Err((4, 8)));
    assert_eq!(edge(3, 1, 1, 0), Err((4, 8)));
    assert_eq!(edge(1, 0, 1, 0), Err((4, 9)));
    assert_eq!(edge(1, 2, 1, 0), Err((4, 9)));
    assert_eq!(edge(1, 1, 0, 0), Err((4, 10)));
    assert_eq!(edge(1, 1, 3, 0), Err((4, 10)));
    assert_eq!(edge(2, 2, 2, 0), Err((4, 10)));
    assert_eq!(edge(1, 1, 1, 2), Err((4, 11)));
}

#[test]
fn limit_of_all_nodes_is_tested_at_the_count() {
    let layer = |count: u8| {
        let mut bytes = vec![count];
        bytes.extend([1, 0].repeat(usize::from(count) - 1));
        bytes
    };
    let sheet = |counts: &[u8]| {
        let layers: Vec<u8> = counts.iter().flat_map(|&count| layer(count)).collect();
        let bytes = [&[0, counts.len() as u8], &layers[..], &[0]].concat();
        read_behind_signature(&bytes).map(|numbers| numbers.len())
    };
    assert_eq!(sheet(&[64, 64, 64, 64]), Ok(511));
    assert_eq!(sheet(&[64, 64, 64, 63, 1]), Ok(510));
    assert_eq!(sheet(&[64, 64, 64, 63, 2]), Err((4, 5 + 3 * 127 + 125)));
    assert_eq!(sheet(&[64, 64, 64, 64, 1]), Err((4, 5 + 4 * 127)));
    assert_eq!(sheet(&[64, 64, 64, 64, 64, 64]), Err((4, 5 + 4 * 127)));
    assert_eq!(sheet(&[1; 64]), Ok(67));
    assert_eq!(sheet(&[1; 65]), Err((4, 4)));
}
