//! The second implementation's reader and writer of coordinate files, against the words of document 02
//! written out by hand.

mod common;

use common::{read_file_checked, write_file_checked};
use second::coordinates::{read, write, NUMBER_LIMIT, PLACE_LIMIT};
use second::refusal::Refusal;
use strip_tests::document;
use strip_tests::files::{
    any, encode_file, full, longest, side_by_side, Rows, GOOD, LONGEST, REFUSED,
};
use strip_tests::random::Random;

/// The file with one node, in bytes.
const ONE_NODE: [u8; 6] = [0x53, 0x44, 0x31, 1, 1, 0];

/// The refusal of a slice that is too short.
const TOO_SHORT: Refusal = Refusal {
    number: 7,
    offset: 0,
};

/// Reads the bytes that follow the signature.
fn read_behind_signature(bytes: &[u8]) -> Result<Vec<u16>, (u32, usize)> {
    read_file_checked(&[&[0x53, 0x44, 0x31], bytes].concat())
}

/// Checks that a drawing is read from its file, and the file written from its list.
fn check_good(rows: &Rows) {
    let (numbers, bytes) = (rows.numbers(), rows.bytes());
    assert!(numbers.len() <= NUMBER_LIMIT && bytes.len() <= LONGEST);
    assert_eq!(read_file_checked(&bytes).as_ref(), Ok(&numbers));
    assert_eq!(write_file_checked(&numbers).as_ref(), Ok(&bytes));
}

#[test]
fn files_by_hand_are_read_and_written() {
    for (name, bytes, numbers) in GOOD {
        assert_eq!(read_file_checked(bytes), Ok(numbers.to_vec()), "{name}");
        assert_eq!(write_file_checked(numbers), Ok(bytes.to_vec()), "{name}");
    }
}

#[test]
fn reader_refuses_as_in_the_table() {
    for (name, bytes, refusal) in REFUSED {
        assert_eq!(read_file_checked(bytes), Err(refusal), "{name}");
    }
    let mut numbers = [0xa5a5; 2];
    assert_eq!(read(&ONE_NODE, &mut numbers), Err(TOO_SHORT));
    assert_eq!(numbers, [0xa5a5; 2]);
    assert_eq!(read(&ONE_NODE, &mut []), Err(TOO_SHORT));
}

#[test]
fn writer_refuses_at_indexes() {
    assert_eq!(write_file_checked(&[]), Err((1, 0)));
    assert_eq!(write_file_checked(&[1, 2, 5]), Err((1, 3)));
    assert_eq!(write_file_checked(&[0]), Err((4, 0)));
    assert_eq!(write_file_checked(&[1, 2, 5, 5]), Err((4, 3)));
    assert_eq!(write_file_checked(&[1, 2, 5, 4]), Err((4, 3)));
    assert_eq!(write_file_checked(&[1, 2, 5, 4096]), Err((4, 3)));
    assert_eq!(write_file_checked(&[1, 2, 4095, 4096]), Err((4, 3)));
    assert_eq!(write_file_checked(&[1, 1, 65535]), Err((4, 2)));
    assert_eq!(write_file_checked(&[1, 1, 0, 0]), Err((6, 3)));
    let mut bytes = [0xa5; 5];
    assert_eq!(write(&[1, 1, 0], &mut bytes), Err(TOO_SHORT));
    assert_eq!(bytes, [0xa5; 5]);
    assert_eq!(write(&[1, 1, 0], &mut []), Err(TOO_SHORT));
}

#[test]
fn slices_may_be_exactly_long_enough() {
    let mut numbers = [0xa5a5; 3];
    assert_eq!(read(&ONE_NODE, &mut numbers), Ok(3));
    assert_eq!(numbers, [1, 1, 0]);
    let mut bytes = [0xa5; 6];
    assert_eq!(write(&[1, 1, 0], &mut bytes), Ok(6));
    assert_eq!(bytes, ONE_NODE);
}

#[test]
fn fewer_than_three_bytes_are_always_refusal_1() {
    assert_eq!(read_file_checked(&[]), Err((1, 0)));
    assert_eq!(read_file_checked(&[0x00]), Err((1, 1)));
    assert_eq!(read_file_checked(&[0x53, 0x50]), Err((1, 2)));
    assert_eq!(read_file_checked(&[0x53, 0x44, 0x32]), Err((2, 0)));
    assert_eq!(read_file_checked(&[0x53, 0x44, 0x31]), Err((1, 3)));
}

#[test]
fn the_first_fault_is_told() {
    assert_eq!(read_behind_signature(&[1, 2, 0, 0x80]), Err((1, 7)));
    assert_eq!(read_behind_signature(&[1, 2, 0, 0x80, 0x00]), Err((3, 6)));
    assert_eq!(read_behind_signature(&[1, 2, 0, 0, 0x80]), Err((4, 6)));
    assert_eq!(read_behind_signature(&[65, 0x80, 0x80]), Err((4, 3)));
    assert_eq!(read_behind_signature(&[1, 65, 0x80, 0x80]), Err((4, 4)));
    let mut none = [];
    let extra = Refusal {
        number: 6,
        offset: 6,
    };
    assert_eq!(read(&[&ONE_NODE[..], &[0]].concat(), &mut none), Err(extra));
}

#[test]
fn every_distance_goes_as_far_as_the_greatest_place() {
    for left in 0..=PLACE_LIMIT {
        let distance = |n| read_file_checked(&encode_file(&[1, 2, left, n]));
        let refused = Err((4, encode_file(&[1, 2, left]).len()));
        let most = PLACE_LIMIT - left;
        assert_eq!(distance(0), refused);
        assert_eq!(distance(most + 1), refused);
        assert_eq!(distance(16383), refused);
        if most > 0 {
            assert_eq!(distance(1), Ok(vec![1, 2, left, left + 1]));
            assert_eq!(distance(most), Ok(vec![1, 2, left, PLACE_LIMIT]));
        }
    }
}

#[test]
fn limit_of_all_nodes_is_tested_at_the_count() {
    let file = |counts: &[u16]| {
        let row = |&count: &u16| (0..count).collect();
        let bytes = Rows(counts.iter().map(row).collect()).bytes();
        read_file_checked(&bytes).map(|numbers| numbers.len())
    };
    assert_eq!(file(&[64; 4]), Ok(1 + 4 + 256));
    assert_eq!(file(&[4; 64]), Ok(NUMBER_LIMIT));
    assert_eq!(file(&[64, 64, 64, 63, 1]), Ok(1 + 5 + 256));
    assert_eq!(file(&[64, 64, 64, 63, 2]), Err((4, 4 + 3 * 65 + 64)));
    assert_eq!(file(&[64, 64, 64, 64, 1]), Err((4, 4 + 4 * 65)));
    assert_eq!(file(&[65]), Err((4, 4)));
    assert_eq!(file(&[1; 65]), Err((4, 3)));
}

#[test]
fn drawings_are_read_and_written() {
    let mut random = Random::new(61);
    for _ in 0..4000 {
        check_good(&any(&mut random));
    }
    for layers in 1..=64 {
        check_good(&full(&mut random, layers));
    }
    for first in [0, 1, 127, 128, 4032] {
        check_good(&side_by_side(first));
    }
    assert_eq!(side_by_side(4032).numbers().last(), Some(&PLACE_LIMIT));
}

#[test]
fn the_longest_file_has_580_bytes() {
    check_good(&longest());
    assert_eq!(longest().bytes().len(), LONGEST);
}

#[test]
fn drawing_of_the_first_sheet_is_a_list() {
    let rows = Rows::of(&document::first().sheet(), &[0, 1, 0]);
    assert_eq!(rows.numbers(), GOOD[0].2);
    assert_eq!(rows.bytes(), GOOD[0].1);
}
