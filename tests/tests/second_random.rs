//! The second implementation's reader and writer on many sheets: random good ones, damaged ones, and
//! the fullest ones.

mod common;

use common::{read_checked, write_checked};
use second::refusal::Refusal;
use second::sheet::{read, write, NUMBER_LIMIT};
use strip_tests::draft::Draft;
use strip_tests::generate::{fullest, good, largest, LONGEST};
use strip_tests::random::Random;

/// How many random good sheets a test takes.
const SHEETS: usize = 4000;

/// Checks that a good sheet is read and written, and is refused where the slice is too short.
fn check_good(draft: &Draft) {
    let (numbers, bytes) = (draft.numbers(), draft.bytes());
    assert!(numbers.len() <= NUMBER_LIMIT && bytes.len() <= LONGEST);
    assert_eq!(read_checked(&bytes).as_ref(), Ok(&numbers));
    assert_eq!(write_checked(&numbers).as_ref(), Ok(&bytes));
    let too_short = Err(Refusal {
        number: 7,
        offset: 0,
    });
    let mut few_numbers = vec![0xa5a5; numbers.len() - 1];
    assert_eq!(read(&bytes, &mut few_numbers), too_short);
    assert!(few_numbers.iter().all(|&n| n == 0xa5a5));
    let mut few_bytes = vec![0xa5; bytes.len() - 1];
    assert_eq!(write(&numbers, &mut few_bytes), too_short);
    assert!(few_bytes.iter().all(|&byte| byte == 0xa5));
}

#[test]
fn random_good_sheets_are_read_and_written() {
    let mut random = Random::new(1);
    let mut most_numbers = 0;
    for _ in 0..SHEETS {
        let draft = good(&mut random);
        check_good(&draft);
        most_numbers = most_numbers.max(draft.numbers().len());
    }
    assert!(most_numbers > 1000, "some of the sheets are large");
}

#[test]
fn cut_off_sheets_end_too_early() {
    let mut random = Random::new(2);
    for _ in 0..SHEETS {
        let draft = good(&mut random);
        let bytes = draft.bytes();
        let end = random.index(bytes.len());
        assert_eq!(read_checked(&bytes[..end]), Err((1, end)));
        let numbers = draft.numbers();
        let end = random.index(numbers.len());
        assert_eq!(write_checked(&numbers[..end]), Err((1, end)));
    }
}

#[test]
fn damaged_bytes_are_refused_or_correspond_to_their_numbers() {
    let mut random = Random::new(3);
    let mut refused = 0;
    for _ in 0..SHEETS {
        let mut bytes = good(&mut random).bytes();
        for _ in 0..random.within(1..=3) {
            let i = random.index(bytes.len());
            bytes[i] = random.within(0..=255) as u8;
        }
        match read_checked(&bytes) {
            Ok(numbers) => assert_eq!(write_checked(&numbers).as_ref(), Ok(&bytes)),
            Err((number, offset)) => {
                assert!((1..=6).contains(&number));
                assert!(offset <= bytes.len());
                refused += 1;
            }
        }
    }
    assert!(refused > SHEETS / 4 && refused < SHEETS);
}

#[test]
fn damaged_lists_are_refused_or_correspond_to_their_bytes() {
    let mut random = Random::new(4);
    let mut refused = 0;
    for _ in 0..SHEETS {
        let mut numbers = good(&mut random).numbers();
        let i = random.index(numbers.len());
        numbers[i] = match random.within(0..=2) {
            0 => random.within(0..=3),
            1 => random.within(0..=4096),
            _ => random.within(0..=65535),
        };
        match write_checked(&numbers) {
            Ok(bytes) => assert_eq!(read_checked(&bytes).as_ref(), Ok(&numbers)),
            Err((number, offset)) => {
                assert!([1, 4, 5, 6].contains(&number));
                assert!(offset <= numbers.len());
                refused += 1;
            }
        }
    }
    assert!(refused > SHEETS / 4 && refused < SHEETS);
}

#[test]
fn random_bytes_never_panic() {
    let mut random = Random::new(5);
    for _ in 0..SHEETS {
        let mut bytes = vec![0x53, 0x50, 0x31];
        for _ in 0..random.within(0..=40) {
            bytes.push(random.within(0..=2) as u8 + 126 * random.within(0..=1) as u8);
        }
        if let Ok(numbers) = read_checked(&bytes) {
            assert_eq!(write_checked(&numbers), Ok(bytes));
        }
    }
}

#[test]
fn fullest_sheets_are_good_and_four_layers_make_the_largest() {
    for layers in 1..=64 {
        check_good(&fullest(layers));
    }
    assert_eq!(largest().numbers().len(), 2559);
    assert_eq!(largest().bytes().len(), 3068);
}
