//! Reading and writing by the library and the second implementation.

mod answers;

use answers::Answers;
use compare::{scale, Format, Library, Proved};
use strip_tests::document;
use strip_tests::draft::encode;
use strip_tests::generate;
use strip_tests::mutation::{changed, near_list, truncated};
use strip_tests::random::Random;

#[test]
fn good_sheets_are_read_and_written_back() {
    let mut random = Random::new(171);
    let mut answers = Answers::default();
    let any = (0..20_000 * scale()).map(|_| generate::good(&mut random));
    for draft in any.chain((1..=64).map(generate::fullest)) {
        let bytes = draft.bytes();
        let read = compare::read(&Proved, Format::Sheet, &bytes);
        assert_eq!(read, Ok(draft.numbers()));
        assert_eq!(
            compare::write(&Proved, Format::Sheet, &draft.numbers()),
            Ok(bytes)
        );
        answers.count(&read);
    }
    answers.check("good sheets read and written", &[(0, 20_064)]);
}

#[test]
fn number_lists_near_good_ones_are_written() {
    let mut random = Random::new(172);
    let mut answers = Answers::default();
    for _ in 0..40_000 * scale() {
        let good = generate::good(&mut random).numbers();
        let numbers = near_list(&mut random, good);
        let written = compare::write(&Proved, Format::Sheet, &numbers);
        answers.count(&written);
        if let Ok(bytes) = written {
            assert_eq!(compare::read(&Proved, Format::Sheet, &bytes), Ok(numbers));
        }
    }
    let least = [(0, 4_000), (1, 4_000), (4, 8_000), (5, 500), (6, 4_000)];
    answers.check("number lists written", &least);
}

#[test]
fn every_number_list_near_those_of_the_document_is_written() {
    let mut answers = Answers::default();
    let changes = |n: u16| vec![0, n.wrapping_add(1), n.wrapping_sub(1), 4096, 65535];
    for (_, draft) in document::sheets() {
        let numbers = draft.numbers();
        let mut lists = truncated(&numbers);
        lists.extend(changed(&numbers, changes));
        lists.push([&numbers[..], &[1]].concat());
        for list in lists {
            answers.count(&compare::write(&Proved, Format::Sheet, &list));
        }
    }
    let least = [(0, 100), (1, 100), (4, 500), (5, 5), (6, 12)];
    answers.check("number lists near document 01's", &least);
}

#[test]
fn bytes_near_good_ones_are_read() {
    let mut random = Random::new(173);
    let mut answers = Answers::default();
    for _ in 0..40_000 * scale() {
        let good = generate::good(&mut random).numbers();
        let mut numbers = near_list(&mut random, good);
        for n in &mut numbers {
            *n = (*n).min(16383);
        }
        let mut bytes = encode(&numbers);
        if random.once_in(3) {
            let i = random.index(bytes.len());
            bytes[i] = random.within(0..=255) as u8;
        }
        answers.count(&compare::read(&Proved, Format::Sheet, &bytes));
    }
    let least = [
        (0, 3_000),
        (1, 4_000),
        (2, 1_000),
        (3, 1_000),
        (4, 9_000),
        (5, 2_000),
        (6, 3_000),
    ];
    answers.check("byte strings read", &least);
}

#[test]
fn slices_of_every_length() {
    let mut random = Random::new(174);
    let mut answers = Answers::default();
    for _ in 0..300 * scale() {
        let draft = generate::small(&mut random);
        answers.count_lengths(&Proved, Format::Sheet, &draft.numbers(), &draft.bytes());
    }
    answers.check("slices", &[(0, 1_800), (7, 20_000)]);
}

#[test]
fn inputs_and_slices_longer_than_any_sheet() {
    let mut random = Random::new(175);
    let mut answers = Answers::default();
    for layers in 1..=64 {
        let draft = generate::fullest(layers);
        for length in [1, 2, 2_055, 5_122, 70_000] {
            let tail: Vec<u16> = (0..length).map(|_| random.within(0..=1)).collect();
            let numbers = [draft.numbers(), tail].concat();
            answers.count(&compare::write(&Proved, Format::Sheet, &numbers));
            answers.count(&compare::read(&Proved, Format::Sheet, &encode(&numbers)));
        }
        let (mut numbers, mut bytes) = (vec![77; 100_000], vec![77; 100_000]);
        let read = Proved.read(&draft.bytes(), &mut numbers);
        assert_eq!(read, Ok(draft.numbers().len()));
        assert!(numbers[draft.numbers().len()..].iter().all(|&n| n == 77));
        let written = Proved.write(&draft.numbers(), &mut bytes);
        assert_eq!(written, Ok(draft.bytes().len()));
        assert!(bytes[draft.bytes().len()..].iter().all(|&byte| byte == 77));
        answers.count(&read);
    }
    answers.check("long inputs and slices", &[(0, 64), (6, 640)]);
}
