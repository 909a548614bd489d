//! Coordinate files, read and written by the library and the second implementation.

mod answers;

use answers::Answers;
use compare::coordinates::file;
use compare::{read, scale, write, Format, Library, Proved};
use second::coordinates::PLACE_LIMIT;
use second::refusal::Refusal;
use strip_tests::damage::DAMAGES;
use strip_tests::draft::Draft;
use strip_tests::families::{conflicts, realistic, sizes};
use strip_tests::files::{any, encode_file, full, longest, side_by_side, Rows, GOOD, REFUSED};
use strip_tests::generate;
use strip_tests::mutation::{byte_changes, changed, damages, near_list, truncated};
use strip_tests::random::Random;

/// The refusal with this number and offset.
fn refused<T>(number: u32, offset: usize) -> Result<T, Refusal> {
    Err(Refusal::new(number, offset))
}

/// The bytes of a layer with these places.
fn layer(places: &[u16]) -> Vec<u8> {
    Rows(vec![places.to_vec()]).bytes()
}

#[test]
fn files_by_hand() {
    for (name, bytes, numbers) in GOOD {
        assert_eq!(file(&Proved, bytes), Ok(numbers.to_vec()), "{name}");
    }
    for (name, bytes, (number, offset)) in REFUSED {
        assert_eq!(file(&Proved, bytes), refused(number, offset), "{name}");
    }
}

#[test]
fn a_place_that_is_not_right_of_its_left_neighbour() {
    assert_eq!(
        write(&Proved, Format::Coordinates, &[1, 2, 5, 6]),
        Ok(layer(&[5, 6]))
    );
    assert_eq!(
        write(&Proved, Format::Coordinates, &[1, 2, 5, 5]),
        refused(4, 3)
    );
    assert_eq!(
        write(&Proved, Format::Coordinates, &[1, 2, 5, 4]),
        refused(4, 3)
    );
    assert_eq!(
        write(&Proved, Format::Coordinates, &[2, 1, 5, 2, 0, 0]),
        refused(4, 5)
    );
}

#[test]
fn every_place_and_the_distances_that_reach_and_pass_the_greatest() {
    let mut answers = Answers::default();
    for left in 0..=PLACE_LIMIT {
        let most = PLACE_LIMIT - left;
        for distance in [0, 1, most, most + 1, 4095, 4096, 16383] {
            let answer = read(
                &Proved,
                Format::Coordinates,
                &encode_file(&[1, 2, left, distance]),
            );
            assert_eq!(answer.is_ok(), (1..=most).contains(&distance));
            answers.count(&answer);
        }
        for place in [0, left.saturating_sub(1), left, left + 1, 4095, 4096, 65535] {
            let answer = write(&Proved, Format::Coordinates, &[1, 2, left, place]);
            assert_eq!(answer.is_ok(), place > left && place <= PLACE_LIMIT);
            answers.count(&answer);
        }
    }
    let least = [(0, 16_000), (4, 30_000)];
    answers.check("files and lists with every place", &least);
}

#[test]
fn good_files_are_read_and_written_back() {
    let mut random = Random::new(181);
    let mut answers = Answers::default();
    let mut drawings = vec![side_by_side(0), side_by_side(4032), longest()];
    drawings.extend((1..=64).map(|layers| full(&mut random, layers)));
    drawings.extend((0..20_000 * scale()).map(|_| any(&mut random)));
    for rows in drawings {
        let (numbers, bytes) = (rows.numbers(), rows.bytes());
        assert_eq!(
            write(&Proved, Format::Coordinates, &numbers).as_ref(),
            Ok(&bytes)
        );
        let answer = file(&Proved, &bytes);
        assert_eq!(answer.as_ref(), Ok(&numbers));
        answers.count(&answer);
    }
    answers.check("good files read and written", &[(0, 20_067)]);
}

/// Compares drawings of a kind, each as a file with damage of every kind.
fn compare_damaged(
    kind: &str,
    (seed, count): (u64, usize),
    drawing: impl Fn(&mut Random) -> Option<Rows>,
    least: &[(usize, usize)],
) {
    let mut random = Random::new(seed);
    let mut answers = Answers::default();
    for _ in 0..count * scale() {
        let Some(rows) = drawing(&mut random) else {
            continue;
        };
        let bytes = rows.bytes();
        answers.count(&file(&Proved, &bytes));
        for (_, damage) in DAMAGES {
            answers.count(&file(&Proved, &damage(&mut random, &bytes)));
        }
    }
    answers.check(kind, least);
}

#[test]
fn damaged_files() {
    let least = [
        (0, 8_000),
        (1, 5_000),
        (2, 1_000),
        (3, 3_000),
        (4, 10_000),
        (6, 4_000),
    ];
    compare_damaged(
        "files and damaged files, random",
        (182, 4_000),
        |random| Some(any(random)),
        &least,
    );
}

#[test]
fn damaged_files_of_full_size() {
    let full = |random: &mut Random| {
        let layers = [1, 4, 8, 64][random.index(4)];
        Some(full(random, layers))
    };
    let least = [(0, 500), (1, 300), (3, 200), (4, 500), (6, 200)];
    compare_damaged(
        "files and damaged files, full size",
        (183, 300),
        full,
        &least,
    );
}

/// A sheet of a random family.
fn any_sheet(random: &mut Random) -> Draft {
    match random.within(0..=7) {
        0 => generate::tiny(random),
        1 => generate::small(random),
        2 => generate::good(random),
        3 => sizes::medium(random),
        4 => sizes::parallel(random),
        5 => realistic::any(random),
        6 => conflicts::any_spiral(random, 0),
        _ => conflicts::held(random, 0),
    }
}

/// The library's drawing of a sheet of a random family, if it has one.
fn any_drawn(random: &mut Random) -> Option<Rows> {
    let draft = any_sheet(random);
    let (mut places, mut list) = ([0; strip::MAX_PLACES], [0; strip::MAX_LIST]);
    let answer = Proved.draw(&draft.bytes(), &mut places, &mut list);
    answer.ok().map(|_| Rows::of(&draft.sheet(), &places))
}

#[test]
fn damaged_files_of_drawings() {
    let least = [
        (0, 6_000),
        (1, 3_000),
        (2, 500),
        (3, 2_000),
        (4, 8_000),
        (6, 3_000),
    ];
    compare_damaged(
        "files and damaged files, of drawings",
        (184, 4_000),
        any_drawn,
        &least,
    );
}

#[test]
fn every_damage_of_the_files_by_hand() {
    let mut answers = Answers::default();
    for (_, bytes, _) in GOOD {
        for (_, damaged) in damages(bytes, byte_changes) {
            for bytes in damaged {
                answers.count(&file(&Proved, &bytes));
            }
        }
    }
    let least = [(0, 10), (1, 30), (2, 30), (3, 20), (4, 30), (6, 10)];
    answers.check("damaged files by hand", &least);
}

#[test]
fn number_lists_near_good_ones_are_written() {
    let mut random = Random::new(185);
    let mut answers = Answers::default();
    for _ in 0..40_000 * scale() {
        let good = any(&mut random).numbers();
        let numbers = near_list(&mut random, good);
        let written = write(&Proved, Format::Coordinates, &numbers);
        answers.count(&written);
        if let Ok(bytes) = written {
            assert_eq!(read(&Proved, Format::Coordinates, &bytes), Ok(numbers));
        }
    }
    let least = [(0, 4_000), (1, 4_000), (4, 10_000), (6, 4_000)];
    answers.check("number lists of files written", &least);
}

#[test]
fn every_number_list_near_those_by_hand_is_written() {
    let mut answers = Answers::default();
    let changes = |n: u16| vec![0, n.wrapping_add(1), n.wrapping_sub(1), 4096, 65535];
    for (_, _, numbers) in GOOD {
        let mut lists = truncated(numbers);
        lists.extend(changed(numbers, changes));
        lists.push([numbers, &[1]].concat());
        for list in lists {
            answers.count(&write(&Proved, Format::Coordinates, &list));
        }
    }
    let least = [(0, 10), (1, 15), (4, 30), (6, 4)];
    answers.check("number lists near those by hand", &least);
}

#[test]
fn slices_of_every_length() {
    let mut random = Random::new(186);
    let mut answers = Answers::default();
    for _ in 0..300 * scale() {
        let rows = any(&mut random);
        answers.count_lengths(&Proved, Format::Coordinates, &rows.numbers(), &rows.bytes());
    }
    answers.check("slices of files", &[(0, 1_800), (7, 10_000)]);
}

#[test]
fn inputs_and_slices_longer_than_any_file() {
    let mut random = Random::new(187);
    let mut answers = Answers::default();
    for rows in [side_by_side(0), longest()] {
        for length in [1, 2, 321, 645, 5_122, 70_000] {
            let tail: Vec<u16> = (0..length).map(|_| random.within(0..=1)).collect();
            let tail_bytes: Vec<u8> = tail.iter().map(|&n| n as u8).collect();
            let numbers = [rows.numbers(), tail].concat();
            answers.count(&write(&Proved, Format::Coordinates, &numbers));
            let bytes = [rows.bytes(), tail_bytes].concat();
            answers.count(&read(&Proved, Format::Coordinates, &bytes));
        }
        let (mut numbers, mut bytes) = (vec![77; 100_000], vec![77; 100_000]);
        let read = Proved.read_drawing(&rows.bytes(), &mut numbers);
        assert_eq!(read, Ok(rows.numbers().len()));
        assert!(numbers[rows.numbers().len()..].iter().all(|&n| n == 77));
        let written = Proved.write_drawing(&rows.numbers(), &mut bytes);
        assert_eq!(written, Ok(rows.bytes().len()));
        assert!(bytes[rows.bytes().len()..].iter().all(|&byte| byte == 77));
        answers.count(&read);
    }
    answers.check("long files and slices", &[(0, 2), (6, 24)]);
}

#[test]
fn sheets_and_files_are_not_each_other() {
    let mut random = Random::new(188);
    for _ in 0..1_000 * scale() {
        let sheet = any_sheet(&mut random).bytes();
        assert_eq!(read(&Proved, Format::Coordinates, &sheet), refused(2, 0));
        let bytes = any(&mut random).bytes();
        let outcome = compare::sheet(&Proved, &bytes);
        assert_eq!(outcome.drawn, refused(2, 0));
        assert_eq!(outcome.minimum, refused(2, 0));
    }
}
