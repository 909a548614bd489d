//! What docs/FORMAT.md says to whoever writes a program from it: the calls and their refusals, the sums of
//! the checker, and points at the edge of the format. Both implementations do as it says.

mod tools;

use std::fs;

use compare::{grouped, totals, Proved};
use second::certificate::floor;
use second::checker;
use second::sheet::{EDGE_LIMIT, NUMBER_LIMIT, PLAIN, STRAIGHT, WIDTH_LIMIT};
use second::totals::{NO_TOTAL, WIDTHS_LIMIT};
use strip::{Narrowest, Refusal};
use strip_tests::document;
use strip_tests::draft::{Draft, Separation};
use tools::{header, root};

/// Checks that the page says something, wherever its lines end.
fn check_said(text: &str) {
    let page = fs::read_to_string(root().join("docs/FORMAT.md")).expect("the page");
    let words = |text: &str| text.split_whitespace().collect::<Vec<_>>().join(" ");
    assert!(words(&page).contains(&words(text)), "{text}");
}

/// A refusal of the library.
fn refusal<T>(number: u32, offset: u32) -> Result<T, Refusal> {
    Err(Refusal { number, offset })
}

#[test]
fn the_second_half_is_named_in_the_first_sentence() {
    let page = fs::read_to_string(root().join("docs/FORMAT.md")).expect("the page");
    let (first, _) = page.split_once(". ").expect("a sentence");
    assert!(
        first.contains("its second\nhalf is [REFUSALS.md](REFUSALS.md)"),
        "{first}"
    );
}

#[test]
fn calls_have_the_refusals_of_the_header() {
    let page = fs::read_to_string(root().join("docs/FORMAT.md")).expect("the page");
    let mut rows = 0;
    for function in header("functions") {
        let (name, refusals) = (&function["name"], &function["Refusals "]);
        if !refusals.is_empty() {
            let start = format!("| `{}` | ", name.trim_start_matches("strip_"));
            let mut lines = page.lines().filter(|line| line.starts_with(&start));
            let row = lines.next().unwrap_or_else(|| panic!("no row for {name}"));
            assert!(row.ends_with(&format!(" | {refusals} |")), "{row}");
            rows += 1;
        }
    }
    assert!(rows >= 8, "{rows}");
}

/// Checks that both checkers say no.
fn check_no(draft: &Draft, places: &[u16], list: &[i32]) {
    let bytes = draft.bytes();
    assert_eq!(strip::check(&bytes, places, list), Ok(false));
    assert_eq!(checker::check(&bytes, places, list), Ok(false));
}

#[test]
fn bounds_are_below_what_is_said() {
    let mut draft = Draft::new(WIDTH_LIMIT, &[64; 4]);
    let apart = Separation {
        minimum: WIDTH_LIMIT,
        maximum: WIDTH_LIMIT,
    };
    draft
        .layers
        .iter_mut()
        .for_each(|layer| layer.fill(apart.clone()));
    let pairs = [i32::MIN, i32::MAX].repeat(63);
    let list = [&[0][..], &pairs, &[i32::MAX]].concat().repeat(4);
    let limit = 508 * 4095 * (1_i64 << 31);
    assert_eq!(floor(&draft.sheet(), &list), 256 * 4095 - limit);
    let figure = grouped(limit as usize);
    check_said(&format!("508 · 4,095 · 2^31 in size, which is {figure}."));
    check_no(&draft, &[0; 256], &list);
}

#[test]
fn balances_are_below_what_is_said() {
    let mut draft = Draft::new(2, &[1, 3])
        .separation(2, 1, 1, 1)
        .separation(2, 2, 1, 1);
    for _ in 0..EDGE_LIMIT {
        draft = draft.edge(1, 1, 2, STRAIGHT);
    }
    // at the second node below: all pulls, and against them the pushes of both pairs
    let pulls = vec![i32::MIN; EDGE_LIMIT.into()];
    let pushes = [0, 0, 0, i32::MAX, i32::MIN, i32::MIN, i32::MAX, 0];
    let list = [&pulls[..], &pushes].concat();
    let limit = 516 * (1_i64 << 31);
    let sizes = list.iter().map(|&number| i64::from(number).abs());
    assert_eq!(sizes.sum::<i64>(), limit - 2);
    let figure = grouped(limit as usize);
    check_said(&format!("516 · 2^31 in size, which is {figure}."));
    check_no(&draft, &[1, 0, 1, 2], &list);
}

#[test]
fn excess_is_not_looked_at() {
    check_said("does not look at the excess, whatever it is");
    let (bytes, list) = (document::first().bytes(), document::FIRST_LIST);
    let longer = [&list[..], &[i32::MIN, 7]].concat();
    assert_eq!(strip::check(&bytes, &[0, 1, 0, 65535], &longer), Ok(true));
    assert_eq!(strip::check(&bytes, &[0, 1], &longer), refusal(7, 0));
    assert_eq!(strip::check(&bytes, &[9, 9, 9], &list[..7]), refusal(7, 0));
}

#[test]
fn narrowest_tests_the_width() {
    check_said("which is 4,096, is refusal 4 at 3, and `80 80` is refusal 3 at 3.");
    let sheet = |width: &[u8]| [&document::ONE_NODE[..3], width, &document::ONE_NODE[4..]].concat();
    assert_eq!(strip::narrowest(&sheet(&[0x80, 0x20])), refusal(4, 3));
    assert_eq!(strip::narrowest(&sheet(&[0x80, 0x80])), refusal(3, 3));
    let found = Ok(Narrowest { width: 0, total: 0 });
    assert_eq!(strip::narrowest(&sheet(&[0xff, 0x1f])), found);
}

/// The totals of a sheet at widths, in a slice of so many: both implementations tell the same, and leave
/// the same in the slice.
fn totals_in(bytes: &[u8], widths: &[u32], room: usize) -> Result<Vec<u32>, Refusal> {
    totals::into(&Proved, bytes, widths, room).map_err(|told| Refusal {
        number: told.number,
        offset: told.offset as u32,
    })
}

/// Numbers as the page lists them.
fn listed(numbers: &[u32]) -> String {
    let numbers: Vec<String> = numbers.iter().map(u32::to_string).collect();
    numbers.join(", ")
}

#[test]
fn totals_of_the_stair_are_as_said() {
    let bytes = document::stair(2, PLAIN).bytes();
    let text: Vec<String> = bytes.iter().map(|byte| format!("{byte:02X}")).collect();
    check_said(&format!("Document 01's stair, `{}`, has", text.join(" ")));
    let rising = [0, 1, 2, 3, 4];
    let entries = totals_in(&bytes, &rising, 5).expect("totals");
    assert_eq!(entries, [NO_TOTAL, 2, 1, 0, 0]);
    let (widths, entries) = (listed(&rising), listed(&entries));
    check_said(&format!(
        "At the widths {widths} its entries are {entries};"
    ));
    let any_order = [4, 1, 0, 1];
    let entries = totals_in(&bytes, &any_order, 9).expect("totals");
    let (list, entries) = (listed(&any_order), listed(&entries));
    check_said(&format!("at {list} they are {entries}."));
    let straight = document::stair(2, STRAIGHT).bytes();
    let entries = listed(&totals_in(&straight, &rising, 5).expect("totals"));
    check_said(&format!(
        "(`01` at the end), they are {entries} at the widths {widths}."
    ));
}

#[test]
fn totals_are_below_what_stands_for_none() {
    let most = u32::from(EDGE_LIMIT) * u32::from(WIDTH_LIMIT);
    assert!(most < NO_TOTAL);
    let (most, none) = (grouped(most as usize), grouped(NO_TOTAL as usize));
    check_said(&format!(
        "No total is as great as {none}: 512 edges of length 4,095 make {most}."
    ));
}

#[test]
fn totals_are_refused_in_the_order_of_the_page() {
    let page = fs::read_to_string(root().join("docs/FORMAT.md")).expect("the page");
    let heading = "\n## Totals at many widths\n";
    let (_, section) = page.split_once(heading).expect(heading);
    let (section, _) = section.split_once("\n## ").expect("an end");
    let rows = section.lines().filter_map(|line| line.strip_prefix("| "));
    let numbers: Vec<&str> = rows.filter_map(|row| row.split(" | ").next()).collect();
    assert_eq!(numbers, ["refusal", "1 to 6", "11", "4", "7"]);
    // each list has the faults of all rows from its own on
    let mut many = [5; WIDTHS_LIMIT + 1];
    many[63] = 65_541;
    let sheet = document::first().bytes();
    for (_, bytes) in document::REFUSED {
        let read = strip::read(bytes, &mut [0; NUMBER_LIMIT]);
        assert!(read.is_err());
        assert_eq!(totals_in(bytes, &many, 0).err(), read.err());
    }
    assert_eq!(totals_in(&sheet, &many, 0), refusal(11, 0));
    assert_eq!(totals_in(&sheet, &many[..64], 0), refusal(4, 63));
    assert_eq!(totals_in(&sheet, &many[..63], 62), refusal(7, 0));
    assert_eq!(totals_in(&sheet, &many[..63], 63), Ok(vec![1; 63]));
}

#[test]
fn totals_need_no_drawing_at_the_width_of_the_sheet() {
    check_said("a sheet that `draw` refuses with 8 is good here");
    assert_eq!(
        totals_in(&document::NO_DRAWING, &[1, 0], 2),
        Ok(vec![0, NO_TOTAL])
    );
    let sheet = |width: &[u8]| [&document::ONE_NODE[..3], width, &document::ONE_NODE[4..]].concat();
    assert_eq!(totals_in(&sheet(&[0x80, 0x20]), &[0], 1), refusal(4, 3));
    assert_eq!(totals_in(&sheet(&[0x80, 0x80]), &[0], 1), refusal(3, 3));
    check_said(
        "A list without widths is good: the sheet is read and tested, and nothing is written.",
    );
    assert_eq!(totals_in(&document::NO_DRAWING, &[], 3), Ok(Vec::new()));
    assert_eq!(totals_in(&document::NO_DRAWING[..8], &[], 3), refusal(1, 8));
}

#[test]
fn numbers_without_a_form_are_outside_their_limits() {
    check_said("so it is refusal 4 at its index");
    let (sheet, file) = (document::first().numbers(), vec![2, 2, 0, 1, 1, 0]);
    for number in [16384, 65535] {
        for i in 0..sheet.len() {
            let mut list = sheet.clone();
            list[i] = number;
            assert_eq!(strip::write(&list, &mut [0; 99]), refusal(4, i as u32));
        }
        for i in 0..file.len() {
            let mut list = file.clone();
            list[i] = number;
            assert_eq!(
                strip::write_drawing(&list, &mut [0; 99]),
                refusal(4, i as u32)
            );
        }
    }
}

#[test]
fn one_layer_has_no_edges() {
    check_said("so that every number there is refusal 4.");
    let read = |draft: &Draft| strip::read(&draft.bytes(), &mut [0; NUMBER_LIMIT]);
    let one = Draft::new(3, &[2]);
    assert_eq!(read(&one), Ok(6));
    for layer in [0, 1, 2] {
        assert_eq!(read(&one.clone().edge(layer, 1, 1, PLAIN)), refusal(4, 9));
    }
    let bytes = |count: &[u8]| [&[0x53, 0x50, 0x31, 3, 1, 1], count].concat();
    let read = |count| strip::read(&bytes(count), &mut [0; NUMBER_LIMIT]);
    // 512 edges: the count is good, and the sheet ends; 513: it is not
    assert_eq!(read(&[0x80, 0x04]), refusal(1, 8));
    assert_eq!(read(&[0x81, 0x04]), refusal(4, 6));
}
