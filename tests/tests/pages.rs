//! The pages: links and paths lead to something, and the commands of a new user work as they stand.

mod tools;

use std::env;
use std::fs;
use std::path::{Path, PathBuf};
use std::process::Command;
use std::sync::{Mutex, PoisonError};

use compare::{grouped, page};
use tools::{folder, functions, numbers, root, run_in, shared_library, NO_KIT};

/// The pages, from the root of the repository; of the template of a note no path is one of a file.
fn pages() -> Vec<PathBuf> {
    let mut pages: Vec<PathBuf> = ["README.md", "CHANGELOG.md", "vectors/README.md"]
        .map(PathBuf::from)
        .to_vec();
    for folder in ["docs", "docs/landings"] {
        for entry in fs::read_dir(root().join(folder)).expect("the pages") {
            let name = entry.expect("a page").file_name();
            let page = Path::new(&name).extension().is_some_and(|end| end == "md");
            if page && name != "TEMPLATE.md" {
                pages.push(Path::new(folder).join(name));
            }
        }
    }
    pages
}

/// The text of a page.
fn text(page: &Path) -> String {
    fs::read_to_string(root().join(page)).unwrap_or_else(|error| panic!("{page:?}: {error}"))
}

/// What stands between two marks, wherever it does, on one line.
fn between<'a>(text: &'a str, open: &'a str, close: &'a str) -> impl Iterator<Item = &'a str> {
    let parts = text.split(open).skip(1);
    parts.filter_map(move |part| part.split_once(close).map(|(inside, _)| inside))
}

/// The anchors of a page's headings: in small letters, with a hyphen for each space.
fn anchors(text: &str) -> Vec<String> {
    let headings = text.lines().filter(|line| line.starts_with('#'));
    let anchor = |heading: &str| {
        let kept = heading.trim_start_matches('#').trim().to_lowercase();
        let kept = kept
            .chars()
            .filter(|c| c.is_alphanumeric() || " -_".contains(*c));
        kept.collect::<String>().replace(' ', "-")
    };
    headings.map(anchor).collect()
}

#[test]
fn links_lead_to_pages_and_headings() {
    let mut count = 0;
    for page in pages() {
        for link in between(&text(&page), "](", ")") {
            let (file, anchor) = link.split_once('#').unwrap_or((link, ""));
            let target = match file {
                "" => page.clone(),
                _ => page.with_file_name(file),
            };
            assert!(root().join(&target).exists(), "{page:?}: {link}");
            let found = anchor.is_empty() || anchors(&text(&target)).iter().any(|a| a == anchor);
            assert!(found, "{page:?}: {link}");
            count += 1;
        }
    }
    assert!(count > 20, "{count} links");
}

#[test]
fn paths_that_are_named_are_there() {
    let folders = [
        ".ci/",
        "crates/",
        "docs/",
        "second/",
        "tests/",
        "examples/",
        "bindings/",
        "fuzz/",
        "vectors/",
    ];
    let mut count = 0;
    for page in pages() {
        let text = text(&page);
        // code spans are the odd parts between backticks
        for path in text.split('`').skip(1).step_by(2) {
            let named = folders.iter().any(|folder| path.starts_with(folder));
            let pattern = path.contains(|c: char| "*{ ".contains(c)) || path.contains("NAME");
            if named && !pattern {
                assert!(root().join(path).exists(), "{page:?}: {path}");
                count += 1;
            }
        }
    }
    assert!(count > 40, "{count} paths");
}

/// The commands of a page: its indented lines that start with one.
fn commands(page: &str) -> Vec<String> {
    const STARTS: [&str; 10] = [
        "make",
        "cmake ",
        "target/",
        "cc ",
        "c++ ",
        "cargo run",
        "export ",
        "PYTHONPATH=",
        "STRIP_LIB_DIR=",
        "LD_LIBRARY_PATH=",
    ];
    let text = text(Path::new(page));
    let lines = text.lines().filter_map(|line| line.strip_prefix("    "));
    let commands = lines.filter(|line| STARTS.iter().any(|start| line.starts_with(start)));
    // the gate runs this test
    commands
        .filter(|line| *line != "make check")
        .map(str::to_owned)
        .collect()
}

/// Checks that the commands of a page succeed one after the other, for a new user who begins with the
/// first one, and that each that draws the panel prints its drawing.
fn check_commands(page: &str, first: &str, least: usize) {
    // make writes the library anew, so one page goes after the other
    static ALONE: Mutex<()> = Mutex::new(());
    let _alone = ALONE.lock().unwrap_or_else(PoisonError::into_inner);
    let commands = commands(page);
    assert!(commands.len() >= least, "{commands:?}");
    assert_eq!(commands[0], first);
    shared_library();
    let home = folder(&format!("pages-{}", page.replace('/', "-")));
    let mut bash = Command::new("bash");
    bash.args(["-e", "-c", &commands.join("\n")]);
    for name in [
        "PKG_CONFIG_PATH",
        "LD_LIBRARY_PATH",
        "STRIP_LIBRARY",
        "STRIP_LIB_DIR",
    ] {
        bash.env_remove(name);
    }
    // tools that keep their files in the old home still find them
    for (name, folder) in [("CARGO_HOME", ".cargo"), ("RUSTUP_HOME", ".rustup")] {
        if let (None, Some(old)) = (env::var_os(name), env::var_os("HOME")) {
            bash.env(name, Path::new(&old).join(folder));
        }
    }
    bash.env("PYTHONDONTWRITEBYTECODE", "1");
    bash.env("SETUP", "no"); // a test installs nothing
    bash.env("MAKEFLAGS", format!("-- {}", NO_KIT.replace(' ', "\\ ")));
    bash.env("HOME", &home);
    let output = run_in(&root(), &mut bash);
    assert!(output.status.success(), "{page}: {output:?}");
    let drawing = fs::read_to_string(root().join("examples/panel.txt")).expect("a drawing");
    let printed = String::from_utf8_lossy(&output.stdout);
    let draws = commands
        .iter()
        .filter(|line| *line == "make demo" || line.ends_with("examples/panel.sheet"));
    assert_eq!(
        printed.matches(&drawing).count(),
        draws.count(),
        "{printed}"
    );
}

#[test]
fn commands_of_the_readme_work() {
    check_commands("README.md", "make demo", 4);
}

#[test]
fn commands_for_the_library_work() {
    check_commands("docs/LIBRARY.md", "make", 20);
}

#[test]
fn readme_names_the_kit() {
    let kit = text(Path::new(".ci/kit"));
    assert!(text(Path::new("README.md")).contains(&format!("`{}`", kit.trim())));
}

#[test]
fn picture_of_the_readme_has_the_places_of_the_panel() {
    let page = text(Path::new("README.md"));
    let rows: Vec<&str> = ["    tiles    ", "    boards   ", "    cable    "]
        .map(|name| between(&page, name, "\n").next().expect(name))
        .into();
    let mut drawn = String::new();
    for (layer, row) in rows.iter().enumerate() {
        let nodes = row.char_indices().filter(|(_, c)| *c == 'o');
        for (position, (column, _)) in nodes.enumerate() {
            drawn += &format!("{} {} {}\n", layer + 1, position + 1, 10 * column);
        }
    }
    let drawing = fs::read_to_string(root().join("examples/panel.txt")).expect("a drawing");
    assert_eq!(drawing, format!("total 780\n{drawn}"));
}

#[test]
fn functions_and_sizes_of_the_header_are_in_the_library_page() {
    let page = text(Path::new("docs/LIBRARY.md"));
    let names = functions();
    assert!(names.len() >= 9, "{names:?}");
    for name in names {
        // what it does, and its stack
        let row = format!("\n| `{name}` | ");
        assert_eq!(page.matches(&row).count(), 2, "{name}");
    }
    let mut sizes = numbers("constants");
    sizes.retain(|(name, _)| name.starts_with("MAX_"));
    assert!(sizes.len() >= 7, "{sizes:?}");
    for (name, number) in sizes {
        let row = format!(" | `STRIP_{name}`, {} |\n", grouped(number as usize));
        assert!(page.contains(&row), "{row}");
    }
}

/// The code of the tests that compare.
fn comparing() -> String {
    let files = fs::read_dir(root().join("tests/tests")).expect("the tests");
    let paths = files.map(|entry| entry.expect("a file").path());
    let is_one = |path: &PathBuf| {
        let name = path.file_name().expect("a name").to_string_lossy();
        name.starts_with("compare_")
    };
    let texts = paths.filter(is_one).map(fs::read_to_string);
    texts.collect::<Result<_, _>>().expect("the tests")
}

/// The sums of the rows of docs/TESTING.md with this many counts. Each other row has its test.
fn sums(count: usize) -> Vec<usize> {
    let (sums, rows): (Vec<_>, Vec<_>) = page::rows(count)
        .into_iter()
        .partition(|(name, _)| name == "all");
    assert!(rows.len() > 20, "{}", rows.len());
    let code = comparing();
    for (name, _) in &rows {
        assert!(code.contains(&format!("\"{name}\"")), "{name}: no test");
    }
    let sum = |i| rows.iter().map(|(_, counts)| counts[i]).sum();
    let expected: Vec<usize> = (0..count).map(sum).collect();
    assert_eq!(sums, [("all".to_string(), expected.clone())]);
    expected
}

#[test]
fn counts_of_what_is_compared_add_up_and_stand_on_one_page() {
    let (sheets, calls) = (sums(7), sums(4));
    for page in pages() {
        // the notes of landings are of their date
        if !page.ends_with("TESTING.md") && !page.starts_with("docs/landings") {
            for sum in [&sheets[..2], &calls[..1]].concat() {
                assert!(!text(&page).contains(&grouped(sum)), "{page:?}: {sum}");
            }
        }
    }
}

/// The bytes of a text in hexadecimal.
fn bytes(text: &str) -> Vec<u8> {
    let byte = |text| u8::from_str_radix(text, 16).expect("a byte");
    text.split_whitespace().map(byte).collect()
}

/// A list of numbers as the pages print it.
fn listed(numbers: &[u16]) -> String {
    let numbers: Vec<String> = numbers.iter().map(u16::to_string).collect();
    numbers.join(", ")
}

/// The bytes of each dump of a page, whose lines have the offset in front and tell what is there.
fn dumps(page: &str) -> Vec<Vec<u8>> {
    let dump = |dump: &str| {
        let mut found = Vec::new();
        for line in dump.lines().take_while(|line| !line.is_empty()) {
            let (offset, line) = line.trim().split_once("  ").expect("an offset");
            assert_eq!(offset, found.len().to_string());
            let (part, _) = line.split_once("  ").expect("bytes and what they are");
            found.extend(bytes(part));
        }
        found
    };
    page.split("    offset  bytes\n")
        .skip(1)
        .map(dump)
        .collect()
}

#[test]
fn first_sheet_of_the_format_is_the_example() {
    let page = text(Path::new("docs/FORMAT.md"));
    let sheet = fs::read(root().join("examples/first.sheet")).expect("a sheet");
    assert_eq!(dumps(&page)[0], sheet);
    let mut numbers = [0; strip::MAX_NUMBERS];
    let count = strip::read(&sheet, &mut numbers).expect("a good sheet");
    let list = listed(&numbers[..count]);
    assert!(page.contains(&format!("its number list is {list}:")));
}

#[test]
fn first_coordinate_file_of_the_format_is_that_of_the_drawing() {
    let page = text(Path::new("docs/FORMAT.md"));
    let sheet = fs::read(root().join("examples/first.sheet")).expect("a sheet");
    let (mut places, mut list) = ([0; strip::MAX_PLACES], [0; strip::MAX_LIST]);
    strip::draw(&sheet, &mut places, &mut list).expect("a drawing");
    let drawing = [2, 2, places[0], places[1], 1, places[2]];
    let mut file = [0; strip::MAX_DRAWING_BYTES];
    let length = strip::write_drawing(&drawing, &mut file).expect("a good list");
    assert_eq!(dumps(&page)[1], file[..length]);
    assert_eq!(dumps(&page).len(), 2);
    let list = listed(&drawing);
    assert!(page.contains(&format!(
        "has {length} bytes, and its number list is {list}:"
    )));
}

#[test]
fn coordinate_files_of_the_format_have_the_lists_that_it_says() {
    let page = text(Path::new("docs/FORMAT.md"));
    let lines: Vec<&str> = between(&page, "- `53 44 31 ", "\n").collect();
    assert_eq!(lines.len(), 4);
    for line in lines {
        let (rest, said) = line.split_once("` is ").expect("bytes and their list");
        let file = [bytes("53 44 31"), bytes(rest)].concat();
        let mut numbers = [0; strip::MAX_DRAWING_NUMBERS];
        let count = strip::read_drawing(&file, &mut numbers).expect("a good file");
        let list = listed(&numbers[..count]);
        let end = said.strip_prefix(&list).expect(&list);
        assert!(end.starts_with(['.', ':']), "{line}");
        let mut written = [0; strip::MAX_DRAWING_BYTES];
        let length = strip::write_drawing(&numbers[..count], &mut written);
        assert_eq!(length, Ok(file.len()));
        assert_eq!(written[..file.len()], file);
    }
}
