//! The program `declare`: what files repeat of the header is up to date, every prototype is read as
//! it stands there, and what cannot be read is told.

mod tools;

use std::fs;

use strip_tests::declare::{between_marks, declared, filled, parse, Item};
use tools::{root, HEADER};

/// The command that writes the files anew, from the root of the repository.
const REWRITE: &str = "cargo run --release --bin declare";

#[test]
fn files_have_what_the_header_declares() {
    let files = declared(&root()).expect("all files can be written");
    assert_eq!(files.len(), 6);
    for (file, text) in files {
        let found = fs::read_to_string(root().join(file)).expect(file);
        assert!(found == text, "{file} differs; write it with: {REWRITE}");
    }
}

/// The one item of a kind in a text.
fn only(kind: &str, text: &str) -> Result<Item, String> {
    let mut items = parse(text)?.remove(kind).unwrap_or_default();
    assert_eq!(items.len(), 1, "{text}");
    Ok(items.remove(0))
}

/// What is known of the function in a text.
fn known<const COUNT: usize>(text: &str, words: [&str; COUNT]) -> [String; COUNT] {
    let item = only("functions", text).expect("a prototype");
    words.map(|word| item[word].clone())
}

#[test]
fn a_function_of_nothing_is_read() {
    let text = "/* Tells the version. The value is a number. */\nuint32_t strip_version(void);\n";
    let words = ["name", "rust", "result", "python", "reads", "writes"];
    let expected = ["strip_version", "", "u32", "ctypes.c_uint32", "", ""];
    assert_eq!(known(text, words), expected);
    assert_eq!(
        known(text, ["The value is ", "Refusals "]),
        ["a number", ""]
    );
}

#[test]
fn what_asks_for_a_look_at_the_answer_is_passed_over() {
    let text = "/* Asks. */
#if defined(__GNUC__)
#define STRIP_NODISCARD __attribute__((warn_unused_result))
#else
#define STRIP_NODISCARD
#endif

/* Reads nothing. The value is 0. Refusals 1. */
STRIP_NODISCARD
uint64_t strip_read(void);\n";
    let expected = ["strip_read", "", "u64"];
    assert_eq!(known(text, ["name", "rust", "result"]), expected);
}

#[test]
fn what_is_generated_is_not_read() {
    let text = "/* Tells. */
static inline const char *strip_text(uint32_t number) {
    switch (number) {
    /* generated from strip.h, texts of refusals: begin */
    case STRIP_ONE:
        return \"one\";
    case STRIP_TWO:
        return \"two\";
    /* generated from strip.h, texts of refusals: end */
    default:
        return \"none\";
    }
}

/* Two is met. */
STRIP_TWO = 2,\n";
    assert_eq!(only("refusals", text).expect("a refusal")["number"], "2");
    assert!(parse(&text.replace("generated from ", "")).is_err());
}

#[test]
fn numbers_and_slices_of_all_kinds_are_read() {
    let text = "/* Tells one outline.\n * The value is the count of\n * points. Refusals 1 to 7. */
uint64_t strip_shape(const uint8_t *sheet, size_t sheet_len, float zoom,
                     size_t index, float *coordinates, size_t coordinates_len);\n";
    let [rust, python] = known(text, ["rust", "python"]);
    assert_eq!(
        rust,
        "sheet: *const u8, sheet_len: usize, zoom: f32, index: usize, coordinates: *mut f32, \
         coordinates_len: usize"
    );
    let slices = ["ctypes.c_uint8", "ctypes.c_float"].map(|kind| format!("*_slice({kind})"));
    let [sheet, coordinates] = slices;
    assert_eq!(
        python,
        format!("ctypes.c_uint64, {sheet}, ctypes.c_float, ctypes.c_size_t, {coordinates}")
    );
    let words = ["reads", "writes", "The value is ", "Refusals "];
    let expected = [
        "sheet, zoom, index",
        "coordinates",
        "the count of points",
        "1 to 7",
    ];
    assert_eq!(known(text, words), expected);
}

#[test]
fn a_count_is_in_decimal_and_a_value_in_hexadecimal() {
    for (number, expected) in [
        ("64", ["64", "usize"]),
        ("0xFFFFFFFF", ["4294967295", "u32"]),
        ("0x10", ["16", "u32"]),
    ] {
        let text = format!("/* A number. */\n#define STRIP_ONE {number}\n");
        let item = only("constants", &text).expect("a constant");
        assert_eq!(["number", "type"].map(|word| &item[word]), expected);
    }
}

#[test]
fn what_cannot_be_read_is_told() {
    for code in [
        "uint64_t strip_read(const uint8_t *sheet);",
        "uint64_t strip_read(const uint8_t *sheet, size_t length);",
        "uint64_t strip_read(const uint8_t *sheet, uint32_t sheet_len);",
        "uint64_t strip_read(uint8_t *sheet, uint8_t *file, size_t sheet_len, size_t file_len);",
        "uint64_t strip_read(const uint8_t sheet[], size_t sheet_len);",
        "uint64_t strip_read(const uint8_t **sheet, size_t sheet_len);",
        "uint64_t strip_read(double zoom);",
        "uint64_t strip_read(float);",
        "uint64_t strip_read();",
        "uint64_t strip_read(void)",
        "void strip_read(void);",
        "const uint8_t *strip_read(void);",
        "uint64_t read(void);",
        "extern uint64_t strip_read(void);",
        "uint64_t strip_read(void); uint64_t strip_write(void);",
        "STRIP_NODISCARD uint64_t strip_read(void);",
        "typedef uint64_t strip_answer;",
        "struct strip_answer { uint32_t value; };",
        "static inline uint32_t strip_one(void) { return 1; } uint64_t strip_read(void);",
        "// a note",
        "#define STRIP_SIZE (1 << 3)",
        "#define STRIP_SIZE 0x",
        "#define STRIP_SIZE 0x100000000",
        "#define STRIP_SIZE 0xFFu",
        "#define STRIP_MOST(x) 3",
        "#define STRIP_ONE 1\n#define STRIP_TWO 2",
        "enum {\nSTRIP_ONE,\n};",
        "enum {\nSTRIP_ONE = 1, STRIP_TWO = 2\n};",
    ] {
        let error = parse(&format!("/* What it does. */\n{code}\n"));
        let error = error.map(|_| code).expect_err("it is read");
        let line = code
            .replace("enum {\n", "")
            .replace("\n};", "")
            .replace('\n', " ");
        assert_eq!(error, format!("{HEADER}: cannot be read: {line}"));
    }
    assert!(parse("/* What it does.\nuint64_t strip_read(void);\n").is_err());
}

#[test]
fn what_the_header_does_not_say_is_told() {
    let row = "| {name} | {The value is } | {Refusals } |";
    for (comment, left) in [
        (
            "Reads. Refusals 1 to 7.",
            "| strip_read | {The value is } | 1 to 7 |",
        ),
        ("Reads. The value is 1.", "| strip_read | 1 | {Refusals } |"),
    ] {
        let text = format!("/* {comment} */\nuint64_t strip_read(void);\n");
        let item = only("functions", &text).expect("a prototype");
        let error = filled(&item, row, "").expect_err("it is said");
        assert!(error.ends_with(left), "{error}");
    }
    let item = only("refusals", "/* None. */\nSTRIP_NONE = 11,\n").expect("a refusal");
    let link = "[{number}](#{section})";
    assert!(filled(&item, link, "## 1: a section\n").is_err());
    let linked = filled(&item, link, "## 1: a section\n## 11: there is none\n");
    assert_eq!(linked.as_deref(), Ok("[11](#11-there-is-none)\n"));
}

#[test]
fn lines_go_between_the_marks() {
    let mark = |end: &str| format!("// generated from strip.h, functions: {end}\n");
    let (begin, end) = (mark("begin"), mark("end"));
    let file = |lines: &str| format!("before\n{begin}{lines}{end}behind\n");
    for old in ["", "old\n", "one\ntwo\n"] {
        let new = between_marks(&file(old), "functions", "new\n");
        assert_eq!(new, Some(file("new\n")));
    }
    let table = between_marks(&file("\n| a |\n|---|\n| 1 |\n"), "functions", "| 2 |\n");
    assert_eq!(table, Some(file("\n| a |\n|---|\n| 2 |\n")));
    for bad in ["", &begin, &end, &format!("\n{end}{begin}")] {
        assert_eq!(between_marks(bad, "functions", "new\n"), None, "{bad}");
    }
    assert_eq!(between_marks(&file(""), "refusals", "new\n"), None);
}
