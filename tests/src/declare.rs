//! The header `strip.h` taken apart, and what other files repeat of it, between two marks each.

use std::collections::BTreeMap;
use std::fs;
use std::path::Path;

/// The header, from the root of the repository.
pub const HEADER: &str = "crates/strip/include/strip.h";

/// How a mark starts; what it is of, and whether it begins or ends, follow.
const MARK: &str = "generated from strip.h, ";

/// What is known of a constant, a refusal or a function, by the words in braces below.
pub type Item = BTreeMap<&'static str, String>;

/// Files, what their marks say, and in what form an item stands there; the last word of the marks is the
/// kind of the items. In braces are words for what the code says, or words of the comment for what it
/// says behind them; `{}` is its first sentence.
#[rustfmt::skip]
const PARTS: [(&str, &str, &str); 14] = [
    (HEADER, "texts of refusals", "    case STRIP_{name}:\n        return \"{}\";"),
    ("crates/strip/exports.map", "functions", "        {name};"),
    ("bindings/rust/src/lib.rs", "constants", "/// {comment}\npub const {name}: {type} = {number};"),
    ("bindings/rust/src/lib.rs", "refusals", "    /// {comment}\n    pub const {name}: u32 = {number};"),
    ("bindings/rust/src/lib.rs", "texts of refusals", "        {number} => \"{}\","),
    ("bindings/rust/src/lib.rs", "functions", "        pub fn {name}({rust}) -> {result};"),
    ("bindings/python/strip.py", "names of constants", "    \"{name}\","),
    ("bindings/python/strip.py", "names of refusals", "    \"{name}\","),
    ("bindings/python/strip.py", "constants", "# {comment}\n{name} = {number}"),
    ("bindings/python/strip.py", "refusals", "# {comment}\n{name} = {number}"),
    ("bindings/python/strip.py", "texts of refusals", "    {name}: \"{}\","),
    ("bindings/python/strip.py", "functions", "    \"{name}\": [{python}],"),
    ("docs/LIBRARY.md", "functions", "| `{name}` | {reads} | {writes} | {The value is } | {Refusals } |"),
    ("docs/REFUSALS.md", "refusals", "| [{number}](#{section}) | `STRIP_{name}` | {} | {The offset is } |"),
];

/// The types of results, numbers and elements: in C, in Rust and in Python.
const TYPES: [[&str; 3]; 7] = [
    ["uint8_t", "u8", "ctypes.c_uint8"],
    ["uint16_t", "u16", "ctypes.c_uint16"],
    ["uint32_t", "u32", "ctypes.c_uint32"],
    ["uint64_t", "u64", "ctypes.c_uint64"],
    ["int32_t", "i32", "ctypes.c_int32"],
    ["size_t", "usize", "ctypes.c_size_t"],
    ["float", "f32", "ctypes.c_float"],
];

/// The files of a repository as its header has them, or what is wrong.
pub fn declared(root: &Path) -> Result<BTreeMap<&'static str, String>, String> {
    let read = |file| fs::read_to_string(root.join(file)).map_err(|e| format!("{file}: {e}"));
    let header = parse(&read(HEADER)?)?;
    let mut files = BTreeMap::new();
    for (file, marks, form) in PARTS {
        let old = files.remove(file).map_or_else(|| read(file), Ok)?;
        let kind = marks.rsplit(' ').next().unwrap_or(marks);
        let lines = header[kind].iter().map(|item| filled(item, form, &old));
        let new = between_marks(&old, marks, &lines.collect::<Result<String, _>>()?);
        files.insert(file, new.ok_or(format!("{file}: no marks for {marks}"))?);
    }
    Ok(files)
}

/// A file with other lines between its marks; the head of a table stays.
pub fn between_marks(file: &str, marks: &str, lines: &str) -> Option<String> {
    let mark = |end| file.find(&format!("{MARK}{marks}: {end}"));
    let (begin, end) = (mark("begin")?, file[..mark("end")?].rfind('\n')? + 1);
    let begin = begin + file[begin..].find('\n')? + 1;
    let head = file.get(begin..end)?.find("---|\n").map_or(0, |at| at + 5);
    Some([&file[..begin + head], lines, &file[end..]].concat())
}

/// An item in a form, for a page with a section for its number; a long line as rustfmt has it.
pub fn filled(item: &Item, form: &str, page: &str) -> Result<String, String> {
    let (mut text, mut item) = (form.to_string(), item.clone());
    let start = item.get("number").map(|number| format!("## {number}: "));
    let heading = start.and_then(|start| page.lines().find(|line| line.starts_with(&start)));
    let section = heading.map(|heading| heading[3..].to_lowercase().replace(':', ""));
    item.extend(section.map(|section| ("section", section.replace(' ', "-"))));
    let start = format!("\n{}", form.split("{comment}").next().unwrap_or(""));
    for (word, known) in item {
        text = text.replace(&format!("{{{word}}}"), &known.replace('\n', &start));
    }
    if form.contains("{rust}") && text.len() > 100 {
        text = text.replace('(', "(\n            ");
        text = text.replace(", ", ",\n            ");
        text = text.replace(')', ",\n        )");
    }
    match text.contains('{') {
        true => Err(format!("the header does not say what is in braces: {text}")),
        false => Ok(text + "\n"),
    }
}

/// The constants, the refusals and the functions of a header, or what cannot be read.
pub fn parse(text: &str) -> Result<BTreeMap<&'static str, Vec<Item>>, String> {
    let mut header: BTreeMap<_, Vec<Item>> = BTreeMap::new();
    for part in by_hand(text).split("/*") {
        let (comment, code) = part.split_once("*/").unwrap_or(("", part));
        let code = code.lines().filter(is_declaration);
        let code: Vec<&str> = code.flat_map(str::split_whitespace).collect();
        let code = code.join(" ");
        let found = declaration(&code).ok_or(format!("{HEADER}: cannot be read: {code}"));
        let (kind, mut item) = found?;
        item.extend(told(comment));
        header.entry(kind).or_default().push(item);
    }
    Ok(header)
}

/// A header without what is generated from it, and without the marks around that.
fn by_hand(text: &str) -> String {
    let (mut by_hand, mut lines) = (String::new(), text.lines());
    while let Some(line) = lines.next() {
        if line.contains(MARK) {
            lines.find(|line| line.contains(MARK));
        } else {
            by_hand += &format!("{line}\n");
        }
    }
    by_hand
}

/// Whether a line belongs to a declaration that other files repeat.
fn is_declaration(line: &&str) -> bool {
    let starts = ["#if", "#el", "#endif", "#include"];
    let macros = ["#define STRIP_VERSION", "#define STRIP_NODISCARD"];
    let lines = ["#define STRIP_H", "extern \"C\" {", "enum {", "};", "}"];
    let is_other = lines.contains(line) || *line == "STRIP_NODISCARD";
    let mut starts = starts.iter().chain(&macros);
    !is_other && !starts.any(|start| line.starts_with(start))
}

/// A comment, and what it says behind certain words, each up to the end of the sentence.
fn told(comment: &str) -> Item {
    let lines: Vec<&str> = comment.lines().map(str::trim).collect();
    let comment = lines.join("\n").replace("\n* ", "\n");
    let mut item = Item::new();
    for words in ["", "The offset is ", "The value is ", "Refusals "] {
        let line = comment.replace('\n', " ");
        if let Some((_, rest)) = line.split_once(words) {
            let end = rest.find(". ").unwrap_or(rest.len());
            item.insert(words, rest[..end].trim_end_matches('.').to_string());
        }
    }
    item.insert("comment", comment);
    item
}

/// The kind of a declaration, and its item.
fn declaration(code: &str) -> Option<(&'static str, Item)> {
    let (kind, (name, number)) = if let Some(code) = code.strip_prefix("#define STRIP_") {
        ("constants", code.split_once(' ')?)
    } else if code.is_empty() || code == "STRIP_OK = 0," || code.starts_with("static inline ") {
        return (code.matches(';').count() < 2).then_some(("others", Item::new()));
    } else if let Some(code) = code.strip_prefix("STRIP_") {
        ("refusals", code.trim_end_matches(',').split_once(" = ")?)
    } else {
        return Some(("functions", function(code)?));
    };
    let (number, rust) = number_of(number)?;
    let mut item = Item::from([("name", name_of(name)?), ("number", number.to_string())]);
    item.insert("type", rust.to_string());
    Some((kind, item))
}

/// A number with its type in Rust: a count in decimal, or a value of 32 bits in hexadecimal.
fn number_of(text: &str) -> Option<(u32, &'static str)> {
    match text.strip_prefix("0x") {
        Some(digits) => Some((u32::from_str_radix(digits, 16).ok()?, "u32")),
        None => Some((text.parse().ok()?, "usize")),
    }
}

/// A function by its prototype; behind each slice stands its length.
fn function(code: &str) -> Option<Item> {
    let (head, parameters) = code.strip_suffix(");")?.split_once('(')?;
    let (result, name) = head.split_once(' ')?;
    let name = name_of(name).filter(|name| name.starts_with("strip_"))?;
    let lists = ["rust", "python", "reads", "writes"];
    let mut item = Item::from(lists.map(|list| (list, String::new())));
    let mut add = |list, text: &str| *item.entry(list).or_default() += &format!("{text}, ");
    add("python", type_of(result)?[2]);
    let mut parts = parameters.split(", ").filter(|_| parameters != "void");
    while let Some(part) = parts.next() {
        let (kind, name) = part.rsplit_once(' ')?;
        let (is_const, slice) = (kind.starts_with("const "), name.strip_prefix('*'));
        let [_, rust, python] = type_of(kind.trim_start_matches("const "))?;
        if let Some(name) = slice {
            let pointer = if is_const { "const" } else { "mut" };
            add("rust", &format!("{name}: *{pointer} {rust}"));
            add("rust", &format!("{name}_len: usize"));
            add("python", &format!("*_slice({python})"));
            (parts.next()? == format!("size_t {name}_len")).then_some(())?;
        } else {
            add("rust", &format!("{name}: {rust}"));
            add("python", python);
        }
        let is_written = slice.is_some() && !is_const;
        let list = if is_written { "writes" } else { "reads" };
        add(list, &name_of(slice.unwrap_or(name))?);
    }
    item.values_mut()
        .for_each(|list| list.truncate(list.len().saturating_sub(2)));
    item.extend([("name", name), ("result", type_of(result)?[1].to_string())]);
    if result != "uint64_t" {
        item.insert("Refusals ", String::new()); // it gives no answer, so it refuses nothing
    }
    Some(item)
}

/// A name in C.
fn name_of(text: &str) -> Option<String> {
    let is_name = text.chars().all(|c| c.is_ascii_alphanumeric() || c == '_');
    (is_name && !text.is_empty()).then(|| text.to_string())
}

/// The names of a type.
fn type_of(name: &str) -> Option<[&'static str; 3]> {
    TYPES.into_iter().find(|kind| kind[0] == name)
}
