//! What stands in an antt file: its items, the names that it uses, and the names that a text cites.

use std::collections::{BTreeMap, BTreeSet};

/// Something that a file defines or proves, at its top or in a section.
#[derive(Default)]
pub struct Item {
    pub name: String,
    pub public: bool,
    /// It is a definition by a mark or its form: `abbrev`, `unfoldable`, `record`, `data`.
    pub marked: bool,
    /// The parameters of the sections around it.
    pub parameters: String,
    /// Its name and type; of a record or data all of it.
    pub statement: String,
    /// Its clauses.
    pub body: String,
}

impl Item {
    /// Whether it is a theorem: it is not marked as a definition, and its result is no plain data.
    pub fn is_theorem(&self) -> bool {
        let result = self.statement.rsplit('→').next().unwrap_or_default();
        let head = names(result).into_iter().next().unwrap_or_default();
        !self.marked && !["Type", "ℕ", "ℤ", "Bool", "List"].contains(&head.as_str())
    }

    /// Whether it is a type that has a case or a field of this name.
    pub fn declares(&self, name: &str) -> bool {
        let mut lines = self.statement.lines().skip(1);
        lines.any(|line| started(line).is_some_and(|part| part.name == name))
    }
}

/// The item that a line starts: marks, then a name and a colon; or a record or data of a name.
fn started(line: &str) -> Option<Item> {
    let mut item = Item::default();
    let mut rest = line.trim_start();
    let mut is_type = false;
    while let Some((word, others)) = rest.split_once(' ') {
        match word {
            "pub" => item.public = true,
            "abbrev" | "unfoldable" => item.marked = true,
            "record" | "data" => (item.marked, is_type) = (true, true),
            _ if is_type || others.split(' ').next() == Some(":") => {
                item.name = word.to_string();
                item.statement = format!("{rest}\n");
                return Some(item);
            }
            _ => return None,
        }
        rest = others;
    }
    None
}

/// What a line belongs to.
enum Part {
    Parameters,
    Statement,
    Body,
    Nothing,
}

/// The items of a file. Each starts at the indentation of its section; deeper lines belong to it.
pub fn items(text: &str) -> Vec<Item> {
    let mut items: Vec<Item> = Vec::new();
    let mut sections: Vec<(usize, String)> = Vec::new();
    let mut part = Part::Nothing;
    let code = |line: &&str| !line.trim().is_empty() && !line.trim_start().starts_with("--");
    for line in text.lines().filter(code) {
        let indent = line.len() - line.trim_start().len();
        sections.retain(|(outer, _)| *outer < indent);
        if indent <= sections.last().map_or(0, |(outer, _)| outer + 2) {
            part = match line.split_whitespace().next() {
                Some("use" | "unfolding") => Part::Nothing,
                Some("module") => Part::Parameters,
                _ => Part::Body,
            };
            if let Part::Parameters = part {
                sections.push((indent, String::new()));
            } else if let Some(item) = started(line) {
                let parameters = sections.iter().map(|(_, text)| text.as_str()).collect();
                items.push(Item { parameters, ..item });
                part = Part::Statement;
                continue;
            }
        }
        let target = match part {
            Part::Parameters => sections.last_mut().map(|(_, text)| text),
            Part::Statement => items.last_mut().map(|item| &mut item.statement),
            Part::Body => items.last_mut().map(|item| &mut item.body),
            Part::Nothing => None,
        };
        if let Some(target) = target {
            target.push_str(line);
            target.push('\n');
        }
    }
    items
}

/// The path of a module, and a name there; if there is none, the whole module is meant.
pub type Import = (String, Option<String>);

/// The crates of the kit.
const KIT: [&str; 2] = ["io.", "std."];

/// What a file uses of the library: `use PATH.{a, b as c}` or `use PATH as d`, in code `ghost use`.
/// What is of the kit or declared by the code is left out.
pub fn scope(text: &str) -> BTreeMap<String, Import> {
    let mut scope = BTreeMap::new();
    let kit = |used: &str| KIT.iter().any(|name| used.starts_with(name));
    let lines = text.lines().map(|line| line.trim_start_matches("ghost "));
    let used = lines.filter_map(|line| line.strip_prefix("use Rattle."));
    for used in used.filter(|used| !kit(used) && !used.contains(".declared.")) {
        let used = used.trim_end_matches(';');
        let list = used
            .strip_suffix('}')
            .and_then(|used| used.split_once(".{"));
        if let Some((path, list)) = list {
            for entry in list.replace(['«', '»'], "").split(", ") {
                let (name, own) = entry.split_once(" as ").unwrap_or((entry, entry));
                scope.insert(own.into(), (path.into(), Some(name.into())));
            }
        } else {
            let whole = used.split_once(" as ");
            let (path, own) = whole.unwrap_or_else(|| panic!("what is used? {used}"));
            scope.insert(own.into(), (path.into(), None));
        }
    }
    scope
}

/// What stands between words; none of it is a name.
const MARKS: [&str; 7] = ["(", ")", "{", "}", ",", ";", ":"];

/// The words and marks of a text.
fn words(text: &str) -> Vec<String> {
    let mut spaced = text.to_string();
    for mark in MARKS {
        spaced = spaced.replace(mark, &format!(" {mark} "));
    }
    spaced.split_whitespace().map(str::to_string).collect()
}

/// The names that a text may cite. None of them is a field that is taken (`(f x).field`) or set
/// (`{ field = x; .. }`), or a variable from where it is given a type on (`(x y : T)`), with what is
/// taken of it (`x.field`).
pub fn names(text: &str) -> Vec<String> {
    let words = words(text);
    let at = |i: usize| words.get(i).map_or("", String::as_str);
    let mut bound = BTreeSet::from(MARKS);
    let mut names = Vec::new();
    for i in 0..words.len() {
        let before = if i > 0 { at(i - 1) } else { "" };
        if ["(", "{"].contains(&before) || at(i + 1) == ":" {
            let end = (i..words.len()).find(|end| MARKS.contains(&at(*end)));
            let typed = end.filter(|end| at(*end) == ":");
            bound.extend((i..typed.unwrap_or(i)).map(at));
        }
        let set = ["{", ";"].contains(&before) && at(i + 1) == "=";
        let head = at(i).split('.').next().unwrap_or_default();
        if !at(i).starts_with('.') && !set && !bound.contains(head) {
            names.push(at(i).trim_end_matches('.').to_string());
        }
    }
    names
}
