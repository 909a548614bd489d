//! The definitions of the library, and what cites them: contracts, theorems, and other definitions.

pub mod antt;
pub mod sources;

use std::collections::{BTreeMap, BTreeSet, VecDeque};
use std::fs;
use std::path::Path;

use antt::{Import, Item};

/// The file of a definition, from the root of the repository, and its name.
type Definition = (String, String);

/// A contract or the statement of a theorem: what it is, the file that it stands in, its text.
pub struct Source {
    what: String,
    file: String,
    text: String,
}

/// Pages, code and antt files by their paths: the text, the items and what is used of each.
pub struct Library {
    texts: BTreeMap<String, String>,
    items: BTreeMap<String, Vec<Item>>,
    scopes: BTreeMap<String, BTreeMap<String, Import>>,
}

impl Library {
    /// The library of these texts.
    pub fn of(texts: BTreeMap<String, String>) -> Library {
        let (mut items, mut scopes) = (BTreeMap::new(), BTreeMap::new());
        for (file, text) in &texts {
            scopes.insert(file.clone(), antt::scope(text));
            if file.ends_with(".antt") {
                items.insert(file.clone(), antt::items(text));
            }
        }
        Library {
            texts,
            items,
            scopes,
        }
    }

    /// The library of a repository. Of the proofs only laws are looked at, and nothing of what is built.
    pub fn read(root: &Path) -> Library {
        let mut paths: Vec<String> = sources::PAGES.map(str::to_string).into();
        paths.push("crates".to_string());
        let mut texts = BTreeMap::new();
        let proof = |path: &str| path.contains("/proofs/") && !path.contains("/proofs/laws");
        let kind = |path: &str| {
            [".md", ".rt", ".antt"]
                .iter()
                .any(|end| path.ends_with(end))
        };
        while let Some(path) = paths.pop() {
            if root.join(&path).is_dir() {
                for entry in fs::read_dir(root.join(&path)).expect("a folder") {
                    let name = entry.expect("an entry of a folder").file_name();
                    if name != "out" {
                        paths.push(format!("{path}/{}", name.to_string_lossy()));
                    }
                }
            } else if kind(&path) && !proof(&path) {
                let text = fs::read_to_string(root.join(&path)).expect("a text");
                texts.insert(path, text);
            }
        }
        Library::of(texts)
    }

    /// The items of that name in a file: each section may have one.
    fn named<'a>(&'a self, file: &str, name: &'a str) -> impl Iterator<Item = &'a Item> {
        let items = self.items.get(file).into_iter().flatten();
        items.filter(move |item| item.name == name)
    }

    /// What a name leads to that a file uses, or `within` a module that it uses. It must be there.
    /// The case of a type leads to the type.
    fn target(&self, (path, name): &Import, within: &str) -> Definition {
        let name = name.as_deref().unwrap_or(within);
        let (home, inner) = path.split_once('.').expect("a path");
        let file = |inner: &str| format!("crates/{home}/{}.antt", inner.replace('.', "/"));
        let (file, kind) = match inner.rsplit_once('.') {
            Some((outer, kind)) if !self.items.contains_key(&file(inner)) => (file(outer), kind),
            _ => (file(inner), ""),
        };
        let leads = |item: &&Item| match kind {
            "" => item.name == name || item.declares(name),
            _ => item.name == kind && item.declares(name),
        };
        let found = self
            .items
            .get(&file)
            .and_then(|items| items.iter().find(leads));
        let item = found.unwrap_or_else(|| panic!("{path} has no {name}"));
        (file, item.name.clone())
    }

    /// What a text of a file cites of the library.
    fn cited(&self, file: &str, text: &str) -> BTreeSet<Definition> {
        let mut cited = BTreeSet::new();
        for name in antt::names(text) {
            let (name, within) = name.split_once('.').unwrap_or((&name, ""));
            if self.named(file, name).next().is_some() {
                cited.insert((file.to_string(), name.to_string()));
            } else if let Some(import) = self.scopes[file].get(name) {
                cited.insert(self.target(import, within));
            }
        }
        cited
    }

    /// What a definition cites; of a theorem, its statement.
    fn cited_by(&self, (file, name): &Definition) -> BTreeSet<Definition> {
        let mut cited = BTreeSet::new();
        for item in self.named(file, name) {
            let proof = item.is_theorem() && !is_trusted(file);
            let body = if proof { "" } else { &item.body };
            let text = [&item.parameters, &item.statement, body].concat();
            cited.extend(self.cited(file, &text));
        }
        cited
    }

    /// All that a text of a file cites, directly or through definitions, and through which.
    fn reached(&self, file: &str, text: &str) -> BTreeMap<Definition, String> {
        let mut reached = BTreeMap::new();
        let cited = self.cited(file, text).into_iter();
        let mut waiting: VecDeque<_> = cited.map(|found| (found, String::new())).collect();
        while let Some((definition, chain)) = waiting.pop_front() {
            if reached.contains_key(&definition) {
                continue;
            }
            let link = if chain.is_empty() { " through" } else { "," };
            let longer = format!("{chain}{link} {}", definition.1);
            let cited = self.cited_by(&definition).into_iter();
            waiting.extend(cited.map(|found| (found, longer.clone())));
            reached.insert(definition, chain);
        }
        reached
    }
}

/// Whether a file has definitions that a reader is asked to believe.
fn is_trusted(file: &str) -> bool {
    file.contains("/specs/") && !file.contains("/inside/") && !file.contains("/laws/")
}

/// A line for each definition that a source cites and that a reader is not asked to believe, and
/// how many definitions all sources cite.
pub fn misplaced(library: &Library, sources: &[Source]) -> (Vec<String>, usize) {
    let mut lines = Vec::new();
    let mut all = BTreeSet::new();
    for Source { what, file, text } in sources {
        for (definition, chain) in library.reached(file, text) {
            let (home, name) = &definition;
            if !is_trusted(home) {
                lines.push(format!("{file}: {what} cites {name} ({home}){chain}"));
            }
            all.insert(definition);
        }
    }
    (lines, all.len())
}
