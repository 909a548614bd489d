//! The contracts of public calls, and the theorems that pages name.

use std::collections::BTreeSet;

use super::{antt::Item, is_trusted, Library, Source};
use crate::tools;

/// The pages that name theorems.
pub const PAGES: [&str; 3] = ["README.md", "docs/CONTRACTS.md", "docs/TRACE.md"];

/// The function of a program whose contract docs/TRUST.md names: a program has no public call.
const NAMED: (&str, &str) = ("crates/place/src/answer.rt", "answer");

/// A name of laws that pages use for a case of an answer, and never for the laws.
const CASE: &str = "NoSolution";

/// The contracts of public calls: of the functions in each `lib.rt`, and of those that it hands on.
/// Each must have one.
pub fn contracts(library: &Library) -> Vec<Source> {
    let mut calls = vec![(NAMED.0.to_string(), NAMED.1.to_string())];
    calls.retain(|(file, _)| library.texts.contains_key(file));
    for (file, text) in &library.texts {
        let Some(folder) = file.strip_suffix("lib.rt") else {
            continue;
        };
        for line in text.lines() {
            let line = line.replace("extern \"C\" ", "");
            if let Some(function) = line.strip_prefix("pub fn ") {
                let (name, _) = function.split_once('(').expect("parameters");
                calls.push((file.clone(), name.to_string()));
            }
            for (module, name) in tools::handed_on(&line) {
                calls.push((format!("{folder}{module}.rt"), name));
            }
        }
    }
    let source = |(file, name): (String, String)| {
        let text = tools::contract(&library.texts[&file], &name);
        let text = text.unwrap_or_else(|| panic!("{file}: {name} has no contract"));
        let what = format!("call {name}");
        Source { what, file, text }
    };
    calls.into_iter().map(source).collect()
}

/// The laws files that a page calls so: by a path, by `laws/NAME.antt`, or by NAME. If definitions
/// have a file of the same NAME, the page must have said `laws` before. Those under `specs` go before
/// those under `proofs`.
fn laws(library: &Library, called: &str, before: &str) -> Vec<String> {
    let other = format!("/specs/{called}.antt");
    let is_other = |file: &String| is_trusted(file) && file.ends_with(&other);
    let clear = before.contains("laws") || !library.items.keys().any(is_other);
    let ends = match called.ends_with(".antt") {
        true => vec![format!("/{called}")],
        false => ["specs", "proofs"]
            .map(|of| format!("/{of}/laws/{called}.antt"))
            .into(),
    };
    let meant = called.contains("laws/") || clear && called != CASE;
    let found = |end: String| -> Vec<String> {
        let files = library.items.keys();
        let files = files.filter(|file| meant && file.contains("/laws/"));
        let files = files.filter(|file| format!("/{file}").ends_with(&end));
        files.cloned().collect()
    };
    let mut found = ends.into_iter().map(found);
    found.find(|files| !files.is_empty()).unwrap_or_default()
}

/// The theorems in a file.
fn theorems_in<'a>(library: &'a Library, file: &str) -> impl Iterator<Item = &'a Item> {
    let items = library.items.get(file).into_iter().flatten();
    items.filter(|item| item.is_theorem())
}

/// The theorems that pages name. A page names laws and theorems beside them, in one paragraph or
/// cell. Laws beside which it names none are meant whole: all public theorems, or all if none is.
pub fn theorems(library: &Library) -> Vec<Source> {
    let (mut named, mut whole, mut spans) = (BTreeSet::new(), BTreeSet::new(), BTreeSet::new());
    for text in PAGES.iter().filter_map(|page| library.texts.get(*page)) {
        for block in text.replace("\n\n", "|").replace("\n- ", "|").split('|') {
            let parts: Vec<&str> = block.split('`').collect();
            let beside: BTreeSet<&str> = parts.iter().copied().skip(1).step_by(2).collect();
            for i in (1..parts.len()).step_by(2) {
                let before = parts[..i].concat();
                let files = laws(library, parts[i], &before);
                let missing = files.is_empty() && before.ends_with("laws ");
                assert!(!missing, "there are no laws {}", parts[i]);
                let mut theorems = files.iter().flat_map(|file| theorems_in(library, file));
                if !theorems.any(|theorem| beside.contains(theorem.name.as_str())) {
                    whole.extend(files.clone());
                }
                named.extend(files);
            }
            spans.extend(beside.into_iter().map(str::to_string));
        }
    }
    let mut sources = Vec::new();
    for file in named {
        let public = theorems_in(library, &file).any(|theorem| theorem.public);
        for theorem in theorems_in(library, &file) {
            let shown = whole.contains(&file) && (theorem.public || !public);
            if shown || spans.contains(&theorem.name) {
                let what = format!("theorem {}", theorem.name);
                let text = [theorem.parameters.as_str(), &theorem.statement].concat();
                let file = file.clone();
                sources.push(Source { what, file, text });
            }
        }
    }
    sources
}
