//! The definitions that a reader must believe. docs/TRUST.md says that contracts of public calls
//! and theorems that pages name are stated with them alone: with nothing of `inside` or `laws`.

mod specs;
mod tools;

use specs::{misplaced, sources, Library};

#[test]
fn contracts_and_named_theorems_cite_definitions_alone() {
    let library = Library::read(&tools::root());
    let contracts = sources::contracts(&library);
    assert!(contracts.len() >= 35, "{} contracts", contracts.len());
    let theorems = sources::theorems(&library);
    assert!(theorems.len() >= 180, "{} theorems", theorems.len());
    let (mut lines, count) = misplaced(&library, &contracts);
    assert!(count >= 350, "contracts cite {count} definitions");
    let (others, count) = misplaced(&library, &theorems);
    assert!(count >= 400, "theorems cite {count} definitions");
    lines.extend(others);
    assert!(lines.is_empty(), "\n{}", lines.join("\n"));
}

/// Definitions of a small library, one of which cites `inside`.
const ENDS: &str = "
use Rattle.wire.specs.inside.Steps.{next_step}
-- the next end
abbrev pub next_end : ℕ → ℕ
next_end n = next_step n
pub data Side : Type 0 where
  left : Side
  right : ℕ → Side
";

/// A definition that only private contracts may cite.
const STEPS: &str = "
unfoldable pub next_step : ℕ → ℕ
next_step n = suc n
";

/// Two theorems, one of which cites definitions that stand beside it.
const SIDES: &str = "
use Rattle.wire.specs.Ends.{Side, left as first_side}
pub record Opposite (a b : Side) : Type 0 where
  pub differ : a ≡ b → ⊥

module _ (start : ℕ)
    (side : Side) where
  abbrev here : Side
  here = side

  -- a side is not its opposite
  pub two_sides : (a : Side) → Opposite here a
      → a ≡ first_side → ⊥
  unfolding here
  two_sides a o e = o.differ e

pub one_side : (here : Side) → here ≡ here
one_side here = refl
";

/// A public call and a private function, with contracts that cite the same.
const CALL: &str = "
ghost use Rattle.wire.specs.Ends.{next_end};
ghost use Rattle.wire.specs.inside.Steps.{«next_step»};
pub extern \"C\" fn step(n: usize) -> usize
    ensures answer { result ≡
        next_step n }
{
    hidden(n)
}
fn hidden(n: usize) -> usize
    ensures { result ≡ next_step n }
{
    n + 1
}
";

/// What is misplaced in the small library with one more file.
fn found(file: &str, text: &str) -> Vec<String> {
    let files = [
        ("crates/wire/specs/Ends.antt", ENDS),
        ("crates/wire/specs/inside/Steps.antt", STEPS),
        ("crates/wire/specs/laws/Sides.antt", SIDES),
        (file, text),
    ];
    let texts = files.map(|(file, text)| (file.to_string(), text.to_string()));
    let library = Library::of(texts.into());
    let mut sources = sources::contracts(&library);
    sources.extend(sources::theorems(&library));
    misplaced(&library, &sources).0
}

#[test]
fn contracts_that_cite_inside_are_found() {
    let file = "crates/wire/src/lib.rt";
    let line = format!("{file}: call step cites next_step (crates/wire/specs/inside/Steps.antt)");
    let citing = |name: &str| found(file, &CALL.replace("next_step n", name));
    assert_eq!(citing("next_step n"), [line.as_str()]);
    assert_eq!(citing("next_end n"), [format!("{line} through next_end")]);
    assert_eq!(citing("suc n"), [""; 0]);
}

#[test]
fn named_theorems_that_cite_laws_are_found() {
    let file = "crates/wire/specs/laws/Sides.antt";
    let lines =
        ["Opposite", "here"].map(|name| format!("{file}: theorem two_sides cites {name} ({file})"));
    for page in [
        "(`Sides`: `two_sides`)",
        "| laws `Sides` |",
        &format!("`{file}`"),
    ] {
        assert_eq!(found("README.md", page), lines, "{page}");
    }
    assert_eq!(found("README.md", "(`Sides`: `one_side`)"), [""; 0]);
}

#[test]
#[should_panic(expected = "wire.specs.inside.Steps has no last_step")]
fn names_that_are_not_there_are_told() {
    found("crates/wire/src/lib.rt", &CALL.replace("next_", "last_"));
}

#[test]
#[should_panic(expected = "there are no laws Ends")]
fn laws_that_are_not_there_are_told() {
    found("README.md", "| the ends | laws `Ends`: `two_ends` |");
}
