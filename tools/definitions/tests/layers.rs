//! The layers: how an entry is decided is unfolded in `steps` alone. Crates above cite laws about it, so that
//! a change of what a move does ends there.

use std::fs;
use std::path::{Path, PathBuf};

use definitions::repository::root;

/// The definitions of how an entry is decided, beside the one word for what a move does.
const DECIDED: &str = "crates/steps/specs/Single.antt";

fn read(path: &Path) -> String {
    fs::read_to_string(path).expect("a file of the repository can be read")
}

/// The files of definitions, laws and code below a folder.
fn laws_below(folder: &Path, found: &mut Vec<PathBuf>) {
    for entry in fs::read_dir(folder).expect("a folder of the repository can be read") {
        let path = entry.expect("an entry of the folder can be read").path();
        if path.is_dir() {
            // What the prover left isn't the repository's.
            if !path.ends_with("out") {
                laws_below(&path, found);
            }
        } else if path
            .extension()
            .is_some_and(|kind| kind == "antt" || kind == "rt")
        {
            found.push(path);
        }
    }
}

/// The names that a file defines as `unfoldable`.
fn unfoldable(text: &str) -> Vec<String> {
    let named = |line: &str| {
        let rest = line.strip_prefix("unfoldable pub ")?;
        rest.split_whitespace().next().map(str::to_owned)
    };
    text.lines().filter_map(named).collect()
}

fn indent(line: &str) -> usize {
    line.len() - line.trim_start().len()
}

/// The names in the lists of unfolded names; a list goes on as long as its lines are indented deeper.
fn unfolded(text: &str) -> Vec<String> {
    let mut names = Vec::new();
    let mut list = None;
    for line in text.lines() {
        if let Some(first) = line.trim_start().strip_prefix("unfolding ") {
            list = Some(indent(line));
            names.extend(first.split_whitespace().map(str::to_owned));
        } else if list.is_some_and(|depth| !line.trim().is_empty() && indent(line) > depth) {
            names.extend(line.split_whitespace().map(str::to_owned));
        } else {
            list = None;
        }
    }
    names
}

/// The names that a term opens, `unfold a b in ..`, and those that the tactics of a function may, `unfolding(a::b)`.
fn unfolded_inside(text: &str) -> Vec<String> {
    let in_terms = text.split("unfold ").skip(1);
    let in_terms = in_terms.filter_map(|rest| Some(rest.split_once(" in")?.0));
    let by_tactics = text.split("unfolding(").skip(1);
    let by_tactics = by_tactics.filter_map(|rest| Some(rest.split_once(')')?.0));
    let names = in_terms.chain(by_tactics);
    let names = names.flat_map(|list| list.split([' ', ',', '\n', ':']));
    let names = names.filter(|name| !name.is_empty());
    names.map(str::to_owned).collect()
}

#[test]
fn names_that_a_term_or_a_tactic_opens_are_read() {
    let text =
        "f = unfold a b.c in unfold d in e\n#[tactic(auto, unfolding(crate::specs::M::g, h))]";
    let expected = ["a", "b.c", "d", "crate", "specs", "M", "g", "h"];
    assert_eq!(unfolded_inside(text), expected);
}

#[test]
fn lists_of_unfolded_names_are_read_to_their_end() {
    let text = "f : A\nunfolding a b.c\n    d\nf = e\n  g : A\n  unfolding h\n  g = i\n";
    assert_eq!(unfolded(text), ["a", "b.c", "d", "h"]);
}

#[test]
fn only_steps_unfolds_how_an_entry_is_decided() {
    let decided = unfoldable(&read(&root().join(DECIDED)));
    assert!(!decided.is_empty(), "{DECIDED} defines nothing");
    let mut files = Vec::new();
    laws_below(&root().join("crates"), &mut files);
    let steps = root().join("crates/steps");
    let opened = |file: &PathBuf| {
        let text = read(file);
        let names = [unfolded(&text), unfolded_inside(&text)].concat();
        let last = |name: &String| name.rsplit('.').next().unwrap_or(name).to_owned();
        let found: Vec<String> = names
            .iter()
            .map(last)
            .filter(|name| decided.contains(name))
            .collect();
        (!found.is_empty()).then(|| format!("{}: {}", file.display(), found.join(" ")))
    };
    let above = files.iter().filter(|file| !file.starts_with(&steps));
    let faults: Vec<String> = above.filter_map(opened).collect();
    assert!(faults.is_empty(), "{faults:#?}");
}
