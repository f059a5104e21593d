//! The repository itself: nothing is left unfollowed, and docs/CLAIMS.md has the table of what to read.

use std::fs;

use definitions::print;
use definitions::reading::{Entry, Reading};
use definitions::repository::{root, Repository};
use definitions::roots::{Calls, Group, Root, GROUPS};

const SECTION: &str = "\n## What to read\n";

/// The C interface.
const CALLS: &str = "crates/capi/src/lib.rt";

/// Its calls that plan, and all others that are handed a recipe or its file.
const PLAN: Group = Group {
    title: "plan",
    roots: &[Root::Contracts(CALLS, Calls::Named(&["cellplan_plan"]))],
};
const INSTALL: Group = Group {
    title: "install",
    roots: &[Root::Contracts(CALLS, Calls::Named(&["cellplan_install"]))],
};
const OTHERS: Group = Group {
    title: "the others",
    roots: &[Root::Contracts(
        CALLS,
        Calls::Named(&[
            "cellplan_read_recipe",
            "cellplan_check",
            "cellplan_next_move",
            "cellplan_report",
            "cellplan_report_record",
            "cellplan_place",
        ]),
    )],
};

fn read(groups: &[Group]) -> Reading {
    let repository = Repository::open(root()).expect("the repository can be read");
    Reading::of(&repository, groups)
}

fn reading() -> Reading {
    read(GROUPS)
}

/// The definitions that a contract of these calls reaches.
fn reached(calls: Group) -> Vec<Entry> {
    let files = read(&[calls]).definitions;
    files.into_iter().flat_map(|file| file.entries).collect()
}

/// Which of them name a definition, but for that definition itself.
fn naming<'a>(entries: &'a [Entry], definition: &str) -> Vec<&'a str> {
    let names = |text: &str| {
        text.split(|c: char| !c.is_alphanumeric() && c != '_')
            .any(|word| word == definition)
    };
    let others = entries.iter().filter(|entry| entry.name != definition);
    others
        .filter(|entry| names(&entry.text))
        .map(|entry| entry.name.as_str())
        .collect()
}

/// Whether one of them has the rules on records of a call that plans, or of another.
fn tries(entries: &[Entry], plans: bool) -> bool {
    let rules = format!("record_rules {plans} ");
    entries.iter().any(|entry| entry.text.contains(&rules))
}

#[test]
fn every_name_is_followed_and_no_contract_needs_a_proof() {
    let faults = reading().faults;
    assert!(faults.is_empty(), "{faults:#?}");
}

#[test]
fn the_claims_say_what_to_read() {
    let claims = fs::read_to_string(root().join("docs/CLAIMS.md")).expect("the claims are there");
    let (_, section) = claims.split_once(SECTION).expect("the section is there");
    let lines = section.lines().skip_while(|line| !line.starts_with('|'));
    let table: String = lines
        .take_while(|line| line.starts_with('|'))
        .map(|line| format!("{line}\n"))
        .collect();
    assert!(
        table == print::table(&reading()),
        "docs/CLAIMS.md: put what `cargo run --offline --release -p definitions -- --table` prints \
         in the place of the table in \"What to read\""
    );
}

/// Rule 22 stands in the rules on a chapter alone, those in the rules on all of them, those in the rules on
/// records, and the call says there whether it plans.
#[test]
fn only_calls_that_plan_try_rule_22() {
    let (plan, install, others) = (reached(PLAN), reached(INSTALL), reached(OTHERS));
    for entries in [&plan, &install, &others] {
        assert_eq!(naming(entries, "rule22"), ["chapter_rules"]);
        assert_eq!(naming(entries, "chapter_rules"), ["chapters_rules"]);
        assert_eq!(naming(entries, "chapters_rules"), ["record_rules"]);
    }
    assert!(tries(&plan, true) && tries(&install, true));
    assert!(tries(&others, false) && !tries(&others, true));
}
