//! What small repositories' contracts and theorems reach.

use definitions::print;
use definitions::reading::{FileReading, Reading};
use definitions::repository::Repository;
use definitions::roots::{Calls, Group, Root};

const CRATES: &str = "# The lower crate.\nlow:\ntop: low\n";

/// The toolchain's module from which most of its words come.
const PRELUDE: &str = "Rattle.std.specs.Prelude";

const CALL: &[Group] = &[Group {
    title: "call",
    roots: &[Root::Contracts(
        "crates/top/src/lib.rt",
        Calls::Named(&["call"]),
    )],
}];

/// A file of Rattle whose function `call` ensures the fact, `Number` and `Call` being imported.
fn contract(names: &str, fact: &str) -> String {
    format!(
        "ghost use Rattle.std.specs.Prelude.{{◌≡◌}};\n\
         ghost use Rattle.top.specs.Main.{{{names}}};\n\
         // `other` is not cited here.\n\
         pub fn call(x: u8, y: &[u8]) -> u8\n    ensures {{ {fact} }}\n{{\n    x\n}}\n"
    )
}

/// What the contract of `call` reaches in a crate with this file of definitions.
fn read(names: &str, fact: &str, main: &str) -> Reading {
    let call = contract(names, fact);
    let files = [
        ("crates/top/specs/Lib.antt", "pub mod Main\n"),
        ("crates/top/specs/Main.antt", main),
        ("crates/top/src/lib.rt", &call),
    ];
    Reading::of(&Repository::new(CRATES, files), CALL)
}

fn names(files: &[FileReading]) -> Vec<&str> {
    let entries = files.iter().flat_map(|file| &file.entries);
    entries.map(|entry| entry.name.as_str()).collect()
}

fn lines(files: &[FileReading]) -> Vec<usize> {
    let entries = files.iter().flat_map(|file| &file.entries);
    entries.map(|entry| entry.lines).collect()
}

#[track_caller]
fn assert_reaches(reading: &Reading, expected: &[&str]) {
    assert_eq!(names(&reading.definitions), expected);
    assert!(reading.faults.is_empty(), "{:?}", reading.faults);
}

#[test]
fn one_definition_of_two() {
    let main = "use Rattle.std.specs.Prelude.{ℕ, ◌+◌}\n\n\
                -- one more\nunfoldable pub more : ℕ → ℕ\nmore n = n + 1\n\n\
                unfoldable pub other : ℕ → ℕ\nother n = n\n";
    let reading = read("more", "result ≡ more x", main);
    assert_reaches(&reading, &["more"]);
    assert_eq!(lines(&reading.definitions), [2]);
    assert_eq!(reading.definitions[0].declared, 2);
    assert!(print::text(&reading).contains("-- one more\nunfoldable pub more"));
    let toolchain: Vec<&str> = reading.toolchain.keys().map(String::as_str).collect();
    assert_eq!(toolchain, [PRELUDE]);
    let names: Vec<&str> = reading.toolchain[PRELUDE]
        .iter()
        .map(|name| &**name)
        .collect();
    assert_eq!(names, ["ℕ", "◌+◌", "◌≡◌"]);
}

/// A crate that the list does not name is one of the toolchain's, whatever its path looks like.
#[test]
fn the_toolchain_has_its_names_by_module() {
    let main = "use Rattle.std.specs.Prelude.{ℕ}\nuse Rattle.std.specs.Int.Count.{up}\n\
                use Rattle.io.specs.Counts.{Counted}\n\n\
                pub more : Counted → ℕ\nmore n = up n\n";
    let reading = read("more", "result ≡ more x", main);
    assert_reaches(&reading, &["more"]);
    let listed = |module: &str| Vec::from_iter(reading.toolchain[module].iter().cloned());
    assert_eq!(listed("Rattle.io.specs.Counts"), ["Counted"]);
    assert_eq!(listed("Rattle.std.specs.Int.Count"), ["up"]);
    assert_eq!(listed(PRELUDE), ["ℕ", "◌≡◌"]);
    assert_eq!(reading.toolchain.len(), 3);
}

#[test]
fn a_helper_is_reached_and_lines_are_counted_without_comments() {
    let main = "use Rattle.std.specs.Prelude.{ℕ, zero, suc}\n\n\
                helper : ℕ → ℕ\n-- two cases\nhelper zero = 0\n\nhelper (suc n) =\n    n\n\n\
                {- other n\n   is not cited -}\n\
                abbrev pub more : ℕ → ℕ\nmore n = helper n -- not other\n\n\
                pub other : ℕ\nother = 0\n";
    let reading = read("more", "result ≡ more x", main);
    assert_reaches(&reading, &["helper", "more"]);
    assert_eq!(lines(&reading.definitions), [4, 2]);
}

#[test]
fn a_comment_reaches_nothing() {
    let main = "use Rattle.std.specs.Prelude.{ℕ}\n\n\
                -- as other, and {- other -}\nabbrev pub more : ℕ → ℕ\nmore n = n -- other\n\n\
                abbrev pub other : ℕ\nother = 0\n";
    assert_reaches(&read("more, other", "result ≡ more x", main), &["more"]);
}

#[test]
fn a_constructor_reaches_its_data_type() {
    let main = "use Rattle.std.specs.Prelude.{ℕ}\n\n\
                pub record Held : Type 0 where\n  pub count : ℕ\n\n\
                pub data Call : Type 0 where\n  asks : Call\n  reports : Held → Call\n\n\
                unfoldable pub made : ℕ → Call\nmade n = asks\n\n\
                unfoldable pub told : ℕ → ℕ\ntold n = n\n";
    let reading = read("made", "made x ≡ made result", main);
    assert_reaches(&reading, &["Held", "Call", "made"]);
    assert_eq!(lines(&reading.definitions), [2, 3, 2]);
    let reading = read("asks", "asks ≡ asks", main);
    assert_reaches(&reading, &["Held", "Call"]);
}

#[test]
fn a_pattern_binds_a_name_but_cites_a_constructor() {
    let main = "use Rattle.std.specs.Prelude.{ℕ}\n\n\
                pub data Call : Type 0 where\n  asks : Call\n  reports : ℕ → Call\n\n\
                abbrev pub outcome : ℕ\noutcome = 0\n\n\
                abbrev pub told : {A : Type 0} → A → ℕ\ntold asks = 0\ntold (reports outcome) = outcome\n";
    assert_reaches(&read("told", "told x ≡ result", main), &["Call", "told"]);
}

#[test]
fn bound_names_and_fields_are_no_citations() {
    let main = "use Rattle.std.specs.Prelude.{ℕ, ◌+◌}\n\n\
                pub record Pair : Type 0 where\n  pub left : ℕ\n  pub right : ℕ\n\n\
                abbrev pub left : ℕ\nleft = 0\n\n\
                abbrev pub each : (ℕ → ℕ) → ℕ\neach f = f 0\n\n\
                abbrev pub pair : ℕ → Pair\npair right = record { left = each (λ left. left); right = right }\n\n\
                pub record Law (p : Pair) : Type 0 where\n  pub bound : ℕ\n  pub all : (left : ℕ) → left + bound + p .left + p.right\n  \
                pub some : let left = 1 in left + 2\n\n\
                abbrev pub bound : ℕ\nbound = 0\n";
    let reading = read("pair, Law", "Law (pair result)", main);
    assert_reaches(&reading, &["Pair", "each", "pair", "Law"]);
    // What a binder binds ends with its brackets.
    let main = main.replace("; right = right }", "; right = left }");
    let reading = read("pair", "pair result ≡ pair x", &main);
    assert_reaches(&reading, &["Pair", "left", "each", "pair"]);
}

#[test]
fn parameters_of_the_function_hide_imported_names() {
    let main =
        "use Rattle.std.specs.Prelude.{ℕ}\n\nabbrev pub x : ℕ\nx = 0\n\nabbrev pub entry : ℕ\nentry = 0\n";
    let reading = read("x, entry", "(result ≡ x) × (y.now.entry ≡ y.now)", main);
    assert_reaches(&reading, &[]);
}

#[test]
fn an_operator_is_reached_by_its_parts() {
    let main = "use Rattle.std.specs.Prelude.{ℕ, ◌+◌}\n\n\
                pub ◌⊕◌ : ℕ → ℕ → ℕ\nn ⊕ m = n + m\n\n\
                pub table' : ℕ\ntable' = 0\n\npub joint_is : ℕ\njoint_is = table'\n";
    assert_reaches(&read("◌⊕◌", "result ≡ (x ⊕ x)", main), &["◌⊕◌"]);
    assert_reaches(
        &read("joint_is", "result ≡ joint_is", main),
        &["table'", "joint_is"],
    );
}

/// Two crates, of which the upper one's definition cites the lower one's.
fn two_crates(call: &str) -> Repository {
    let main = "use Rattle.low.specs.Late.{late}\nuse Rattle.low.specs.declared.Outer.{Outer}\n\
                use Rattle.low.specs.declared.Kind.TheVariants.{Odd}\n\
                use Rattle.low.specs.Early as early\n\n\
                pub whole : Outer → Outer\nwhole Odd = late\nwhole o = early.first\n";
    let late = "use Rattle.low.specs.Early.{second}\n\nabbrev pub late : ℕ\nlate = second\n\
                -- The prelude's.\nabbrev pub unused : ⊥\nunused = late\n";
    let early = "abbrev pub first : ⊥\nfirst = 0\n\nabbrev pub second : ⊥\nsecond = 0\n\nabbrev pub third : ⊥\nthird = 0\n";
    let types = "// A kind.\npub enum Kind {\n    Even,\n    // Other.\n    Odd(Inner),\n}\n\npub struct Inner(u8);\n\n\
                 #[repr(C)]\npub struct Outer {\n    pub inner: [Inner; 3],\n}\n\npub struct Alone {\n    pub x: u8,\n}\n";
    let files = [
        ("crates/top/specs/Main.antt", main),
        ("crates/top/src/lib.rt", call),
        ("crates/low/specs/Lib.antt", "pub mod Late\npub mod Early\n"),
        ("crates/low/specs/Late.antt", late),
        ("crates/low/specs/Early.antt", early),
        ("crates/low/src/lib.rt", types),
    ];
    Repository::new(CRATES, files)
}

#[test]
fn a_definition_of_another_crate_in_reading_order() {
    let call = contract("whole", "whole result");
    let repository = two_crates(&call);
    let mut reading = Reading::of(&repository, CALL);
    // `late` has a type that nothing brings.
    let faults = std::mem::take(&mut reading.faults);
    let fault = "crates/low/specs/Late.antt cites ℕ, and nothing says what that is";
    assert_eq!(Vec::from_iter(faults), [fault]);
    assert_reaches(&reading, &["late", "first", "second", "whole"]);
    let paths: Vec<&str> = reading
        .definitions
        .iter()
        .map(|f| f.path.as_str())
        .collect();
    assert_eq!(
        paths,
        [
            "crates/low/specs/Late.antt",
            "crates/low/specs/Early.antt",
            "crates/top/specs/Main.antt"
        ]
    );
    assert_eq!(names(&reading.types), ["Kind", "Inner", "Outer"]);
    assert_eq!(lines(&reading.types), [4, 1, 4]);
}

#[test]
fn the_types_of_a_signature_and_a_variant_behind_its_type() {
    let call = "use low::Alone;\nuse low::Kind;\n\
                pub fn call(x: &Alone) -> u8\n    requires { Kind.Even }\n{\n    0\n}\n";
    let reading = Reading::of(&two_crates(call), CALL);
    assert_reaches(&reading, &[]);
    assert_eq!(names(&reading.types), ["Kind", "Inner", "Alone"]);
}

/// An attribute of the file above the imports, several types in one `use`, types of an inner module, and clauses
/// that have names.
#[test]
fn what_a_file_of_today_may_have() {
    let call = "#![tactic(auto, using(some, other))]\n\n\
                ghost use Rattle.low.specs.declared.inner.Kind.TheVariants.{Even};\n\
                ghost use Rattle.low.specs.Late.{late};\nghost use Rattle.low.specs.Early.{first, third};\n\
                use low::inner::{Alone, Outer};\n\n\
                #[tactic(auto, using(third))]\npub fn call(x: Alone, y: &Outer) -> u8\n    \
                    requires even { Even }\n    requires { first ≡ y.now }\n    \
                    ensures low { late }\n    ensures high { result.third }\n{\n    0\n}\n";
    let mut reading = Reading::of(&two_crates(call), CALL);
    let faults = Vec::from_iter(std::mem::take(&mut reading.faults));
    assert_eq!(
        faults,
        [
            "crates/low/specs/Late.antt cites ℕ, and nothing says what that is",
            "crates/top/src/lib.rt cites ≡, and nothing says what that is",
        ]
    );
    assert_reaches(&reading, &["late", "first", "second"]);
    let types = names(&reading.types);
    assert_eq!(types, ["Kind", "Inner", "Outer", "Alone"]);
    assert!(print::text(&reading).contains("#[tactic(auto, using(third))]\npub fn call"));
}

#[test]
fn types_of_the_toolchain_are_listed_and_not_followed() {
    let call = "use std::fmt::Error;\nuse inner::Held;\n\
                pub fn call(x: Held) -> Result<Option<Own>, Error> {\n    0\n}\n\
                pub struct Own(u8);\n";
    let files = [
        ("crates/top/src/lib.rt", call),
        ("crates/top/src/inner.rt", "pub struct Held(Vec<u8>);\n"),
    ];
    let reading = Reading::of(&Repository::new(CRATES, files), CALL);
    assert_reaches(&reading, &[]);
    assert_eq!(names(&reading.types), ["Held", "Own"]);
    let listed = Vec::from_iter(reading.toolchain["std"].iter().cloned());
    assert_eq!(listed, ["Error", "Option", "Result", "Vec"]);
}

#[test]
fn a_crate_may_have_its_kind_before_the_colon() {
    let list = "# The crates.\nlow:\n\nffi staticlib: low\n# top:\nlast\n";
    assert_eq!(Repository::new(list, []).crates, ["low", "ffi", "last"]);
}

#[test]
fn methods_and_external_functions_count_what_the_groups_before_do_not() {
    const GROUPS: &[Group] = &[
        Group {
            title: "methods",
            roots: &[Root::Contracts(
                "crates/top/src/lib.rt",
                Calls::Methods("Run"),
            )],
        },
        Group {
            title: "external",
            roots: &[Root::Contracts("crates/top/src/lib.rt", Calls::External)],
        },
    ];
    let code = "ghost use Rattle.top.specs.Main.{a, b, c};\n\
                pub struct Run {\n    pub x: u8,\n}\n\
                impl Run {\n    pub fn shown(self) -> Run\n        ensures { a }\n    {\n        self\n    }\n\
                    fn hidden(self) -> Run\n        ensures { c }\n    {\n        self\n    }\n}\n\
                #[unsafe(no_mangle)]\npub extern \"C\" fn out(x: &[u8]) -> u8\n    ensures { b }\n{\n    0\n}\n\
                pub fn inner() -> u8\n    ensures { c }\n{\n    0\n}\n";
    let main = "pub a : ⊥\na = 0\n\npub b : ⊥\nb = a\n\npub c : ⊥\nc = b\n";
    let files = [
        ("crates/top/specs/Main.antt", main),
        ("crates/top/src/lib.rt", code),
    ];
    let reading = Reading::of(&Repository::new(CRATES, files), GROUPS);
    assert_reaches(&reading, &["a", "b"]);
    assert_eq!(names(&reading.contracts), ["Run::shown", "out"]);
    let counts: Vec<_> = reading
        .groups
        .iter()
        .map(|g| (g.definitions, g.types))
        .collect();
    assert_eq!(counts, [(1, 1), (1, 0)]);
}

const LAWS: &str = "use Rattle.top.specs.Main.{said, used, proved}\n\n\
                    module _ (n : used) where\n  helper : proved\n  helper = n\n\n  \
                    -- \"a sentence\"\n  pub demand :\n      said\n      → said\n  unfolding said\n  demand s = helper\n";

const DEFINED: &str =
    "pub said : ⊥\nsaid = 0\n\npub used : ⊥\nused = 0\n\npub proved : ⊥\nproved = 0\n";

#[test]
fn a_theorem_reaches_by_its_statement_alone() {
    const GROUPS: &[Group] = &[Group {
        title: "theorems",
        roots: &[Root::Theorems("crates/top/proofs/Laws.antt", &["demand"])],
    }];
    let files = [
        ("crates/top/specs/Main.antt", DEFINED),
        ("crates/top/proofs/Laws.antt", LAWS),
    ];
    let reading = Reading::of(&Repository::new(CRATES, files), GROUPS);
    let expected = ["said", "used", "module _", "demand (statement)"];
    assert_reaches(&reading, &expected);
    assert_eq!(lines(&reading.definitions), [2, 2, 1, 3]);
    assert!(!print::text(&reading).contains("helper"));
}

#[test]
fn a_contract_that_reaches_a_proof_is_a_fault() {
    let main = "use Rattle.top.proofs.Laws.{helper}\n\npub said : ⊥\nsaid = helper\n\n\
                pub used : ⊥\nused = 0\n\npub proved : ⊥\nproved = 0\n";
    let call = contract("said", "said");
    let files = [
        ("crates/top/specs/Main.antt", main),
        ("crates/top/proofs/Laws.antt", LAWS),
        ("crates/top/src/lib.rt", &call),
    ];
    let reading = Reading::of(&Repository::new(CRATES, files), CALL);
    let faults: Vec<String> = reading.faults.into_iter().collect();
    let expected = ["helper", "module _"].map(|name| {
        format!("call: a contract reaches {name}, which stands in crates/top/proofs/Laws.antt")
    });
    assert_eq!(faults, expected);
}

#[test]
fn what_cannot_be_followed_is_a_fault() {
    let fault = |names: &str, fact: &str, main: &str| {
        let faults = read(names, fact, main).faults;
        Vec::from_iter(faults).join("; ")
    };
    assert_eq!(
        fault("said", "said", "pub other : ⊥\nother = 0\n"),
        "crates/top/src/lib.rt cites said, which crates/top/specs/Main.antt has not"
    );
    assert_eq!(
        fault("said", "unsaid", DEFINED),
        "crates/top/src/lib.rt cites unsaid, and nothing says what that is"
    );
    assert_eq!(
        fault("said", "said", "infixl 70 ◌+◌\n"),
        "crates/top/specs/Main.antt, line 1: `infixl` is not read"
    );
    let renamed = Repository::new(CRATES, [("crates/top/src/lib.rt", "fn caller() {}\n")]);
    let faults = Vec::from_iter(Reading::of(&renamed, CALL).faults);
    assert_eq!(
        faults,
        ["crates/top/src/lib.rt has not the functions Named([\"call\"])"]
    );
}
