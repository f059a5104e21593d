//! The list, the table and the text, as they are printed.

use std::fmt::Write;

use crate::reading::{FileReading, Reading};

/// The width of the column with names.
const WIDTH: usize = 44;

/// Every contract, definition, struct and enum with its lines, by crate and file; what the toolchain defines;
/// and what each group adds.
pub fn list(reading: &Reading) -> String {
    let mut out = String::from("Lines are counted without blank lines, comments and imports.\n");
    for (title, files) in [
        ("Contracts of the exported calls", &reading.contracts),
        (
            "Definitions that they and the closing theorems reach",
            &reading.definitions,
        ),
        ("Structs and enums of the code", &reading.types),
    ] {
        let _ = writeln!(out, "\n{title}");
        by_crate(&mut out, files);
    }
    out += "\nDefined by the toolchain, and not followed\n\n";
    for (module, names) in &reading.toolchain {
        let names: Vec<&str> = names.iter().map(String::as_str).collect();
        let _ = writeln!(out, "{module}: {}", names.join(" "));
    }
    groups(&mut out, reading);
    out
}

/// What each group adds to those before it.
fn groups(out: &mut String, reading: &Reading) {
    let _ = writeln!(
        out,
        "\n{:<WIDTH$}{:>12}{:>6}{:>18}{:>6}",
        "Beyond the group before", "definitions", "lines", "structs and enums", "lines"
    );
    let mut row = |title: &str, [definitions, lines, types, type_lines]: [usize; 4]| {
        let _ = writeln!(
            out,
            "{title:<WIDTH$}{definitions:>12}{lines:>6}{types:>18}{type_lines:>6}"
        );
    };
    for group in &reading.groups {
        let counts = [
            group.definitions,
            group.lines,
            group.types,
            group.type_lines,
        ];
        row(group.title, counts);
    }
    let (definitions, lines) = sums(&reading.definitions);
    let (types, type_lines) = sums(&reading.types);
    row("in all", [definitions, lines, types, type_lines]);
}

/// The entries of some files, with the sums of each file and crate.
fn by_crate(out: &mut String, files: &[FileReading]) {
    for files in files.chunk_by(|a, b| home(a) == home(b)) {
        let (count, lines) = sums(files);
        let _ = writeln!(out, "\n{:<WIDTH$}{count:>12}{lines:>6}", home(&files[0]));
        for file in files {
            let (count, lines) = sums(std::slice::from_ref(file));
            let _ = writeln!(out, "  {:<WIDTH$}{count:>10}{lines:>6}", file.path);
            for entry in &file.entries {
                let _ = writeln!(out, "    {:<WIDTH$}{:>14}", entry.name, entry.lines);
            }
        }
    }
}

/// The crate of a file.
fn home(file: &FileReading) -> &str {
    file.path.split('/').nth(1).unwrap_or_default()
}

/// How many entries some files have, and their lines.
fn sums(files: &[FileReading]) -> (usize, usize) {
    let count = files.iter().map(|file| file.entries.len()).sum();
    let entries = files.iter().flat_map(|file| &file.entries);
    (count, entries.map(|entry| entry.lines).sum())
}

/// The table of docs/CLAIMS.md: the files, how many of their definitions are reached, and their lines.
pub fn table(reading: &Reading) -> String {
    let mut out = String::from("| File | Definitions | Lines |\n|---|---|---|\n");
    for file in &reading.definitions {
        let (count, lines) = sums(std::slice::from_ref(file));
        let _ = writeln!(
            out,
            "| `{}` | {count} of {} | {lines} |",
            file.path, file.declared
        );
    }
    let (count, lines) = sums(&reading.definitions);
    let _ = writeln!(out, "| total | {count} | {lines} |");
    for file in &reading.types {
        let names: Vec<String> = file
            .entries
            .iter()
            .map(|e| format!("`{}`", e.name))
            .collect();
        let (_, lines) = sums(std::slice::from_ref(file));
        let _ = writeln!(out, "| `{}` | {} | {lines} |", file.path, names.join(", "));
    }
    let (count, lines) = sums(&reading.types);
    let _ = writeln!(out, "| total of structs and enums | {count} | {lines} |");
    out
}

/// The contracts, the structs and enums and the definitions themselves, with their comments.
pub fn text(reading: &Reading) -> String {
    let mut out = String::new();
    for file in [&reading.contracts, &reading.types, &reading.definitions]
        .into_iter()
        .flatten()
    {
        let _ = writeln!(out, "==== {}\n{}\n", file.path, file.header);
        for entry in &file.entries {
            let _ = writeln!(out, "{}\n", entry.text);
        }
    }
    out
}
