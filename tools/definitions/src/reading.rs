//! What is to be read, in reading order: crates in the order of crates.txt, files in the order in which the
//! crate's `Lib.antt` declares them, declarations as they stand.

use std::collections::{BTreeMap, BTreeSet};

use crate::reach::{Library, Node, Part, Reached};
use crate::repository::Repository;
use crate::roots::{Group, Root};

/// A definition, a statement, a struct or enum, or a contract.
#[derive(Clone, Debug)]
pub struct Entry {
    pub name: String,
    /// How many lines it has without blank lines and comments.
    pub lines: usize,
    /// Its text, with the comment above it.
    pub text: String,
}

/// What is read of a file.
#[derive(Clone, Debug)]
pub struct FileReading {
    pub path: String,
    /// The comment with which it begins.
    pub header: String,
    pub entries: Vec<Entry>,
    /// How many the file has in all.
    pub declared: usize,
}

/// What a group of roots reaches that no group before it does.
#[derive(Clone, Debug)]
pub struct GroupReading {
    pub title: &'static str,
    pub definitions: usize,
    pub lines: usize,
    pub types: usize,
    pub type_lines: usize,
}

#[derive(Clone, Debug)]
pub struct Reading {
    pub contracts: Vec<FileReading>,
    pub definitions: Vec<FileReading>,
    pub types: Vec<FileReading>,
    pub groups: Vec<GroupReading>,
    pub toolchain: BTreeMap<String, BTreeSet<String>>,
    pub faults: BTreeSet<String>,
}

impl Reading {
    pub fn of(repository: &Repository, groups: &[Group]) -> Reading {
        let mut library = Library::new(repository);
        let mut all = Reached::default();
        let mut counted = Vec::new();
        for group in groups.iter().filter(|group| !group.roots.is_empty()) {
            let reached = library.reached(group.roots);
            let new: Vec<Node> = reached.nodes.difference(&all.nodes).cloned().collect();
            counted.push(count(repository, &mut library, group, &new));
            all.faults.extend(proofs_cited(&mut library, group));
            all.faults.extend(reached.faults);
            all.nodes.extend(reached.nodes);
            for (module, names) in reached.toolchain {
                all.toolchain.entry(module).or_default().extend(names);
            }
        }
        let mut files = |parts: &[Part]| files_of(repository, &mut library, &all.nodes, parts);
        Reading {
            contracts: files(&[Part::Contract]),
            definitions: files(&[Part::Definition, Part::Statement]),
            types: files(&[Part::Type]),
            groups: counted,
            toolchain: all.toolchain,
            faults: all.faults,
        }
    }
}

/// Contracts have to be readable without proofs: a declaration of `proofs/` among what they reach is a fault.
fn proofs_cited(library: &mut Library, group: &Group) -> Vec<String> {
    let contracts = group.roots.iter().copied();
    let contracts = contracts.filter(|root| matches!(root, Root::Contracts(..)));
    let reached = library.reached(&contracts.collect::<Vec<Root>>());
    let in_proofs = |node: &&Node| node.file.contains("/proofs/");
    let nodes = reached.nodes.iter().filter(in_proofs);
    let fault = |node: &Node| {
        let file = library.antt(&node.file).ok()?;
        let (title, name) = (group.title, file.declarations[node.index].name);
        Some(format!(
            "{title}: a contract reaches {name}, which stands in {}",
            node.file
        ))
    };
    nodes.filter_map(fault).collect()
}

fn count(
    repository: &Repository,
    library: &mut Library,
    group: &Group,
    new: &[Node],
) -> GroupReading {
    let mut reading = GroupReading {
        title: group.title,
        definitions: 0,
        lines: 0,
        types: 0,
        type_lines: 0,
    };
    for node in new {
        let entry = entry_of(repository, library, node);
        let lines = entry.map_or(0, |entry| entry.lines);
        match node.part {
            Part::Contract => {}
            Part::Type => {
                reading.types += 1;
                reading.type_lines += lines;
            }
            Part::Definition | Part::Statement => {
                reading.definitions += 1;
                reading.lines += lines;
            }
        }
    }
    reading
}

/// The nodes of these parts, by their files in reading order.
fn files_of(
    repository: &Repository,
    library: &mut Library,
    nodes: &BTreeSet<Node>,
    parts: &[Part],
) -> Vec<FileReading> {
    let mut by_file: BTreeMap<&str, Vec<&Node>> = BTreeMap::new();
    for node in nodes.iter().filter(|node| parts.contains(&node.part)) {
        by_file.entry(&node.file).or_default().push(node);
    }
    let mut files: Vec<_> = by_file.into_iter().collect();
    files.sort_by_cached_key(|(path, _)| place(repository, library, path));
    let read = files.into_iter().map(|(path, nodes)| FileReading {
        path: path.to_string(),
        header: header_of(repository, path),
        entries: nodes
            .iter()
            .filter_map(|node| entry_of(repository, library, node))
            .collect(),
        declared: match parts {
            [Part::Type] => library.rattle(path).map_or(0, |file| file.types.len()),
            [Part::Contract] => library.rattle(path).map_or(0, |file| file.functions.len()),
            _ => library.antt(path).map_or(0, |file| file.declarations.len()),
        },
    });
    read.collect()
}

/// A file's place in reading order.
fn place(
    repository: &Repository,
    library: &mut Library,
    path: &str,
) -> (usize, bool, usize, String) {
    let parts: Vec<&str> = path.split('/').collect();
    let (home, folder, file) = match parts[..] {
        [_, home, folder, file] => (home, folder, file),
        _ => ("", "", path),
    };
    let name = file.split('.').next().unwrap_or(file);
    let listed = repository.crates.iter().position(|listed| listed == home);
    let lib = library.antt(&format!("crates/{home}/{folder}/Lib.antt"));
    let declared = lib.map_or(None, |lib| lib.modules.iter().position(|&m| m == name));
    (
        listed.unwrap_or(usize::MAX),
        folder != "specs",
        declared.unwrap_or(usize::MAX),
        path.to_string(),
    )
}

fn entry_of(repository: &Repository, library: &mut Library, node: &Node) -> Option<Entry> {
    let (name, lines) = match node.part {
        Part::Contract => {
            let file = library.rattle(&node.file).ok()?;
            let function = &file.functions[node.index];
            let owner = function.owner.map(|owner| format!("{owner}::"));
            let name = format!("{}{}", owner.unwrap_or_default(), function.name);
            (name, (function.first_line..=function.last_line).collect())
        }
        Part::Type => {
            let file = library.rattle(&node.file).ok()?;
            let declared = &file.types[node.index];
            (declared.name.to_string(), declared.lines.clone())
        }
        Part::Definition => {
            let file = library.antt(&node.file).ok()?;
            let declaration = &file.declarations[node.index];
            (declaration.name.to_string(), declaration.lines.clone())
        }
        Part::Statement => {
            let file = library.antt(&node.file).ok()?;
            let declaration = &file.declarations[node.index];
            let name = format!("{} (statement)", declaration.name);
            (name, declaration.statement_lines.clone())
        }
    };
    Some(Entry {
        name,
        lines: lines.len(),
        text: text_of(repository.files.get(&node.file)?, &lines),
    })
}

/// The lines from the first to the last, with the comment that stands right above.
fn text_of(text: &str, lines: &[usize]) -> String {
    let (Some(&first), Some(&last)) = (lines.first(), lines.last()) else {
        return String::new();
    };
    let all: Vec<&str> = text.lines().collect();
    let comments = all[..first].iter().rev();
    let above = comments.take_while(|line| is_comment(line)).count();
    all[first - above..=last].join("\n")
}

fn header_of(repository: &Repository, path: &str) -> String {
    let text = repository.files.get(path).map_or("", String::as_str);
    let header = text.lines().take_while(|line| is_comment(line));
    header.collect::<Vec<&str>>().join("\n")
}

fn is_comment(line: &str) -> bool {
    let line = line.trim_start();
    line.starts_with("--") || line.starts_with("//")
}
