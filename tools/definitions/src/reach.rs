//! What roots reach: each name is looked up in the file that cites it, and what it names is followed.

use std::collections::{BTreeMap, BTreeSet};
use std::rc::Rc;

use crate::antt::{Antt, Declaration, Import};
use crate::citations::{cited_by, cited_in_contract, Citation};
use crate::rattle::{Function, Rattle};
use crate::repository::Repository;
use crate::roots::{Calls, Root};

/// Names of the prelude, which need no import.
const PRELUDE: &[&str] = &["⊥", "¬", "Dec", "Unit", "tt"];

/// Types of the code that need no import.
const PLAIN_TYPES: &[&str] = &["Option", "Result", "Vec", "String", "Box"];

/// The constructors of the toolchain's types. A pattern takes any other imported name for a variable.
const CONSTRUCTORS: &[&str] = &[
    "zero",
    "suc",
    "true",
    "false",
    "[]",
    "◌∷◌",
    "None",
    "Some",
    "Ok",
    "Err",
];

/// Something to read.
#[derive(Clone, Debug, PartialEq, Eq, PartialOrd, Ord)]
pub struct Node {
    pub file: String,
    /// Its place among the declarations, types or functions of the file.
    pub index: usize,
    pub part: Part,
}

#[derive(Clone, Copy, Debug, PartialEq, Eq, PartialOrd, Ord)]
pub enum Part {
    /// A definition with its clauses, fields or constructors.
    Definition,
    /// A theorem's statement, without its proof.
    Statement,
    /// A struct, an enum or a type's other name in the code.
    Type,
    /// A function's signature and contract.
    Contract,
}

/// What is reached, the roots included.
#[derive(Clone, Debug, Default)]
pub struct Reached {
    pub nodes: BTreeSet<Node>,
    /// The names used of each module of the toolchain.
    pub toolchain: BTreeMap<String, BTreeSet<String>>,
    pub faults: BTreeSet<String>,
}

/// What a name stands for.
enum Meaning {
    Node(Node),
    /// A module of the toolchain, and the name in it.
    Toolchain(String, String),
}

/// What each of the names cited stands for, or why that isn't known.
type Meanings = Vec<Result<Meaning, String>>;

/// The files, read as they are needed.
pub struct Library<'a> {
    repository: &'a Repository,
    antt: BTreeMap<String, Result<Rc<Antt<'a>>, String>>,
    rattle: BTreeMap<String, Rc<Rattle<'a>>>,
}

impl<'a> Library<'a> {
    pub fn new(repository: &'a Repository) -> Library<'a> {
        Library {
            repository,
            antt: BTreeMap::new(),
            rattle: BTreeMap::new(),
        }
    }

    fn text(&self, path: &str) -> Result<&'a str, String> {
        let text = self.repository.files.get(path);
        text.map(String::as_str)
            .ok_or_else(|| format!("{path} is missing"))
    }

    pub fn antt(&mut self, path: &str) -> Result<Rc<Antt<'a>>, String> {
        let text = self.text(path)?;
        let parse = || match Antt::parse(text) {
            Ok(file) => Ok(Rc::new(file)),
            Err(fault) => Err(format!("{path}, {fault}")),
        };
        self.antt
            .entry(path.to_string())
            .or_insert_with(parse)
            .clone()
    }

    pub fn rattle(&mut self, path: &str) -> Result<Rc<Rattle<'a>>, String> {
        let text = self.text(path)?;
        let parse = || Rc::new(Rattle::parse(text));
        let file = self.rattle.entry(path.to_string()).or_insert_with(parse);
        Ok(file.clone())
    }

    /// All that the roots reach.
    pub fn reached(&mut self, roots: &[Root]) -> Reached {
        let mut reached = Reached::default();
        let mut open = Vec::new();
        for root in roots {
            match self.root_nodes(root) {
                Ok(nodes) => open.extend(nodes),
                Err(fault) => {
                    reached.faults.insert(fault);
                }
            }
        }
        while let Some(node) = open.pop() {
            if !reached.nodes.insert(node.clone()) {
                continue;
            }
            let cited = self.meanings_cited_by(&node);
            for meaning in cited.unwrap_or_else(|fault| vec![Err(fault)]) {
                match meaning {
                    Ok(Meaning::Node(node)) => open.push(node),
                    Ok(Meaning::Toolchain(module, name)) => {
                        reached.toolchain.entry(module).or_default().insert(name);
                    }
                    Err(fault) => {
                        reached.faults.insert(fault);
                    }
                }
            }
        }
        reached
    }

    fn root_nodes(&mut self, root: &Root) -> Result<Vec<Node>, String> {
        match root {
            Root::Contracts(path, calls) => {
                let file = self.rattle(path)?;
                let wanted = |index: &usize| is_call(&file.functions[*index], calls);
                let found: Vec<usize> = (0..file.functions.len()).filter(wanted).collect();
                let count = match calls {
                    Calls::Named(names) => names.len(),
                    _ => found.len().max(1),
                };
                if found.len() != count {
                    return Err(format!("{path} has not the functions {calls:?}"));
                }
                let node = |index| node(path, index, Part::Contract);
                Ok(found.into_iter().map(node).collect())
            }
            Root::Theorems(path, names) => {
                let file = self.antt(path)?;
                let found = |name: &&str| match file.find(name) {
                    Some(index) => Ok(node(path, index, Part::Statement)),
                    None => Err(format!("{path} has no theorem {name}")),
                };
                names.iter().map(found).collect()
            }
        }
    }

    fn meanings_cited_by(&mut self, node: &Node) -> Result<Meanings, String> {
        match node.part {
            Part::Type => self.types_held_by(node),
            Part::Contract => self.cited_by_contract(node),
            Part::Definition | Part::Statement => self.cited_by_declaration(node),
        }
    }

    fn types_held_by(&mut self, node: &Node) -> Result<Meanings, String> {
        let file = self.rattle(&node.file)?;
        let held = &file.types[node.index].types;
        let meanings = held.iter().map(|name| self.type_known_as(&node.file, name));
        Ok(meanings.collect())
    }

    fn cited_by_contract(&mut self, node: &Node) -> Result<Meanings, String> {
        let file = self.rattle(&node.file)?;
        let function = &file.functions[node.index];
        let own = |name: &'a str| match name {
            "Self" => function.owner.unwrap_or(name),
            name => name,
        };
        let types = function
            .types
            .iter()
            .copied()
            .map(own)
            .chain(function.owner);
        let mut meanings: Vec<_> = types
            .map(|name| self.type_known_as(&node.file, name))
            .collect();
        for contract in &function.contracts {
            for citation in cited_in_contract(contract, &function.parameters) {
                let imported = self.imported(&file.imports, &node.file, citation);
                meanings.push(match (imported, citation.before) {
                    (Ok(None), Some(name)) => self.type_known_as(&node.file, name),
                    (imported, _) => known(imported, &node.file, citation),
                });
            }
        }
        Ok(meanings)
    }

    fn cited_by_declaration(&mut self, node: &Node) -> Result<Meanings, String> {
        let file = self.antt(&node.file)?;
        let declaration = &file.declarations[node.index];
        let mut around = Vec::new();
        let mut inside = declaration.inside;
        while let Some(index) = inside {
            around.insert(0, &file.declarations[index]);
            inside = file.declarations[index].inside;
        }
        let constructors = self.constructors(&file);
        let is_constructor = |name: &str| constructors.contains(name);
        let whole = node.part == Part::Definition;
        let cited = cited_by(declaration, &around, whole, &is_constructor);
        let outer = |index| Ok(Meaning::Node(definition(&node.file, index)));
        let mut meanings: Vec<_> = declaration.inside.map(outer).into_iter().collect();
        for citation in cited {
            let own = find_in(&file.declarations, citation);
            meanings.push(match own {
                Some(index) => outer(index),
                None => {
                    let imported = self.imported(&file.imports, &node.file, citation);
                    known(imported, &node.file, citation)
                }
            });
        }
        Ok(meanings)
    }

    /// The constructors that a file knows by their bare names, and the parts of those that are operators.
    fn constructors(&mut self, file: &Antt<'a>) -> BTreeSet<&'a str> {
        let own = file.declarations.iter().flat_map(|d| &d.constructors);
        let mut constructors: BTreeSet<&str> = own.copied().collect();
        for import in &file.imports {
            let Some(name) = import.name else { continue };
            let is_constructor = match self.module_of(&import.path) {
                Module::Toolchain => CONSTRUCTORS.contains(&name),
                Module::Type { variants, .. } => variants,
                Module::File(path) => self.antt(&path).is_ok_and(|file| {
                    let mut declarations = file.declarations.iter();
                    declarations.any(|d| d.constructors.contains(&name))
                }),
                Module::Unknown => false,
            };
            if is_constructor {
                constructors.extend(spellings(import.known_as));
            }
        }
        constructors
    }

    /// What an import brings under the cited name, if one does.
    fn imported(
        &mut self,
        imports: &[Import<'a>],
        citing: &str,
        citation: Citation<'a>,
    ) -> Result<Option<Meaning>, String> {
        for import in imports {
            let name = match (citation.before, import.name) {
                (None, Some(name)) if spellings(import.known_as).contains(&citation.name) => name,
                (Some(before), None) if before == import.known_as => citation.name,
                // A constructor behind its type.
                (Some(before), Some(name)) if before == import.known_as => name,
                _ => continue,
            };
            return self.named_in(&import.path, name, citing).map(Some);
        }
        Ok(None)
    }

    /// The module that a path names: one of the repository's crates, or else the toolchain's.
    fn module_of(&self, path: &[&str]) -> Module {
        let ["Rattle", home, below @ ..] = path else {
            return Module::Toolchain;
        };
        if !self.repository.crates.iter().any(|name| name == home) {
            return Module::Toolchain;
        }
        let home = home.to_string();
        match below {
            ["specs", "declared", inner @ .., "TheVariants"] => type_in(home, inner, true),
            ["specs", "declared", inner @ ..] => type_in(home, inner, false),
            [folder @ ("specs" | "proofs"), name] => {
                Module::File(format!("crates/{home}/{folder}/{name}.antt"))
            }
            _ => Module::Unknown,
        }
    }

    /// What a module has under the name.
    fn named_in(&mut self, path: &[&str], name: &str, citing: &str) -> Result<Meaning, String> {
        match self.module_of(path) {
            Module::Toolchain => Ok(Meaning::Toolchain(path.join("."), name.to_string())),
            Module::Type { home, name, .. } => self.declared_type(&home, &name),
            Module::File(path) => match self.antt(&path)?.find(name) {
                Some(index) => Ok(Meaning::Node(definition(&path, index))),
                None => Err(format!("{citing} cites {name}, which {path} has not")),
            },
            Module::Unknown => {
                let module = path.join(".");
                Err(format!(
                    "{citing} cites {name} of {module}, which is not read"
                ))
            }
        }
    }

    /// The struct or enum that a file of Rattle knows by the name.
    fn type_known_as(&mut self, path: &str, name: &str) -> Result<Meaning, String> {
        let own = path.split('/').nth(1).unwrap_or_default();
        let file = self.rattle(path)?;
        let used = file.uses.iter().find(|(_, used)| *used == name);
        let crates = &self.repository.crates;
        let toolchain = |home: &str| Ok(Meaning::Toolchain(home.to_string(), name.to_string()));
        match used {
            Some(&(home, _)) if crates.iter().any(|name| name == home) => {
                self.declared_type(home, name)
            }
            Some(&(home, _)) if !self.is_own_path(own, home) => toolchain(home),
            None if PLAIN_TYPES.contains(&name) => toolchain("std"),
            _ => self.declared_type(own, name),
        }
    }

    /// Whether a path of a crate's code begins in the crate itself.
    fn is_own_path(&self, own: &str, first: &str) -> bool {
        let module = format!("crates/{own}/src/{first}.rt");
        ["crate", "self", "super"].contains(&first) || self.repository.files.contains_key(&module)
    }

    fn declared_type(&mut self, home: &str, name: &str) -> Result<Meaning, String> {
        let folder = format!("crates/{home}/src/");
        let files = self.repository.files.keys();
        let files: Vec<&String> = files.filter(|path| path.starts_with(&folder)).collect();
        for path in files {
            let types = &self.rattle(path)?.types;
            if let Some(index) = types.iter().position(|t| t.name == name) {
                return Ok(Meaning::Node(node(path, index, Part::Type)));
            }
        }
        Err(format!("the crate {home} has no struct or enum {name}"))
    }
}

fn node(file: &str, index: usize, part: Part) -> Node {
    Node {
        file: file.to_string(),
        index,
        part,
    }
}

fn definition(file: &str, index: usize) -> Node {
    node(file, index, Part::Definition)
}

fn is_call(function: &Function, calls: &Calls) -> bool {
    match calls {
        Calls::Named(names) => function.owner.is_none() && names.contains(&function.name),
        Calls::Methods(owner) => function.public && function.owner == Some(owner),
        Calls::External => function.public && function.external,
    }
}

/// The declaration of the file itself that a citation means.
fn find_in(declarations: &[Declaration], citation: Citation) -> Option<usize> {
    let name = citation.before.unwrap_or(citation.name);
    let means = |declared: &str| spellings(declared).contains(&name);
    declarations
        .iter()
        .position(|d| means(d.name) || d.constructors.iter().any(|name| means(name)))
}

/// How a name is written: whole, and if it is an operator also by each of its parts.
fn spellings(name: &str) -> Vec<&str> {
    let parts = name.split('◌').filter(|part| !part.is_empty());
    let parts = parts.filter(|part| *part != name);
    std::iter::once(name).chain(parts).collect()
}

/// A citation that means nothing is a fault, unless it is the prelude's.
fn known(
    imported: Result<Option<Meaning>, String>,
    citing: &str,
    citation: Citation,
) -> Result<Meaning, String> {
    match imported? {
        Some(meaning) => Ok(meaning),
        None if PRELUDE.contains(&citation.name) => {
            let module = "Prim".to_string();
            Ok(Meaning::Toolchain(module, citation.name.to_string()))
        }
        None => {
            let name = citation.name;
            let before = citation.before.map(|before| format!("{before}."));
            let before = before.unwrap_or_default();
            Err(format!(
                "{citing} cites {before}{name}, and nothing says what that is"
            ))
        }
    }
}

/// The module that a path of an import names.
enum Module {
    Toolchain,
    /// A file of definitions or of proofs.
    File(String),
    /// A struct or enum of the code, or its variants.
    Type {
        home: String,
        name: String,
        variants: bool,
    },
    Unknown,
}

/// A struct or enum, with the modules of the code in which it stands before its name.
fn type_in(home: String, inner: &[&str], variants: bool) -> Module {
    match inner.last() {
        Some(name) => Module::Type {
            home,
            name: name.to_string(),
            variants,
        },
        None => Module::Unknown,
    }
}
