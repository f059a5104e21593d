//! A file of Rattle: its imports, its functions with their contracts, and its structs and enums.

use crate::antt::{imports, Import};
use crate::words::{rattle_words, trees, Tree, Word};

#[derive(Clone, Debug)]
pub struct Function<'a> {
    pub name: &'a str,
    /// The type whose `impl` block it stands in.
    pub owner: Option<&'a str>,
    pub public: bool,
    /// Whether it is a function of the C interface.
    pub external: bool,
    pub parameters: Vec<&'a str>,
    /// The structs and enums that its parameters and its result name.
    pub types: Vec<&'a str>,
    /// What stands in the braces of `requires` and `ensures`.
    pub contracts: Vec<Vec<Tree<'a>>>,
    /// The lines of the signature and the contracts.
    pub first_line: usize,
    pub last_line: usize,
}

/// A struct, an enum, or another name of a type.
#[derive(Clone, Debug)]
pub struct Type<'a> {
    pub name: &'a str,
    /// The structs and enums that it holds.
    pub types: Vec<&'a str>,
    /// Its lines that have a word, those of its attributes too.
    pub lines: Vec<usize>,
}

#[derive(Clone, Debug, Default)]
pub struct Rattle<'a> {
    /// What the contracts cite.
    pub imports: Vec<Import<'a>>,
    /// The crate, `crate` for its own, and the name of what the code uses.
    pub uses: Vec<(&'a str, &'a str)>,
    pub functions: Vec<Function<'a>>,
    pub types: Vec<Type<'a>>,
}

impl<'a> Rattle<'a> {
    pub fn parse(text: &'a str) -> Rattle<'a> {
        let mut file = Rattle::default();
        file.add_items(&trees(&rattle_words(text)), None);
        file
    }

    fn add_items(&mut self, trees: &[Tree<'a>], owner: Option<&'a str>) {
        let mut start = 0;
        let mut at = 0;
        while at < trees.len() {
            let next = match trees[at].leaf().map(|word| word.text) {
                Some(text) if text.starts_with("#!") => after_attribute(trees, at),
                Some("use") => self.add_use(trees, start, at),
                Some("struct" | "enum" | "type") => self.add_type(trees, start, at),
                Some("impl") => self.add_impl(trees, at),
                Some("fn") => self.add_function(trees, start, at, owner),
                Some(";") => Some(at + 1),
                _ => None,
            };
            at = next.unwrap_or(at + 1);
            start = next.unwrap_or(start);
        }
    }

    /// `use` or `ghost use`, up to the semicolon.
    fn add_use(&mut self, trees: &[Tree<'a>], start: usize, at: usize) -> Option<usize> {
        let end = at + trees[at..].iter().position(|tree| tree.is(";"))?;
        let mut words = Vec::new();
        trees[at + 1..end]
            .iter()
            .for_each(|tree| flatten(tree, &mut words));
        if trees[start].is("ghost") {
            self.imports.extend(imports(&words));
        } else if let Some((home, path)) = words.first()?.text.split_once("::") {
            let listed = words[1..].iter().map(|word| word.text);
            let names = std::iter::once(path).chain(listed).map(last_segment);
            let names = names.filter(|name| !["", "{", "}", ","].contains(name));
            self.uses.extend(names.map(|name| (home, name)));
        }
        Some(end + 1)
    }

    fn add_type(&mut self, trees: &[Tree<'a>], start: usize, at: usize) -> Option<usize> {
        let name = plain(trees.get(at + 1)?.leaf()?.text);
        let ends = |tree: &Tree| tree.is(";") || tree.group("{").is_some();
        let end = at + trees[at..].iter().position(ends)?;
        let mut words = Vec::new();
        trees[start..=end]
            .iter()
            .for_each(|tree| flatten(tree, &mut words));
        let mut lines: Vec<usize> = words.iter().map(|word| word.line).collect();
        lines.dedup();
        let mut held = Vec::new();
        trees[at + 2..=end]
            .iter()
            .for_each(|tree| held_in(tree, trees[at].is("enum"), &mut held));
        self.types.push(Type {
            name,
            types: type_names(&held),
            lines,
        });
        Some(end + 1)
    }

    fn add_impl(&mut self, trees: &[Tree<'a>], at: usize) -> Option<usize> {
        let name = plain(trees.get(at + 1)?.leaf()?.text);
        let body = |tree: &Tree| tree.group("{").is_some();
        let end = at + trees[at..].iter().position(body)?;
        self.add_items(trees[end].group("{")?, Some(name));
        Some(end + 1)
    }

    /// A function's signature, its contracts and, passed over, its body.
    fn add_function(
        &mut self,
        trees: &[Tree<'a>],
        start: usize,
        at: usize,
        owner: Option<&'a str>,
    ) -> Option<usize> {
        let name = plain(trees.get(at + 1)?.leaf()?.text);
        let handed = trees.get(at + 2)?.group("(")?;
        let mut words = Vec::new();
        let mut contracts = Vec::new();
        let mut end = at + 3;
        loop {
            let tree = trees.get(end)?;
            if tree.is("requires") || tree.is("ensures") {
                // A clause may have a name before its braces.
                end += 1 + usize::from(trees.get(end + 1)?.leaf().is_some());
                contracts.push(trees.get(end)?.group("{")?.to_vec());
            } else if tree.group("{").is_some() {
                break;
            } else {
                flatten(tree, &mut words);
            }
            end += 1;
        }
        let parameters = handed.split(|tree| tree.is(",")).map(parameter);
        handed.iter().for_each(|tree| flatten(tree, &mut words));
        self.functions.push(Function {
            name,
            owner,
            public: trees[start..at].iter().any(|tree| tree.is("pub")),
            external: trees[start..at].iter().any(|tree| tree.is("extern")),
            parameters: parameters.flatten().collect(),
            types: type_names(&words),
            contracts,
            first_line: trees[start].first_line(),
            last_line: trees[end - 1].last_line(),
        });
        Some(end + 1)
    }
}

/// What follows an attribute of the file itself, `#![..]`.
fn after_attribute(trees: &[Tree], at: usize) -> Option<usize> {
    let ends = |tree: &Tree| tree.leaf().is_some_and(|word| word.text.ends_with(']'));
    Some(at + trees[at..].iter().position(ends)? + 1)
}

/// The last name of a path, none if it ends with `::`.
fn last_segment(path: &str) -> &str {
    path.rsplit("::").next().unwrap_or(path)
}

/// A name without the lifetimes that follow it.
fn plain(name: &str) -> &str {
    name.split('<').next().unwrap_or(name)
}

/// The name of a parameter: `self`, or what stands before the colon.
fn parameter<'a>(trees: &[Tree<'a>]) -> Option<&'a str> {
    let words = trees.iter().filter_map(Tree::leaf).map(|word| word.text);
    let names = words.map(|text| text.trim_start_matches('&').trim_end_matches(':'));
    names
        .into_iter()
        .find(|&text| text != "mut" && !text.is_empty())
}

/// The words in which a declaration names types: for an enum those in brackets, since the others are variants.
fn held_in<'a>(tree: &Tree<'a>, variants: bool, words: &mut Vec<Word<'a>>) {
    match tree {
        Tree::Group { inner, .. } if variants => inner
            .iter()
            .filter(|tree| tree.leaf().is_none())
            .for_each(|tree| flatten(tree, words)),
        tree => flatten(tree, words),
    }
}

fn flatten<'a>(tree: &Tree<'a>, words: &mut Vec<Word<'a>>) {
    match tree {
        Tree::Leaf(word) => words.push(*word),
        Tree::Group { open, inner, close } => {
            words.push(*open);
            inner.iter().for_each(|tree| flatten(tree, words));
            words.push(*close);
        }
    }
}

/// The names of structs and enums, which alone begin with a capital.
fn type_names<'a>(words: &[Word<'a>]) -> Vec<&'a str> {
    let parts = words.iter().flat_map(|word| {
        word.text
            .split(|mark: char| !mark.is_alphanumeric() && mark != '_')
    });
    parts
        .filter(|part| part.starts_with(char::is_uppercase))
        .collect()
}
