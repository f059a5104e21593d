//! The names that a term cites: those that nothing in the term binds.

use std::collections::BTreeSet;

use crate::antt::{Declaration, Form};
use crate::words::Tree;

/// Words of the language and of contracts.
const RESERVED: &[&str] = &[
    "→", "λ", "∀", "=", ":", ".", ",", ";", "@", "_", "|", "↦", "let", "in", "record", "data",
    "where", "module", "pub", "Type", "×", "↔",
];

/// A name, with the module or the type that stands before it as in `module.name`.
#[derive(Clone, Copy, Debug, PartialEq, Eq, PartialOrd, Ord)]
pub struct Citation<'a> {
    pub before: Option<&'a str>,
    pub name: &'a str,
}

/// Whether a name is a constructor, which a pattern cites and does not bind.
pub type IsConstructor<'c> = &'c dyn Fn(&str) -> bool;

struct Reader<'a, 'c> {
    is_constructor: IsConstructor<'c>,
    bound: Vec<&'a str>,
    cited: BTreeSet<Citation<'a>>,
}

/// What a declaration cites, or its statement alone; `around` are the `module _` blocks around it.
pub fn cited_by<'a>(
    declaration: &Declaration<'a>,
    around: &[&Declaration<'a>],
    whole: bool,
    is_constructor: IsConstructor,
) -> BTreeSet<Citation<'a>> {
    let mut reader = Reader {
        is_constructor,
        bound: vec![declaration.name],
        cited: BTreeSet::new(),
    };
    for module in around {
        if let Form::Module { header } = &module.form {
            reader.bind_along(header);
        }
    }
    // The parameters of the blocks around are the blocks' own citations.
    reader.cited.clear();
    reader.declaration(&declaration.form, whole);
    reader.cited
}

/// What a contract cites, the function's parameters and its result being bound.
pub fn cited_in_contract<'a>(
    contract: &[Tree<'a>],
    parameters: &[&'a str],
) -> BTreeSet<Citation<'a>> {
    let mut reader = Reader {
        is_constructor: &|_| false,
        bound: [parameters, &["result"]].concat(),
        cited: BTreeSet::new(),
    };
    reader.term(contract);
    reader.cited
}

impl<'a> Reader<'a, '_> {
    fn declaration(&mut self, form: &Form<'a>, whole: bool) {
        match form {
            Form::Module { header } => self.bind_along(header),
            Form::Function { signature, clauses } => {
                self.term(after_sign(signature));
                clauses
                    .iter()
                    .filter(|_| whole)
                    .for_each(|clause| self.clause(clause));
            }
            Form::Record { header, fields } => {
                self.bind_along(header);
                for field in fields {
                    self.term(after_sign(field));
                    let names = field.iter().take_while(|tree| !tree.is(":"));
                    let names = names.filter_map(Tree::leaf).map(|word| word.text);
                    self.bound.extend(names);
                }
            }
            Form::Data {
                header,
                constructors,
            } => {
                self.bind_along(header);
                constructors
                    .iter()
                    .for_each(|constructor| self.term(after_sign(constructor)));
            }
        }
    }

    /// A clause `name pattern .. = term`.
    fn clause(&mut self, clause: &[Tree<'a>]) {
        let bound = self.bound.len();
        let sign = position(clause, "=").unwrap_or(clause.len());
        self.pattern(&clause[..sign]);
        self.bind_along(&clause[sign..]);
        self.bound.truncate(bound);
    }

    /// Binds the names of a pattern but for the constructors.
    fn pattern(&mut self, trees: &[Tree<'a>]) {
        for tree in trees {
            match tree {
                Tree::Group { inner, .. } => {
                    let named = position(inner, "=").map_or(0, |sign| sign + 1);
                    self.pattern(&inner[named..]);
                }
                Tree::Leaf(word) if !is_name(word.text) => {}
                Tree::Leaf(word) if (self.is_constructor)(word.text) => self.cite(None, word.text),
                Tree::Leaf(word) => self.bound.push(word.text),
            }
        }
    }

    /// A term by itself: what it binds ends with it.
    fn term(&mut self, trees: &[Tree<'a>]) {
        let bound = self.bound.len();
        self.bind_along(trees);
        self.bound.truncate(bound);
    }

    /// A row of trees, in which a binder binds up to the row's end, or to the comma or semicolon before that.
    fn bind_along(&mut self, trees: &[Tree<'a>]) {
        let outside = self.bound.len();
        let mut lets = Vec::new();
        let mut at = 0;
        while let Some(tree) = trees.get(at) {
            let rest = &trees[at + 1..];
            at += 1;
            match tree {
                Tree::Group { open, inner, .. } => self.group(open.text, inner),
                Tree::Leaf(word) => match word.text {
                    "λ" | "∀" => at += self.binders(rest),
                    "let" => {
                        let end = rest.iter().position(|tree| tree.is("=") || tree.is(":"));
                        let end = end.unwrap_or(rest.len());
                        lets.push(&rest[..end]);
                        at += end;
                    }
                    "in" => self.pattern(lets.pop().unwrap_or(&[])),
                    "record" => at += self.record(rest),
                    "," | ";" => self.bound.truncate(outside),
                    "." => at += usize::from(tight_name(rest).is_some()),
                    name => at += self.name(name, rest),
                },
            }
        }
    }

    /// The binders of a λ up to its dot: how many trees they are.
    fn binders(&mut self, rest: &[Tree<'a>]) -> usize {
        let end = position(rest, ".").unwrap_or(rest.len());
        for tree in &rest[..end] {
            match tree {
                Tree::Group { open, inner, .. } if position(inner, ":").is_some() => {
                    self.group(open.text, inner)
                }
                tree => self.pattern(std::slice::from_ref(tree)),
            }
        }
        end + 1
    }

    /// What stands in brackets: a binder `x y : type`, an argument by name `x = term`, or a term.
    fn group(&mut self, open: &str, inner: &[Tree<'a>]) {
        let bindable = |text: &str| text == "_" || is_name(text);
        let binds = |tree: &Tree| tree.leaf().is_some_and(|word| bindable(word.text));
        match (position(inner, ":"), position(inner, "=")) {
            (Some(sign), _) if inner[..sign].iter().all(binds) => {
                self.term(&inner[sign + 1..]);
                let names = inner[..sign].iter().filter_map(Tree::leaf);
                self.bound.extend(names.map(|word| word.text));
            }
            (None, Some(1)) if open == "{" => self.term(&inner[2..]),
            _ => self.term(inner),
        }
    }

    /// The fields of `record { .. }`, whose names are no citations: how many trees they are.
    fn record(&mut self, rest: &[Tree<'a>]) -> usize {
        let Some(fields) = rest.first().and_then(|tree| tree.group("{")) else {
            return 0;
        };
        let bound = self.bound.len();
        for field in fields.split(|tree| tree.is(";")) {
            self.term(after_sign(field));
            // In a type the later fields may cite this one.
            if field.get(1).is_some_and(|tree| tree.is(":")) {
                self.bound.extend(field[0].leaf().map(|word| word.text));
            }
        }
        self.bound.truncate(bound);
        1
    }

    /// A name, or `module.name`: how many trees follow the first.
    fn name(&mut self, name: &'a str, rest: &[Tree<'a>]) -> usize {
        let dot = rest.first().and_then(Tree::leaf);
        let dotted = dot.is_some_and(|word| word.text == "." && word.tight);
        match tight_name(rest.get(1..).unwrap_or(&[])) {
            Some(member) if dotted => {
                if !self.bound.contains(&name) {
                    self.cite(Some(name), member);
                }
                2
            }
            _ => {
                self.cite(None, name);
                0
            }
        }
    }

    fn cite(&mut self, before: Option<&'a str>, name: &'a str) {
        if is_name(name) && !self.bound.contains(&name) {
            self.cited.insert(Citation { before, name });
        }
    }
}

fn is_name(text: &str) -> bool {
    !RESERVED.contains(&text) && !text.starts_with(|mark: char| mark.is_ascii_digit())
}

fn position(trees: &[Tree], text: &str) -> Option<usize> {
    trees.iter().position(|tree| tree.is(text))
}

/// What stands behind the first `:` or `=` of a row.
fn after_sign<'t, 'a>(trees: &'t [Tree<'a>]) -> &'t [Tree<'a>] {
    let sign = trees.iter().position(|tree| tree.is(":") || tree.is("="));
    sign.map_or(trees, |sign| &trees[sign + 1..])
}

/// The name that follows without a space.
fn tight_name<'a>(rest: &[Tree<'a>]) -> Option<&'a str> {
    let word = rest.first()?.leaf()?;
    word.tight.then_some(word.text)
}
