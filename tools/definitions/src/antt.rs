//! A file of antt: its imports and its declarations.

use crate::words::{antt_words, trees, Tree, Word};

/// Words that may stand before a declaration.
const MARKS: &[&str] = &["pattern", "unfoldable", "abbrev", "axiom", "pub"];

/// Forms that nothing here uses yet, and that would bring names unseen.
const UNREAD: &[&str] = &["open", "mutual", "infix", "infixl", "infixr", "ruleset"];

/// A line `use PATH.{names}`, or `use PATH` and `use PATH as name`, which bring a module.
#[derive(Clone, Debug, PartialEq, Eq)]
pub struct Import<'a> {
    pub path: Vec<&'a str>,
    /// The name in the module, none for the module itself.
    pub name: Option<&'a str>,
    /// The name in this file.
    pub known_as: &'a str,
}

/// What a declaration says, as far as names are concerned.
#[derive(Clone, Debug)]
pub enum Form<'a> {
    /// A type, and the clauses that define the name.
    Function {
        signature: Vec<Tree<'a>>,
        clauses: Vec<Vec<Tree<'a>>>,
    },
    /// Parameters, and fields of which each may cite those before it.
    Record {
        header: Vec<Tree<'a>>,
        fields: Vec<Vec<Tree<'a>>>,
    },
    /// Parameters and indices, and constructors.
    Data {
        header: Vec<Tree<'a>>,
        constructors: Vec<Vec<Tree<'a>>>,
    },
    /// The parameters of the declarations in a `module _` block.
    Module { header: Vec<Tree<'a>> },
}

#[derive(Clone, Debug)]
pub struct Declaration<'a> {
    pub name: &'a str,
    pub form: Form<'a>,
    /// The constructors of a data type.
    pub constructors: Vec<&'a str>,
    /// The `module _` block around it, by its place among the declarations.
    pub inside: Option<usize>,
    /// The lines of the type or the header, and of the whole, that have a word: no blank line and no comment.
    pub statement_lines: Vec<usize>,
    pub lines: Vec<usize>,
}

#[derive(Clone, Debug, Default)]
pub struct Antt<'a> {
    pub imports: Vec<Import<'a>>,
    /// The modules that the file declares, in order.
    pub modules: Vec<&'a str>,
    pub declarations: Vec<Declaration<'a>>,
}

impl<'a> Antt<'a> {
    pub fn parse(text: &'a str) -> Result<Antt<'a>, String> {
        let mut file = Antt::default();
        file.add_block(&antt_words(text), None)?;
        Ok(file)
    }

    /// The declaration of a name, which may be a constructor's.
    pub fn find(&self, name: &str) -> Option<usize> {
        let named = |d: &Declaration| d.name == name || d.constructors.contains(&name);
        self.declarations.iter().position(named)
    }

    fn add_block(&mut self, words: &[Word<'a>], inside: Option<usize>) -> Result<(), String> {
        items(words)
            .into_iter()
            .try_for_each(|item| self.add_item(item, inside))
    }

    fn add_item(&mut self, item: &[Word<'a>], inside: Option<usize>) -> Result<(), String> {
        let marks = item.iter().take_while(|word| MARKS.contains(&word.text));
        let rest = &item[marks.count()..];
        let Some(first) = rest.first() else {
            return Err(unread(item[0]));
        };
        match first.text {
            "use" => self.imports.extend(imports(&rest[1..])),
            "mod" => self.modules.extend(rest.get(1).map(|word| word.text)),
            "module" => return self.add_module(rest, inside),
            "record" | "data" => self.add_type(item, rest, inside)?,
            "unfolding" => self.add_clause(item, None)?,
            text if UNREAD.contains(&text) => return Err(unread(*first)),
            _ => match sign(rest).map(|word| word.text) {
                Some(":") => self.add_function(item, rest, inside),
                Some("=") => self.add_clause(item, Some(trees(rest)))?,
                _ => return Err(unread(*first)),
            },
        }
        Ok(())
    }

    /// `module _ (parameters) where`, and the declarations below it.
    fn add_module(&mut self, words: &[Word<'a>], inside: Option<usize>) -> Result<(), String> {
        let end = body_start(words).ok_or_else(|| unread(words[0]))?;
        let header = &words[..end];
        let lines = lines(header);
        self.declarations.push(Declaration {
            name: "module _",
            form: Form::Module {
                header: trees(&header[1..]),
            },
            constructors: Vec::new(),
            inside,
            statement_lines: lines.clone(),
            lines,
        });
        let index = self.declarations.len() - 1;
        self.add_block(&words[end..], Some(index))
    }

    fn add_type(
        &mut self,
        item: &[Word<'a>],
        words: &[Word<'a>],
        inside: Option<usize>,
    ) -> Result<(), String> {
        let end = body_start(words).ok_or_else(|| unread(words[0]))?;
        let name = words.get(1).ok_or_else(|| unread(words[0]))?.text;
        let members = items(&words[end..]);
        let header = trees(&words[2..end]);
        let data = words[0].text == "data";
        let constructors = members.iter().filter(|_| data);
        let constructors = constructors.flat_map(|member| names_before_sign(member));
        let constructors = constructors.collect();
        let members = members.into_iter().map(trees).collect();
        self.declarations.push(Declaration {
            name,
            form: if data {
                Form::Data {
                    header,
                    constructors: members,
                }
            } else {
                Form::Record {
                    header,
                    fields: members,
                }
            },
            constructors,
            inside,
            statement_lines: lines(&item[..item.len() - (words.len() - end)]),
            lines: lines(item),
        });
        Ok(())
    }

    /// A function; what a `pattern` declares is cited in patterns, as a constructor is.
    fn add_function(&mut self, item: &[Word<'a>], words: &[Word<'a>], inside: Option<usize>) {
        let lines = lines(item);
        let name = words[0].text;
        let constructors = item.iter().take(1).filter(|word| word.text == "pattern");
        self.declarations.push(Declaration {
            name,
            form: Form::Function {
                signature: trees(words),
                clauses: Vec::new(),
            },
            constructors: constructors.map(|_| name).collect(),
            inside,
            statement_lines: lines.clone(),
            lines,
        });
    }

    /// A clause of the last declaration, or its line `unfolding ..`, which cites nothing that is to be read.
    fn add_clause(
        &mut self,
        item: &[Word<'a>],
        clause: Option<Vec<Tree<'a>>>,
    ) -> Result<(), String> {
        let Some(declaration) = self.declarations.last_mut() else {
            return Err(unread(item[0]));
        };
        let Form::Function { clauses, .. } = &mut declaration.form else {
            return Err(unread(item[0]));
        };
        clauses.extend(clause);
        declaration.lines.extend(lines(item));
        Ok(())
    }
}

fn unread(word: Word) -> String {
    format!("line {}: `{}` is not read", word.line + 1, word.text)
}

/// The words parted at those that begin a line at the column of the first.
fn items<'w, 'a>(words: &'w [Word<'a>]) -> Vec<&'w [Word<'a>]> {
    let mut items = Vec::new();
    let Some(first) = words.first() else {
        return items;
    };
    let mut start = 0;
    for at in 1..words.len() {
        if words[at].line > words[at - 1].line && words[at].column <= first.column {
            items.push(&words[start..at]);
            start = at;
        }
    }
    items.push(&words[start..]);
    items
}

/// The lines on which the words stand, each once.
fn lines(words: &[Word]) -> Vec<usize> {
    let mut lines: Vec<usize> = words.iter().map(|word| word.line).collect();
    lines.dedup();
    lines
}

/// The first `:` or `=` outside brackets: the first for a type, the second for a clause.
fn sign<'a>(words: &[Word<'a>]) -> Option<Word<'a>> {
    let mut depth = 0;
    words.iter().copied().find(|word| {
        match word.text {
            "(" | "{" => depth += 1,
            ")" | "}" => depth -= 1,
            _ => {}
        }
        depth == 0 && [":", "="].contains(&word.text)
    })
}

/// Where the block below a `where` outside brackets starts.
fn body_start(words: &[Word]) -> Option<usize> {
    let at = words.iter().position(|word| word.text == "where")?;
    Some(at + 1)
}

/// The names that a member of a data type declares.
fn names_before_sign<'a>(member: &[Word<'a>]) -> Vec<&'a str> {
    let names = member.iter().take_while(|word| word.text != ":");
    names.map(|word| word.text).collect()
}

/// What a line `use` brings, `words` being those after it.
pub fn imports<'a>(words: &[Word<'a>]) -> Vec<Import<'a>> {
    let in_braces = words.iter().position(|word| word.text == "{");
    let path = path_of(&words[..in_braces.unwrap_or(words.len())]);
    let Some(open) = in_braces else {
        return match path.split_last() {
            Some((&name, above)) if above.last() == Some(&"as") => vec![Import {
                path: above[..above.len() - 1].to_vec(),
                name: None,
                known_as: name,
            }],
            Some((&name, _)) => vec![Import {
                path: path.clone(),
                name: None,
                known_as: name,
            }],
            None => Vec::new(),
        };
    };
    let listed = words[open + 1..].split(|word| [",", "}", ";"].contains(&word.text));
    listed
        .filter_map(|item| listed_import(&path, &path_of(item)))
        .collect()
}

/// The words of a path without its dots.
fn path_of<'a>(words: &[Word<'a>]) -> Vec<&'a str> {
    let names = words.iter().map(|word| word.text);
    names.filter(|text| ![".", ";"].contains(text)).collect()
}

/// One of the names in braces: `a`, `N.a`, `a as b`.
fn listed_import<'a>(path: &[&'a str], item: &[&'a str]) -> Option<Import<'a>> {
    let (item, known_as) = match item {
        [item @ .., "as", name] => (item, Some(*name)),
        item => (item, None),
    };
    let (&name, below) = item.split_last()?;
    Some(Import {
        path: [path, below].concat(),
        name: Some(name),
        known_as: known_as.unwrap_or(name),
    })
}
