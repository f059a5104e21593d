//! The words of a text without its comments and quoted texts, and their grouping by brackets. Contracts are
//! written in antt, so that one reader of words does for both languages.

/// The marks that end a name in antt.
const MARKS: &[char] = &['(', ')', '{', '}', '.', ';', ',', '@'];

/// A name, a symbol or a mark.
#[derive(Clone, Copy, Debug, PartialEq, Eq)]
pub struct Word<'a> {
    pub text: &'a str,
    /// Its line, the first being 0.
    pub line: usize,
    /// How many bytes stand before it on its line.
    pub column: usize,
    /// Whether it follows the word before it without a space.
    pub tight: bool,
}

/// The words of an antt text.
pub fn antt_words(text: &str) -> Vec<Word<'_>> {
    words(text.lines())
}

/// The words of a Rattle text.
pub fn rattle_words(text: &str) -> Vec<Word<'_>> {
    words(text.lines().map(|line| &line[..comment_start(line)]))
}

/// Where the comment of a Rattle line starts, or the line's end.
fn comment_start(line: &str) -> usize {
    let mut quoted = false;
    for (at, mark) in line.char_indices() {
        quoted ^= mark == '"';
        if !quoted && line[at..].starts_with("//") {
            return at;
        }
    }
    line.len()
}

fn words<'a>(lines: impl Iterator<Item = &'a str>) -> Vec<Word<'a>> {
    let mut words = Vec::new();
    let mut nested = 0;
    for (line, content) in lines.enumerate() {
        add_words(content, line, &mut nested, &mut words);
    }
    words
}

/// Adds the words of one line. `nested` counts the comments of the form `{- .. -}` that are not closed yet.
fn add_words<'a>(content: &'a str, line: usize, nested: &mut usize, words: &mut Vec<Word<'a>>) {
    let mut at = 0;
    let mut end = usize::MAX;
    while let Some(first) = content[at..].chars().next() {
        let rest = &content[at..];
        if rest.starts_with("{-") {
            *nested += 1;
            at += 2;
        } else if *nested > 0 && rest.starts_with("-}") {
            *nested -= 1;
            at += 2;
        } else if *nested > 0 || first.is_whitespace() {
            at += first.len_utf8();
        } else if rest.starts_with("--") {
            return;
        } else if first == '"' {
            at += quoted_length(rest);
        } else {
            let length = word_length(rest);
            words.push(Word {
                text: rest[..length].trim_matches(['«', '»']),
                line,
                column: at,
                tight: at == end,
            });
            at += length;
            end = at;
        }
    }
}

/// The length of the quoted text at the start, its quotes included.
fn quoted_length(rest: &str) -> usize {
    let mut escaped = false;
    for (at, mark) in rest.char_indices().skip(1) {
        if mark == '"' && !escaped {
            return at + 1;
        }
        escaped = mark == '\\' && !escaped;
    }
    rest.len()
}

/// The length of the word at the start: a mark, an escaped name, or all up to a space or a mark.
fn word_length(rest: &str) -> usize {
    if rest.starts_with(MARKS) {
        return 1;
    }
    if rest.starts_with('«') {
        return rest.find('»').map_or(rest.len(), |at| at + '»'.len_utf8());
    }
    let ends = |mark: char| mark.is_whitespace() || mark == '"' || MARKS.contains(&mark);
    rest.find(ends).unwrap_or(rest.len())
}

/// A word, or what a pair of brackets encloses.
#[derive(Clone, Debug)]
pub enum Tree<'a> {
    Leaf(Word<'a>),
    Group {
        open: Word<'a>,
        inner: Vec<Tree<'a>>,
        close: Word<'a>,
    },
}

impl<'a> Tree<'a> {
    pub fn leaf(&self) -> Option<Word<'a>> {
        match self {
            Tree::Leaf(word) => Some(*word),
            Tree::Group { .. } => None,
        }
    }

    pub fn is(&self, text: &str) -> bool {
        self.leaf().is_some_and(|word| word.text == text)
    }

    /// What stands in a pair of these brackets.
    pub fn group(&self, bracket: &str) -> Option<&[Tree<'a>]> {
        match self {
            Tree::Group { open, inner, .. } if open.text == bracket => Some(inner),
            _ => None,
        }
    }

    pub fn first_line(&self) -> usize {
        match self {
            Tree::Leaf(word) => word.line,
            Tree::Group { open, .. } => open.line,
        }
    }

    pub fn last_line(&self) -> usize {
        match self {
            Tree::Leaf(word) => word.line,
            Tree::Group { close, .. } => close.line,
        }
    }
}

/// The words grouped by round and curly brackets. A group that is not closed ends with the words.
pub fn trees<'a>(words: &[Word<'a>]) -> Vec<Tree<'a>> {
    let mut outer = Vec::new();
    let mut inner: Vec<Tree> = Vec::new();
    for &word in words {
        match word.text {
            "(" | "{" => outer.push((word, std::mem::take(&mut inner))),
            ")" | "}" => close(&mut outer, &mut inner, word),
            _ => inner.push(Tree::Leaf(word)),
        }
    }
    while let (false, Some(&last)) = (outer.is_empty(), words.last()) {
        close(&mut outer, &mut inner, last);
    }
    inner
}

fn close<'a>(
    outer: &mut Vec<(Word<'a>, Vec<Tree<'a>>)>,
    inner: &mut Vec<Tree<'a>>,
    close: Word<'a>,
) {
    if let Some((open, before)) = outer.pop() {
        let inner_trees = std::mem::replace(inner, before);
        inner.push(Tree::Group {
            open,
            inner: inner_trees,
            close,
        });
    }
}
