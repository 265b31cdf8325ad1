//! Text to tokens, each with its line and column.

use std::fmt;

/// A place in the text; lines and columns are counted from 1, columns in characters.
#[derive(Clone, Copy, Debug, Default, PartialEq, Eq)]
pub struct Place {
    pub line: usize,
    pub column: usize,
}

impl fmt::Display for Place {
    fn fmt(&self, f: &mut fmt::Formatter<'_>) -> fmt::Result {
        write!(f, "line {}, column {}", self.line, self.column)
    }
}

/// What is wrong with a text, and where.
#[derive(Clone, Debug, PartialEq, Eq)]
pub struct Fault {
    pub at: Place,
    pub why: String,
}

impl Fault {
    pub fn new(at: Place, why: impl Into<String>) -> Fault {
        let why = why.into();
        Fault { at, why }
    }
}

impl fmt::Display for Fault {
    fn fmt(&self, f: &mut fmt::Formatter<'_>) -> fmt::Result {
        write!(f, "{}: {}", self.at, self.why)
    }
}

const KEYWORDS: [&str; 7] = ["type", "var", "let", "row", "is", "not", "number"];
/// Longer marks come before their beginnings.
const MARKS: [&str; 8] = ["!=", "=", "|", "(", ")", ",", ":", "."];

#[derive(Clone, Debug, PartialEq, Eq)]
pub enum Token {
    Name(String),
    Number(i64),
    Keyword(&'static str),
    Mark(&'static str),
    LineEnd,
    TextEnd,
}

impl fmt::Display for Token {
    fn fmt(&self, f: &mut fmt::Formatter<'_>) -> fmt::Result {
        match self {
            Token::Name(name) => write!(f, "`{name}`"),
            Token::Number(value) => write!(f, "`{value}`"),
            Token::Keyword(word) => write!(f, "the keyword `{word}`"),
            Token::Mark(mark) => write!(f, "`{mark}`"),
            Token::LineEnd => f.write_str("the end of the line"),
            Token::TextEnd => f.write_str("the end of the text"),
        }
    }
}

pub type Placed = (Place, Token);

/// The tokens of a text; the last is `TextEnd`. Line ends within parentheses and next to
/// `|` are left out.
pub fn lex(text: &str) -> Result<Vec<Placed>, Fault> {
    let mut tokens = Vec::new();
    let mut end = Place { line: 1, column: 1 };
    for (i, line) in text.split('\n').enumerate() {
        let line = line.strip_suffix('\r').unwrap_or(line);
        if i > 0 {
            tokens.push((end, Token::LineEnd));
        }
        end = lex_line(i + 1, line, &mut tokens)?;
    }
    tokens.push((end, Token::TextEnd));
    Ok(joined(tokens))
}

/// Gives the place after the line's last character that isn't blank or in a comment.
fn lex_line(number: usize, line: &str, tokens: &mut Vec<Placed>) -> Result<Place, Fault> {
    let place = |column| Place {
        line: number,
        column,
    };
    let (mut rest, mut column) = (line, 1);
    let mut end = place(1);
    while let Some(first) = rest.chars().next() {
        let at = place(column);
        if first == '#' {
            break;
        }
        let length = if first.is_whitespace() {
            first.len_utf8()
        } else {
            let (token, length) = token(at, first, rest)?;
            tokens.push((at, token));
            length
        };
        column += rest[..length].chars().count();
        rest = &rest[length..];
        if !first.is_whitespace() {
            end = place(column);
        }
    }
    Ok(end)
}

/// The token at the beginning of `rest`, and its length in bytes.
fn token(at: Place, first: char, rest: &str) -> Result<(Token, usize), Fault> {
    let word_length = |from: usize| {
        let word = |c: char| c.is_alphanumeric() || c == '_';
        let tail = &rest[from..];
        from + tail.find(|c| !word(c)).unwrap_or(tail.len())
    };
    if first.is_alphabetic() || first == '_' {
        let length = word_length(0);
        let word = &rest[..length];
        let token = match KEYWORDS.iter().find(|&&keyword| keyword == word) {
            Some(keyword) => Token::Keyword(keyword),
            None => Token::Name(word.to_string()),
        };
        return Ok((token, length));
    }
    if first.is_ascii_digit() || first == '-' {
        let length = word_length(1);
        let word = &rest[..length];
        let digits = word.strip_prefix('-').unwrap_or(word);
        if digits.is_empty() || !digits.bytes().all(|byte| byte.is_ascii_digit()) {
            let why = format!("expected a whole number, found `{word}`");
            return Err(Fault::new(at, why));
        }
        return match word.parse() {
            Ok(value) => Ok((Token::Number(value), length)),
            Err(_) => {
                let (low, high) = (i64::MIN, i64::MAX);
                let why = format!("expected a number from {low} to {high}, found `{word}`");
                Err(Fault::new(at, why))
            }
        };
    }
    match MARKS.iter().find(|&&mark| rest.starts_with(mark)) {
        Some(mark) => Ok((Token::Mark(mark), mark.len())),
        None => {
            let shown = first.escape_debug();
            let why = format!("expected a name, a number or a mark, found `{shown}`");
            Err(Fault::new(at, why))
        }
    }
}

/// Leaves out the line ends that don't end a statement.
fn joined(tokens: Vec<Placed>) -> Vec<Placed> {
    let mut kept: Vec<Placed> = Vec::new();
    let mut depth = 0_usize;
    for token in tokens {
        match token.1 {
            Token::LineEnd if depth > 0 => continue,
            Token::LineEnd if matches!(kept.last(), Some((_, Token::Mark("|")))) => continue,
            Token::Mark("|") => {
                while matches!(kept.last(), Some((_, Token::LineEnd))) {
                    kept.pop();
                }
            }
            Token::Mark("(") => depth += 1,
            Token::Mark(")") => depth = depth.saturating_sub(1),
            _ => {}
        }
        kept.push(token);
    }
    kept
}
