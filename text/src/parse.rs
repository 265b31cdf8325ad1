//! Tokens to statements.

use crate::lex::{Fault, Place, Placed, Token};

/// Deeper terms are refused before anything else is looked at; no guard has that many.
const DEPTH: usize = 200;

#[derive(Clone, Debug, PartialEq, Eq)]
pub struct Name {
    pub at: Place,
    pub text: String,
}

#[derive(Clone, Debug, PartialEq, Eq)]
pub struct Variant {
    pub name: Name,
    /// The name and the type of each field.
    pub fields: Vec<(Name, Name)>,
}

#[derive(Clone, Debug, PartialEq, Eq)]
pub enum Base {
    Number(i64),
    /// A named term or a variant, and the parts that it is built from.
    Name(String, Vec<Term>),
}

/// A term in place: a beginning, the names after its dots, and its type if that is said.
#[derive(Clone, Debug, PartialEq, Eq)]
pub struct Term {
    pub at: Place,
    pub base: Base,
    pub reads: Vec<Name>,
    pub ty: Option<Name>,
}

#[derive(Clone, Debug, PartialEq, Eq)]
pub enum Statement {
    /// Without variants: a number type.
    Type(Name, Vec<Variant>),
    Variables(Vec<Name>, Name),
    Let(Name, Term),
    /// As `Let`, with a row of its own even if the same term has one.
    Row(Name, Term),
    Equal(Term, Term),
    Unequal(Term, Term),
    Is(Term, Name),
    Isnt(Term, Name),
}

pub fn parse(tokens: &[Placed]) -> Result<Vec<Statement>, Fault> {
    let mut parser = Parser { tokens, depth: 0 };
    let mut statements = Vec::new();
    loop {
        match parser.token() {
            Token::TextEnd => return Ok(statements),
            Token::LineEnd => parser.next(),
            _ => {
                statements.push(parser.statement()?);
                if !matches!(parser.token(), Token::LineEnd | Token::TextEnd) {
                    return parser.expected("the end of the line");
                }
            }
        }
    }
}

struct Parser<'a> {
    /// Never empty: `TextEnd` is last and stays.
    tokens: &'a [Placed],
    depth: usize,
}

impl Parser<'_> {
    fn token(&self) -> &Token {
        &self.tokens[0].1
    }

    fn place(&self) -> Place {
        self.tokens[0].0
    }

    fn next(&mut self) {
        if self.tokens.len() > 1 {
            self.tokens = &self.tokens[1..];
        }
    }

    fn expected<T>(&self, what: &str) -> Result<T, Fault> {
        let why = format!("expected {what}, found {}", self.token());
        Err(Fault::new(self.place(), why))
    }

    /// Goes on if the mark is next.
    fn takes(&mut self, mark: &str) -> bool {
        let found = matches!(self.token(), Token::Mark(found) if *found == mark);
        if found {
            self.next();
        }
        found
    }

    fn mark(&mut self, mark: &str) -> Result<(), Fault> {
        if self.takes(mark) {
            return Ok(());
        }
        self.expected(&format!("`{mark}`"))
    }

    fn name(&mut self, what: &str) -> Result<Name, Fault> {
        let Token::Name(text) = self.token() else {
            return self.expected(what);
        };
        let (at, text) = (self.place(), text.clone());
        self.next();
        Ok(Name { at, text })
    }

    /// One or more things with commas between them, up to `)`.
    fn list<T>(
        &mut self,
        mut one: impl FnMut(&mut Self) -> Result<T, Fault>,
    ) -> Result<Vec<T>, Fault> {
        let mut all = vec![one(self)?];
        while self.takes(",") {
            all.push(one(self)?);
        }
        if !self.takes(")") {
            return self.expected("`,` or `)`");
        }
        Ok(all)
    }

    fn statement(&mut self) -> Result<Statement, Fault> {
        match self.token() {
            Token::Keyword("type") => self.type_statement(),
            Token::Keyword("var") => self.variables(),
            Token::Keyword("let") => {
                let (name, term) = self.named()?;
                Ok(Statement::Let(name, term))
            }
            Token::Keyword("row") => {
                let (name, term) = self.named()?;
                Ok(Statement::Row(name, term))
            }
            Token::Name(_) | Token::Number(_) => self.line(),
            _ => self.expected("`type`, `var`, `let`, `row` or a term"),
        }
    }

    fn type_statement(&mut self) -> Result<Statement, Fault> {
        self.next();
        let name = self.name("a name for the type")?;
        self.mark("=")?;
        if *self.token() == Token::Keyword("number") {
            self.next();
            return Ok(Statement::Type(name, Vec::new()));
        }
        self.takes("|");
        let mut variants = vec![self.variant("`number` or a variant")?];
        while self.takes("|") {
            variants.push(self.variant("a variant")?);
        }
        Ok(Statement::Type(name, variants))
    }

    fn variant(&mut self, what: &str) -> Result<Variant, Fault> {
        let name = self.name(what)?;
        let mut fields = Vec::new();
        if self.takes("(") {
            fields = self.list(|parser| {
                let field = parser.name("a name for the field")?;
                parser.mark(":")?;
                Ok((field, parser.name("a type")?))
            })?;
        }
        Ok(Variant { name, fields })
    }

    fn variables(&mut self) -> Result<Statement, Fault> {
        self.next();
        let mut names = vec![self.name("a name for the variable")?];
        while self.takes(",") {
            names.push(self.name("a name for the variable")?);
        }
        if !self.takes(":") {
            return self.expected("`:` and a type, or `,`");
        }
        let ty = self.name("a type")?;
        Ok(Statement::Variables(names, ty))
    }

    /// What follows `let` or `row`.
    fn named(&mut self) -> Result<(Name, Term), Fault> {
        self.next();
        let name = self.name("a name for the term")?;
        self.mark("=")?;
        Ok((name, self.term()?))
    }

    fn line(&mut self) -> Result<Statement, Fault> {
        let left = self.term()?;
        if self.takes("=") {
            return Ok(Statement::Equal(left, self.term()?));
        }
        if self.takes("!=") {
            return Ok(Statement::Unequal(left, self.term()?));
        }
        if *self.token() != Token::Keyword("is") {
            return self.expected("`=`, `!=`, `is` or `is not`");
        }
        self.next();
        if *self.token() == Token::Keyword("not") {
            self.next();
            return Ok(Statement::Isnt(left, self.name("a variant")?));
        }
        Ok(Statement::Is(left, self.name("`not` or a variant")?))
    }

    fn term(&mut self) -> Result<Term, Fault> {
        let at = self.place();
        let base = match self.token() {
            Token::Number(value) => Base::Number(*value),
            Token::Name(name) => Base::Name(name.clone(), Vec::new()),
            _ => return self.expected("a term"),
        };
        self.next();
        let base = match base {
            Base::Name(name, _) if self.takes("(") => Base::Name(name, self.parts(at)?),
            other => other,
        };
        let mut reads = Vec::new();
        while self.takes(".") {
            reads.push(self.name("a variant or a field")?);
        }
        let ty = match self.takes(":") {
            true => Some(self.name("a type")?),
            false => None,
        };
        Ok(Term {
            at,
            base,
            reads,
            ty,
        })
    }

    fn parts(&mut self, at: Place) -> Result<Vec<Term>, Fault> {
        if self.depth == DEPTH {
            let why = format!("terms inside terms go deeper than {DEPTH} here");
            return Err(Fault::new(at, why));
        }
        self.depth += 1;
        let parts = self.list(Parser::term)?;
        self.depth -= 1;
        Ok(parts)
    }
}
