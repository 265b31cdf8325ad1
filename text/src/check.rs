//! Statements to a guard: names become numbers, and each term in place becomes a row.

use std::collections::HashMap;

use crate::guard::{Guard, Line, Names, Row, Type, TypeNames, VariantNames};
use crate::lex::{Fault, Place};
use crate::parse::{Base, Name, Statement, Term, Variant};

/// Where the things of a guard stand in its text.
#[derive(Clone, Debug, Default, PartialEq, Eq)]
pub struct Places {
    pub types: Vec<Place>,
    /// Of each type: its variants.
    pub variants: Vec<Vec<Place>>,
    /// Of each type and variant: its fields.
    pub fields: Vec<Vec<Vec<Place>>>,
    /// The first use of each row; of a field read, the name after its dot.
    pub rows: Vec<Place>,
    pub lines: Vec<Place>,
}

/// All that a text says.
#[derive(Clone, Debug, Default, PartialEq, Eq)]
pub struct Source {
    pub guard: Guard,
    pub names: Names,
    pub places: Places,
}

pub fn check(statements: &[Statement]) -> Result<Source, Fault> {
    let mut checker = Checker::default();
    checker.type_names(statements)?;
    checker.types(statements)?;
    for statement in statements {
        checker.statement(statement)?;
    }
    Ok(checker.source)
}

/// A line by its two numbers.
type Kind = fn(usize, usize) -> Line;

/// A term whose parts have rows: it has its row already, or it is yet to get one, with its
/// type and its place in the text.
enum Made {
    There(usize),
    New(Row, usize, Place),
}

#[derive(Default)]
struct Checker {
    source: Source,
    types: HashMap<String, usize>,
    /// The types that have a variant of this name.
    variants: HashMap<String, Vec<usize>>,
    /// The row of each named term, and where the name was given.
    terms: HashMap<String, (usize, Place)>,
    /// The first row of each term that isn't a variable.
    rows: HashMap<Row, usize>,
}

fn fault<T>(at: Place, why: String) -> Result<T, Fault> {
    Err(Fault::new(at, why))
}

/// Names as a list in words.
fn listed<'a>(names: impl Iterator<Item = &'a str>) -> String {
    let names: Vec<String> = names.map(|name| format!("`{name}`")).collect();
    names.join(", ")
}

/// Refuses the second of two equal names.
fn all_differ<'a>(what: &str, names: impl Iterator<Item = &'a Name>) -> Result<(), Fault> {
    let mut seen: HashMap<&str, Place> = HashMap::new();
    for name in names {
        if let Some(first) = seen.insert(&name.text, name.at) {
            let why = format!("there is a {what} `{}` already, at {first}", name.text);
            return fault(name.at, why);
        }
    }
    Ok(())
}

impl Checker {
    // ---- types

    fn type_names(&mut self, statements: &[Statement]) -> Result<(), Fault> {
        let names = || {
            statements.iter().filter_map(|statement| match statement {
                Statement::Type(name, variants) => Some((name, variants)),
                _ => None,
            })
        };
        all_differ("type", names().map(|(name, _)| name))?;
        for (t, (name, variants)) in names().enumerate() {
            self.types.insert(name.text.clone(), t);
            all_differ("variant", variants.iter().map(|variant| &variant.name))?;
            for variant in variants {
                all_differ("field", variant.fields.iter().map(|(field, _)| field))?;
                let types = self.variants.entry(variant.name.text.clone());
                types.or_default().push(t);
            }
        }
        Ok(())
    }

    fn types(&mut self, statements: &[Statement]) -> Result<(), Fault> {
        for statement in statements {
            if let Statement::Type(name, variants) = statement {
                self.ty(name, variants)?;
            }
        }
        Ok(())
    }

    fn ty(&mut self, name: &Name, variants: &[Variant]) -> Result<(), Fault> {
        let mut ty = Type::default();
        let mut names = TypeNames {
            name: name.text.clone(),
            ..TypeNames::default()
        };
        let mut field_places = Vec::new();
        for variant in variants {
            let types = variant.fields.iter().map(|(_, ty)| self.type_named(ty));
            ty.variants.push(types.collect::<Result<_, _>>()?);
            let fields = variant.fields.iter().map(|(field, _)| field.text.clone());
            names.variants.push(VariantNames {
                name: variant.name.text.clone(),
                fields: fields.collect(),
            });
            field_places.push(variant.fields.iter().map(|(field, _)| field.at).collect());
        }
        self.source.guard.types.push(ty);
        self.source.names.types.push(names);
        let places = &mut self.source.places;
        places.types.push(name.at);
        places
            .variants
            .push(variants.iter().map(|variant| variant.name.at).collect());
        places.fields.push(field_places);
        Ok(())
    }

    fn type_named(&self, name: &Name) -> Result<usize, Fault> {
        match self.types.get(&name.text) {
            Some(&ty) => Ok(ty),
            None => fault(name.at, format!("there is no type `{}`", name.text)),
        }
    }

    fn type_name(&self, ty: usize) -> &str {
        &self.source.names.types[ty].name
    }

    fn variant_of(&self, ty: usize, name: &str) -> Option<usize> {
        let variants = &self.source.names.types[ty].variants;
        variants.iter().position(|variant| variant.name == name)
    }

    fn field_of(&self, ty: usize, variant: usize, name: &str) -> Option<usize> {
        let fields = &self.source.names.variant(ty, variant).fields;
        fields.iter().position(|field| field == name)
    }

    // ---- statements

    fn statement(&mut self, statement: &Statement) -> Result<(), Fault> {
        let (at, line) = match statement {
            Statement::Type(..) => return Ok(()),
            Statement::Variables(names, ty) => {
                let ty = self.type_named(ty)?;
                for name in names {
                    self.new_name(name)?;
                    let row = self.push(Row::Variable(ty), ty, name.at);
                    self.call(name, row);
                }
                return Ok(());
            }
            Statement::Let(name, term) => {
                self.new_name(name)?;
                let row = self.term(term, None)?;
                self.call(name, row);
                return Ok(());
            }
            Statement::Row(name, term) => {
                self.new_name(name)?;
                let row = match self.made(term, None)? {
                    Made::New(row, ty, at) => self.push(row, ty, at),
                    Made::There(_) => {
                        let why = "expected a number, a built term or a field, \
                                   found a term that has its row";
                        return fault(term.at, why.to_string());
                    }
                };
                self.call(name, row);
                return Ok(());
            }
            Statement::Equal(left, right) => (left.at, self.pair(left, right, Line::Equal)?),
            Statement::Unequal(left, right) => (left.at, self.pair(left, right, Line::Unequal)?),
            Statement::Is(term, variant) => (term.at, self.tested(term, variant, Line::Is)?),
            Statement::Isnt(term, variant) => (term.at, self.tested(term, variant, Line::Isnt)?),
        };
        self.source.guard.lines.push(line);
        self.source.places.lines.push(at);
        Ok(())
    }

    /// A term's name differs from those of other terms and of variants.
    fn new_name(&self, name: &Name) -> Result<(), Fault> {
        if let Some((_, first)) = self.terms.get(&name.text) {
            let why = format!("there is a term `{}` already, at {first}", name.text);
            return fault(name.at, why);
        }
        if let Some(types) = self.variants.get(&name.text) {
            let why = format!(
                "`{}` is a variant of `{}`; a term needs another name",
                name.text,
                self.type_name(types[0])
            );
            return fault(name.at, why);
        }
        Ok(())
    }

    fn call(&mut self, name: &Name, row: usize) {
        self.terms.insert(name.text.clone(), (row, name.at));
        self.source.names.terms.push((name.text.clone(), row));
    }

    /// Two terms of one type: that of the left one, or of the right one if only it is clear.
    fn pair(&mut self, left: &Term, right: &Term, kind: Kind) -> Result<Line, Fault> {
        let ty = self.clear_type(left).or_else(|| self.clear_type(right));
        let a = self.term(left, ty)?;
        let ty = self.source.guard.row_types[a];
        Ok(kind(a, self.term(right, Some(ty))?))
    }

    fn tested(&mut self, term: &Term, variant: &Name, kind: Kind) -> Result<Line, Fault> {
        let row = self.term(term, None)?;
        let ty = self.source.guard.row_types[row];
        if self.source.guard.types[ty].is_number() {
            let name = self.type_name(ty);
            let why = format!("expected a term of a variant type before `is`, found a `{name}`");
            return fault(term.at, why);
        }
        match self.variant_of(ty, &variant.text) {
            Some(variant) => Ok(kind(row, variant)),
            None => fault(variant.at, self.no_variant(ty, &variant.text)),
        }
    }

    fn no_variant(&self, ty: usize, name: &str) -> String {
        let variants = &self.source.names.types[ty].variants;
        let variants = listed(variants.iter().map(|variant| variant.name.as_str()));
        let ty = self.type_name(ty);
        format!("expected a variant of `{ty}` ({variants}), found `{name}`")
    }

    // ---- terms

    fn push(&mut self, row: Row, ty: usize, at: Place) -> usize {
        let guard = &mut self.source.guard;
        let number = guard.rows.len();
        if !matches!(row, Row::Variable(_)) {
            self.rows.entry(row.clone()).or_insert(number);
        }
        guard.rows.push(row);
        guard.row_types.push(ty);
        self.source.places.rows.push(at);
        number
    }

    /// The row of a term: the one it has, or a new one.
    fn shared(&mut self, made: Made) -> usize {
        match made {
            Made::There(row) => row,
            Made::New(row, ty, at) => match self.rows.get(&row) {
                Some(&row) => row,
                None => self.push(row, ty, at),
            },
        }
    }

    fn term(&mut self, term: &Term, expected: Option<usize>) -> Result<usize, Fault> {
        let made = self.made(term, expected)?;
        Ok(self.shared(made))
    }

    /// A term of the type that its place asks for, if it asks for one.
    fn made(&mut self, term: &Term, expected: Option<usize>) -> Result<Made, Fault> {
        let said = term.ty.as_ref().map(|name| self.type_named(name));
        let said = said.transpose()?;
        let wanted = said.or(expected);
        let made = if term.reads.is_empty() {
            self.base(term, wanted)?
        } else {
            let base = self.base(term, None)?;
            self.reads(term, base)?
        };
        let found = match &made {
            Made::There(row) => self.source.guard.row_types[*row],
            Made::New(_, ty, _) => *ty,
        };
        for ty in [said, expected].into_iter().flatten() {
            if ty != found {
                let (ty, found) = (self.type_name(ty), self.type_name(found));
                return fault(term.at, format!("expected a `{ty}`, found a `{found}`"));
            }
        }
        Ok(made)
    }

    fn base(&mut self, term: &Term, wanted: Option<usize>) -> Result<Made, Fault> {
        match &term.base {
            Base::Number(value) => {
                let Some(ty) = wanted.or_else(|| self.only_number_type()) else {
                    let why = format!("the type of `{value}` isn't clear: write `{value}: TYPE`");
                    return fault(term.at, why);
                };
                if !self.source.guard.types[ty].is_number() {
                    let ty = self.type_name(ty);
                    let why = format!("expected a `{ty}`, found the number `{value}`");
                    return fault(term.at, why);
                }
                Ok(Made::New(Row::Constant(ty, *value), ty, term.at))
            }
            Base::Name(name, parts) => match self.terms.get(name) {
                Some((row, _)) if parts.is_empty() => Ok(Made::There(*row)),
                Some(_) => fault(
                    term.at,
                    format!("expected a variant before `(`, found the term `{name}`"),
                ),
                None => self.built(term.at, name, parts, wanted),
            },
        }
    }

    fn built(
        &mut self,
        at: Place,
        name: &str,
        parts: &[Term],
        wanted: Option<usize>,
    ) -> Result<Made, Fault> {
        let ty = self.type_with(at, name, wanted)?;
        let Some(variant) = self.variant_of(ty, name) else {
            return fault(at, self.no_variant(ty, name));
        };
        let types = self.source.guard.types[ty].variants[variant].clone();
        if types.len() != parts.len() {
            let fields = &self.source.names.variant(ty, variant).fields;
            let wanted = match fields.len() {
                0 => "no parts".to_string(),
                1 => format!("1 part ({})", listed(fields.iter().map(String::as_str))),
                n => format!("{n} parts ({})", listed(fields.iter().map(String::as_str))),
            };
            let why = format!("expected {wanted} after `{name}`, found {}", parts.len());
            return fault(at, why);
        }
        let rows = parts.iter().zip(types);
        let rows = rows.map(|(part, field)| self.term(part, Some(field)));
        let rows = rows.collect::<Result<_, _>>()?;
        Ok(Made::New(Row::Built(ty, variant, rows), ty, at))
    }

    /// The type that a variant's name belongs to, here.
    fn type_with(&self, at: Place, name: &str, wanted: Option<usize>) -> Result<usize, Fault> {
        let Some(types) = self.variants.get(name) else {
            let why = format!("expected a variant or a term named above, found `{name}`");
            return fault(at, why);
        };
        match (wanted, &types[..]) {
            (Some(ty), _) if types.contains(&ty) => Ok(ty),
            (Some(ty), _) => {
                let (ty, found) = (self.type_name(ty), self.type_name(types[0]));
                let why = format!("expected a `{ty}`, found `{name}`, a variant of `{found}`");
                fault(at, why)
            }
            (None, &[ty]) => Ok(ty),
            (None, _) => {
                let listed = listed(types.iter().map(|&ty| self.type_name(ty)));
                let first = self.type_name(types[0]);
                let why =
                    format!("`{name}` is a variant of {listed}: write `{name}: {first}`, say");
                fault(at, why)
            }
        }
    }

    fn only_number_type(&self) -> Option<usize> {
        let types = self.source.guard.types.iter().enumerate();
        let mut numbers = types.filter(|(_, ty)| ty.is_number());
        let (first, _) = numbers.next()?;
        numbers.next().is_none().then_some(first)
    }

    /// Reads the fields after the dots, one after the other.
    fn reads(&mut self, term: &Term, base: Made) -> Result<Made, Fault> {
        let (mut made, mut names) = (base, &term.reads[..]);
        while !names.is_empty() {
            let row = self.shared(made);
            let ty = self.source.guard.row_types[row];
            let (variant, position, rest) = self.field(ty, names)?;
            let field = self.source.guard.types[ty].variants[variant][position];
            made = Made::New(Row::Read(row, variant, position), field, names[0].at);
            names = rest;
        }
        Ok(made)
    }

    /// The variant and position that the first one or two names mean, and the other names.
    fn field<'a>(&self, ty: usize, names: &'a [Name]) -> Result<(usize, usize, &'a [Name]), Fault> {
        let (first, rest) = (&names[0], &names[1..]);
        let type_name = self.type_name(ty);
        if self.source.guard.types[ty].is_number() {
            let why = format!(
                "`{type_name}` is a number type and has no field `{}`",
                first.text
            );
            return fault(first.at, why);
        }
        if let Some(variant) = self.variant_of(ty, &first.text) {
            let fields = &self.source.names.variant(ty, variant).fields;
            let fields = match fields.is_empty() {
                true => "it has none".to_string(),
                false => listed(fields.iter().map(String::as_str)),
            };
            let wanted = format!("a field of `{}` ({fields})", first.text);
            let Some(name) = rest.first() else {
                let why = format!("expected `.` and {wanted} after `{}`", first.text);
                return fault(first.at, why);
            };
            return match self.field_of(ty, variant, &name.text) {
                Some(position) => Ok((variant, position, &rest[1..])),
                None => fault(name.at, format!("expected {wanted}, found `{}`", name.text)),
            };
        }
        // Without a variant: the field has to tell it.
        let variants = 0..self.source.guard.types[ty].variants.len();
        let found: Vec<(usize, usize)> = variants
            .filter_map(|v| Some((v, self.field_of(ty, v, &first.text)?)))
            .collect();
        match found[..] {
            [(variant, position)] => Ok((variant, position, rest)),
            [] => {
                let why = format!(
                    "expected a variant or a field of `{type_name}`, found `{}`",
                    first.text
                );
                fault(first.at, why)
            }
            [(variant, _), ..] => {
                let variant = &self.source.names.variant(ty, variant).name;
                let why = format!(
                    "more than one variant of `{type_name}` has a field `{0}`: \
                     write `.{variant}.{0}`, say",
                    first.text
                );
                fault(first.at, why)
            }
        }
    }

    /// The type that a term has wherever it stands, if that is clear from itself.
    fn clear_type(&self, term: &Term) -> Option<usize> {
        if let Some(name) = &term.ty {
            return self.type_named(name).ok();
        }
        let mut ty = match &term.base {
            Base::Number(_) => self.only_number_type()?,
            Base::Name(name, _) => match (self.terms.get(name), self.variants.get(name)) {
                (Some((row, _)), _) => self.source.guard.row_types[*row],
                (None, Some(types)) if types.len() == 1 => types[0],
                _ => return None,
            },
        };
        let mut names = &term.reads[..];
        while !names.is_empty() {
            let (variant, position, rest) = self.field(ty, names).ok()?;
            ty = self.source.guard.types[ty].variants[variant][position];
            names = rest;
        }
        Some(ty)
    }
}
