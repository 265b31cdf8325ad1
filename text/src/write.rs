//! A guard back to text, with made-up names.

use std::collections::HashSet;

use crate::guard::{Guard, Line, Names, Row};

/// Reading this text gives the same guard.
pub fn write(guard: &Guard) -> String {
    let names = Names::made_up(guard);
    let mut lines = Vec::new();
    for (t, ty) in names.types.iter().enumerate() {
        let mut variants = Vec::new();
        for (v, variant) in ty.variants.iter().enumerate() {
            let types = &guard.types[t].variants[v];
            let fields = variant.fields.iter().zip(types);
            let fields = fields.map(|(field, &ty)| format!("{field}: {}", names.types[ty].name));
            let fields: Vec<String> = fields.collect();
            variants.push(applied(&variant.name, &fields));
        }
        let variants = match guard.types[t].is_number() {
            true => "number".to_string(),
            false => variants.join(" | "),
        };
        lines.push(format!("type {} = {variants}", ty.name));
    }
    let term = |row: usize| names.terms[row].0.clone();
    let mut seen = HashSet::new();
    for (r, row) in guard.rows.iter().enumerate() {
        let name = term(r);
        let written = match row {
            Row::Variable(ty) => {
                lines.push(format!("var {name}: {}", names.types[*ty].name));
                continue;
            }
            Row::Constant(ty, value) => format!("{value}: {}", names.types[*ty].name),
            Row::Built(ty, variant, parts) => {
                let parts: Vec<String> = parts.iter().map(|&part| term(part)).collect();
                applied(&names.variant(*ty, *variant).name, &parts)
            }
            Row::Read(read, variant, position) => {
                let variant = names.variant(guard.row_types[*read], *variant);
                let (name, field) = (&variant.name, &variant.fields[*position]);
                format!("{}.{name}.{field}", term(*read))
            }
        };
        // A second row of the same term has to be asked for.
        let word = if seen.insert(row) { "let" } else { "row" };
        lines.push(format!("{word} {name} = {written}"));
    }
    for line in &guard.lines {
        let tested = |row: usize, variant: usize| {
            let name = &names.variant(guard.row_types[row], variant).name;
            (term(row), name.clone())
        };
        lines.push(match *line {
            Line::Equal(a, b) => format!("{} = {}", term(a), term(b)),
            Line::Unequal(a, b) => format!("{} != {}", term(a), term(b)),
            Line::Is(row, variant) => {
                let (term, variant) = tested(row, variant);
                format!("{term} is {variant}")
            }
            Line::Isnt(row, variant) => {
                let (term, variant) = tested(row, variant);
                format!("{term} is not {variant}")
            }
        });
    }
    lines.iter().map(|line| format!("{line}\n")).collect()
}

pub(crate) fn applied(name: &str, parts: &[String]) -> String {
    match parts.is_empty() {
        true => name.to_string(),
        false => format!("{name}({})", parts.join(", ")),
    }
}
