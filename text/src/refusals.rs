//! A refusal in the author's words, with its line and column.

use crate::check::Source;
use crate::guard::{FIELDS, LINES, TERMS, TYPES, VARIANTS_IN_ALL, VARIANTS_PER_TYPE};
use crate::lex::{Fault, Place};
use crate::types::{finite_fields, second_number, without_default};

/// Where in the text a refusal belongs; an error if the guard gives no reason for a no to this
/// question. Names, kinds and types of a text fit, so no other question can get one.
pub fn explain(source: &Source, question: u32) -> Result<Fault, String> {
    let fault = match question {
        4 => count(source),
        8 => no_default(source),
        9 => no_infinite_field(source),
        18 => several_numbers(source),
        _ => None,
    };
    fault.ok_or_else(|| {
        format!(
            "the desk answers REFUSED {question} and guardtext sees no reason for it; \
             this is an error in one of the two"
        )
    })
}

fn no_default(source: &Source) -> Option<Fault> {
    let t = without_default(&source.guard.types)?;
    let why = format!(
        "type `{}` has no default, as it has no messages: \
         each of its variants has a field that no message can fill",
        source.names.types[t].name
    );
    Some(Fault::new(source.places.types[t], why))
}

fn no_infinite_field(source: &Source) -> Option<Fault> {
    let (t, v) = finite_fields(&source.guard.types)?;
    let why = format!(
        "variant `{}` of `{}` has fields of finite types only: \
         at least one field has to be of an infinite type, such as a number type",
        source.names.variant(t, v).name,
        source.names.types[t].name
    );
    Some(Fault::new(source.places.variants[t][v], why))
}

fn several_numbers(source: &Source) -> Option<Fault> {
    let t = second_number(&source.guard.types)?;
    let why = format!(
        "more than one number type: `{}` is the second",
        source.names.types[t].name
    );
    Some(Fault::new(source.places.types[t], why))
}

/// The first count beyond its limit, in file order.
fn count(source: &Source) -> Option<Fault> {
    let places = &source.places;
    let types = || {
        too_many(&places.types, TYPES, |found| {
            format!("the guard has {found} types, at most {TYPES} are taken")
        })
    };
    let terms = || {
        too_many(&places.rows, TERMS, |found| {
            format!("the guard has {found} different terms, at most {TERMS} are taken")
        })
    };
    let lines = || {
        too_many(&places.lines, LINES, |found| {
            format!("the guard has {found} lines, at most {LINES} are taken")
        })
    };
    types()
        .or_else(|| within_types(source))
        .or_else(terms)
        .or_else(lines)
}

/// The first count of variants or fields beyond its limit.
fn within_types(source: &Source) -> Option<Fault> {
    let mut left = VARIANTS_IN_ALL;
    for (t, variants) in source.places.variants.iter().enumerate() {
        let name = &source.names.types[t].name;
        let limit = left.min(VARIANTS_PER_TYPE);
        let fault = too_many(variants, limit, |found| match limit {
            VARIANTS_PER_TYPE => {
                format!("type `{name}` has {found} variants, at most {limit} are taken")
            }
            _ => format!(
                "type `{name}` has {found} variants, and at most {VARIANTS_IN_ALL} are taken \
                 in all types together: there is room for {limit} here"
            ),
        });
        let fields = || {
            let mut fields = source.places.fields[t].iter().enumerate();
            fields.find_map(|(v, fields)| {
                let name = &source.names.variant(t, v).name;
                too_many(fields, FIELDS, |found| {
                    format!("variant `{name}` has {found} fields, at most {FIELDS} are taken")
                })
            })
        };
        let fault = fault.or_else(fields);
        if fault.is_some() {
            return fault;
        }
        left -= variants.len();
    }
    None
}

/// What is said of things that are more than the limit, at the first too many.
pub(crate) fn too_many(
    all: &[Place],
    limit: usize,
    why: impl Fn(usize) -> String,
) -> Option<Fault> {
    let at = *all.get(limit)?;
    let why = why(all.len());
    Some(Fault::new(at, format!("{why}; this is the first too many")))
}
