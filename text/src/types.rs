//! Which types have a default, which are finite, and which are number types: questions 8, 9 and 18.

use crate::guard::Type;

/// Question 8: the first type without a default.
pub fn without_default(types: &[Type]) -> Option<usize> {
    let has = least(types, |ty, has| {
        let made = |fields: &Vec<usize>| fields.iter().all(|&field| has[field]);
        ty.is_number() || ty.variants.iter().any(made)
    });
    has.iter().position(|&has| !has)
}

/// Question 9: the first variant, by type and number, whose fields are all of finite type.
pub fn finite_fields(types: &[Type]) -> Option<(usize, usize)> {
    let finite = least(types, |ty, finite| {
        !ty.is_number() && ty.variants.iter().flatten().all(|&field| finite[field])
    });
    for (t, ty) in types.iter().enumerate() {
        let stuck =
            |fields: &Vec<usize>| !fields.is_empty() && fields.iter().all(|&field| finite[field]);
        if let Some(v) = ty.variants.iter().position(stuck) {
            return Some((t, v));
        }
    }
    None
}

/// Question 18: the second number type.
pub fn second_number(types: &[Type]) -> Option<usize> {
    let mut numbers = (0..types.len()).filter(|&t| types[t].is_number());
    numbers.nth(1)
}

/// The least set of types that is closed under the rule; a round for each type suffices.
fn least(types: &[Type], rule: impl Fn(&Type, &[bool]) -> bool) -> Vec<bool> {
    let mut set = vec![false; types.len()];
    for _ in types {
        set = types.iter().map(|ty| rule(ty, &set)).collect();
    }
    set
}

#[cfg(test)]
mod tests {
    use super::*;

    fn types(all: &[&[&[usize]]]) -> Vec<Type> {
        let ty = |variants: &&[&[usize]]| Type {
            variants: variants.iter().map(|fields| fields.to_vec()).collect(),
        };
        all.iter().map(ty).collect()
    }

    #[test]
    fn defaults_come_in_rounds() {
        assert_eq!(without_default(&types(&[&[&[1]], &[&[2]], &[&[]]])), None);
        assert_eq!(without_default(&types(&[&[], &[&[1]]])), Some(1));
        assert_eq!(without_default(&types(&[&[&[1]], &[&[0], &[1]]])), Some(0));
    }

    #[test]
    fn one_type_is_a_number_type() {
        assert_eq!(second_number(&types(&[&[], &[&[]], &[], &[]])), Some(2));
        assert_eq!(second_number(&types(&[&[&[]], &[], &[&[]]])), None);
        assert_eq!(second_number(&types(&[&[&[]]])), None);
    }

    #[test]
    fn fields_need_an_infinite_type() {
        assert_eq!(finite_fields(&types(&[&[&[]], &[&[], &[0]]])), Some((1, 1)));
        assert_eq!(finite_fields(&types(&[&[], &[&[], &[0, 1]]])), None);
        assert_eq!(finite_fields(&types(&[&[&[]], &[&[], &[0, 1]]])), None);
    }
}
