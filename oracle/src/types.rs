//! Message types: which are finite, and what their defaults are.

/// A type as its variants, a variant as the types of its fields.
#[derive(Clone, Debug, Default, PartialEq, Eq)]
pub struct Type {
    pub variants: Vec<Vec<usize>>,
}

impl Type {
    /// "V = 0 is a number type."
    pub fn is_number(&self) -> bool {
        self.variants.is_empty()
    }
}

/// The default message of a type, one step deep.
#[derive(Clone, Copy, Debug, PartialEq, Eq)]
pub enum DefaultOf {
    /// "A number type has 0."
    Zero,
    /// This variant over the defaults of its field types.
    Variant(usize),
}

/// Tells for each type whether it is finite.
///
/// "A type is finite exactly if all its variants are, and a variant exactly if
/// all its field types are, reached in finitely many rounds; number types are
/// infinite."
pub fn finite(types: &[Type]) -> Vec<bool> {
    let mut known = vec![false; types.len()];
    loop {
        let next: Vec<bool> = types
            .iter()
            .map(|ty| {
                let mut fields = ty.variants.iter().flatten();
                !ty.is_number() && fields.all(|&field| known[field])
            })
            .collect();
        if next == known {
            return known;
        }
        known = next;
    }
}

/// The default of each type that has one.
///
/// "In each round, every type without a default, having a variant whose field
/// types all got theirs in earlier rounds, takes the lowest such variant."
pub fn defaults(types: &[Type]) -> Vec<Option<DefaultOf>> {
    let mut known: Vec<Option<DefaultOf>> = types
        .iter()
        .map(|ty| ty.is_number().then_some(DefaultOf::Zero))
        .collect();
    loop {
        let earlier = known.clone();
        for (ty, default) in types.iter().zip(&mut known) {
            if default.is_none() {
                let ready = |fields: &Vec<usize>| fields.iter().all(|&f| earlier[f].is_some());
                *default = ty.variants.iter().position(ready).map(DefaultOf::Variant);
            }
        }
        if known == earlier {
            return known;
        }
    }
}

/// "Does every variant with fields have a field of infinite type?"
pub fn fields_can_grow(types: &[Type]) -> bool {
    let finite = finite(types);
    let mut variants = types.iter().flat_map(|ty| &ty.variants);
    variants.all(|fields| fields.is_empty() || fields.iter().any(|&field| !finite[field]))
}

/// Request #112: is at most one type a number type?
pub fn one_number_type(types: &[Type]) -> bool {
    types.iter().filter(|ty| ty.is_number()).count() <= 1
}

#[cfg(test)]
mod tests {
    use super::*;

    fn ty(variants: &[&[usize]]) -> Type {
        Type {
            variants: variants.iter().map(|fields| fields.to_vec()).collect(),
        }
    }

    #[test]
    fn a_default_takes_the_lowest_variant_ready_in_its_round() {
        // Numbers are ready before round 1, so leaf(number) beats a later nil.
        let types = [ty(&[]), ty(&[&[1], &[0], &[]])];
        assert_eq!(defaults(&types)[1], Some(DefaultOf::Variant(1)));
        // Type 1 is ready only in round 2, so type 0 takes its variant 1.
        let types = [ty(&[&[1], &[]]), ty(&[&[0]])];
        let expected = [Some(DefaultOf::Variant(1)), Some(DefaultOf::Variant(0))];
        assert_eq!(defaults(&types), expected);
        assert_eq!(defaults(&[ty(&[&[0]])]), [None]);
    }

    #[test]
    fn finite_types_are_reached_in_rounds() {
        let types = [
            ty(&[&[1, 1]]),
            ty(&[&[2]]),
            ty(&[&[], &[]]),
            ty(&[]),
            ty(&[&[], &[4]]),
        ];
        assert_eq!(finite(&types), [true, true, true, false, false]);
    }
}
