//! A guard as numbers, and the names that go with it.

/// "T (0 to 6)."
pub const TYPES: usize = 6;
/// "For each type V (0 to 16)."
pub const VARIANTS_PER_TYPE: usize = 16;
/// "All types together have at most 48 variants."
pub const VARIANTS_IN_ALL: usize = 48;
/// "F (0 to 3)."
pub const FIELDS: usize = 3;
/// "N (0 to 24)."
pub const TERMS: usize = 24;
/// "L (0 to 32)."
pub const LINES: usize = 32;

/// The field types of each variant; a number type has no variants.
#[derive(Clone, Debug, Default, PartialEq, Eq)]
pub struct Type {
    pub variants: Vec<Vec<usize>>,
}

impl Type {
    pub fn is_number(&self) -> bool {
        self.variants.is_empty()
    }
}

#[derive(Clone, Debug, PartialEq, Eq, Hash)]
pub enum Row {
    Variable(usize),
    Constant(usize, i64),
    Built(usize, usize, Vec<usize>),
    /// A term, a variant and a position.
    Read(usize, usize, usize),
}

#[derive(Clone, Copy, Debug, PartialEq, Eq)]
pub enum Line {
    Equal(usize, usize),
    Unequal(usize, usize),
    Is(usize, usize),
    Isnt(usize, usize),
}

#[derive(Clone, Debug, Default, PartialEq, Eq)]
pub struct Guard {
    pub types: Vec<Type>,
    pub rows: Vec<Row>,
    /// The type of each row.
    pub row_types: Vec<usize>,
    pub lines: Vec<Line>,
}

#[derive(Clone, Debug, Default, PartialEq, Eq)]
pub struct VariantNames {
    pub name: String,
    pub fields: Vec<String>,
}

#[derive(Clone, Debug, Default, PartialEq, Eq)]
pub struct TypeNames {
    pub name: String,
    pub variants: Vec<VariantNames>,
}

#[derive(Clone, Debug, Default, PartialEq, Eq)]
pub struct Names {
    pub types: Vec<TypeNames>,
    /// The named terms in the order of their text, each with its row.
    pub terms: Vec<(String, usize)>,
}

impl Names {
    pub fn variant(&self, ty: usize, variant: usize) -> &VariantNames {
        &self.types[ty].variants[variant]
    }

    /// Names for a guard that has none: types t0, variants v0 counted through all types,
    /// fields f0, and x0 for row 0.
    pub fn made_up(guard: &Guard) -> Names {
        let mut count = 0;
        let mut types = Vec::new();
        for (t, ty) in guard.types.iter().enumerate() {
            let mut variants = Vec::new();
            for fields in &ty.variants {
                let fields = (0..fields.len()).map(|f| format!("f{f}")).collect();
                let name = format!("v{count}");
                variants.push(VariantNames { name, fields });
                count += 1;
            }
            let name = format!("t{t}");
            types.push(TypeNames { name, variants });
        }
        let terms = (0..guard.rows.len()).map(|r| (format!("x{r}"), r));
        Names {
            types,
            terms: terms.collect(),
        }
    }
}
