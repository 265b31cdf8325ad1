//! How messages of each type grow, as in crate `growthtables`: a type grows in its lowest variant with fields, a variant in
//! its first infinite field.

use crate::guard::{Guard, TYPES};

pub struct Growth {
    /// The variant in which each type grows, and the type of the field in which that variant does.
    pub variants: [u8; TYPES],
    next: [u8; TYPES],
}

/// Where growth leads to, in how many steps.
pub enum End {
    Number { ty: u8, steps: u8 },
    Cycle { root: u8, steps: u8, period: u8 },
}

impl Growth {
    pub fn new(guard: &Guard) -> Growth {
        let mut growth = Growth {
            variants: [0; TYPES],
            next: [0; TYPES],
        };
        for (t, ty) in guard.types.iter().enumerate() {
            let growing = ty.variants.iter().position(|fields| !fields.is_empty());
            if let Some(variant) = growing {
                let chosen = chosen(guard, t as u8, variant as u8);
                growth.variants[t] = variant as u8;
                growth.next[t] = ty.variants[variant][chosen];
            }
        }
        growth
    }

    /// The types that growth from `ty` meets, `ty` first.
    pub fn path(&self, ty: u8) -> impl Iterator<Item = u8> + '_ {
        std::iter::successors(Some(ty), |&ty| Some(self.next[usize::from(ty)]))
    }

    /// The lowest type of a cycle stands for it.
    pub fn end(&self, guard: &Guard, ty: u8) -> End {
        let many = guard.types.len();
        let number = self.path(ty).take(many).zip(0..);
        if let Some((ty, steps)) = number.into_iter().find(|&(ty, _)| guard.is_number(ty)) {
            return End::Number { ty, steps };
        }
        // As many steps as there are types lead onto the cycle, and as many more go all round it.
        let root = self.path(ty).skip(many).take(many).min().unwrap_or(ty);
        End::Cycle {
            root,
            steps: self.steps(ty, root),
            period: 1 + self.steps(self.next[usize::from(root)], root),
        }
    }

    fn steps(&self, ty: u8, root: u8) -> u8 {
        self.path(ty).take_while(|&ty| ty != root).count() as u8
    }
}

/// The first infinite field of a variant with fields.
pub fn chosen(guard: &Guard, ty: u8, variant: u8) -> usize {
    let mut fields = guard.fields(ty, variant).iter();
    fields
        .position(|&field| !guard.finite[usize::from(field)])
        .expect("a variant with fields has an infinite one")
}
