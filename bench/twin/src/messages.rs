//! Messages for an open node, drawn as the crates `messages`, `freerows` and `fixedrows` do: classes that nothing fixes
//! first, each with a message of its own, then the others in order of rank.

use std::array;

use crate::growth::{chosen, End, Growth};
use crate::guard::{Guard, Label, Term, TYPES};
use crate::problem::{Constant, Problem, Shape, PLACES, TERMS};
use crate::saturation::{is_active, only_is};
use crate::state::State;

/// Fills the first rows and places; the number of rows.
pub fn draw(
    guard: &Guard,
    problem: &Problem,
    state: &State,
    rows: &mut [i32],
    places: &mut [i32],
) -> usize {
    let needed = needed(problem, state, guard.rows.len());
    let ranks = ranks(problem, state);
    let classes = || (0..TERMS as Term).filter(|&class| needed[usize::from(class)]);
    let highest = classes().map(|class| ranks[usize::from(class)]).max();
    let highest = highest.unwrap_or(0);
    let fixed = fixed(problem, state);
    let mut sheet = Sheet {
        guard,
        growth: Growth::new(guard),
        rows: Store {
            rows: rows.as_chunks_mut().0,
            many: 0,
        },
        defaults: [None; TYPES],
        tops: [None; TYPES],
        fresh: Fresh {
            constants: &problem.constants,
            last: 0,
        },
        highest: highest.into(),
    };
    let mut drawn: [usize; PLACES] = [0; PLACES];
    for class in classes() {
        if fixed[usize::from(class)].is_none() {
            let ty = problem.sorts[usize::from(class)] - 1;
            drawn[usize::from(class)] = sheet.free(ty, state.label(class));
        }
    }
    for rank in 0..=highest {
        for class in classes().filter(|&class| ranks[usize::from(class)] == rank) {
            if let Some(fixed) = &fixed[usize::from(class)] {
                let row = |part: Term| drawn[usize::from(state.class(part))];
                drawn[usize::from(class)] = sheet.fixed(fixed, row);
            }
        }
    }
    for (place, row) in places.iter_mut().zip(0..guard.rows.len() as Term) {
        *place = drawn[usize::from(state.class(row))] as i32;
    }
    sheet.rows.many
}

/// The classes that get a message: those of rows, and of parts of what gets one.
fn needed(problem: &Problem, state: &State, rows: usize) -> [bool; PLACES] {
    let mut needed = [false; PLACES];
    for row in 0..rows as Term {
        needed[usize::from(state.class(row))] = true;
    }
    let mut changed = true;
    while changed {
        changed = false;
        for shape in &problem.shapes {
            if is_active(state, shape) && needed[usize::from(state.class(shape.owner))] {
                for &part in shape.parts.iter() {
                    let mark = &mut needed[usize::from(state.class(part))];
                    changed |= !*mark;
                    *mark = true;
                }
            }
        }
    }
    needed
}

/// Ranks of the classes, which fall from each class to its parts.
fn ranks(problem: &Problem, state: &State) -> [u8; PLACES] {
    let mut ranks = [0; PLACES];
    for round in 1.. {
        let mut changed = false;
        for shape in &problem.shapes {
            let rank = |term| ranks[usize::from(state.class(term))];
            let own = rank(shape.owner);
            if shape.parts.iter().any(|&part| own <= rank(part)) && is_active(state, shape) {
                ranks[usize::from(state.class(shape.owner))] = round;
                changed = true;
            }
        }
        if !changed {
            break;
        }
    }
    ranks
}

/// What fixes the message of a class.
enum Fixed<'p> {
    Shape(&'p Shape),
    Constant(&'p Constant),
    /// One fieldless variant alone, as 16 times the type, plus the variant.
    Single(u8),
}

/// For each class what fixes it, if anything: a shape before a constant before a single variant, the lowest of each.
fn fixed<'p>(problem: &'p Problem, state: &State) -> [Option<Fixed<'p>>; PLACES] {
    let mut fixed = array::from_fn(|_| None);
    for shape in problem
        .shapes
        .iter()
        .filter(|shape| is_active(state, shape))
    {
        let class = state.class(shape.owner);
        fixed[usize::from(class)].get_or_insert(Fixed::Shape(shape));
    }
    for constant in problem
        .constants
        .iter()
        .filter(|constant| constant.sort != 0)
    {
        let class = state.class(constant.term);
        fixed[usize::from(class)].get_or_insert(Fixed::Constant(constant));
    }
    for term in 0..TERMS as Term {
        let sort = problem.sorts[usize::from(term)];
        let variant = state.label(term).trailing_zeros() as u8;
        if sort != 0 && variant < 16 && only_is(problem, state, term, variant.into()) {
            let class = state.class(term);
            let single = Fixed::Single(16 * (sort - 1) + variant);
            fixed[usize::from(class)].get_or_insert(single);
        }
    }
    fixed
}

/// Rows in the lent buffer, no two alike.
struct Store<'a> {
    rows: &'a mut [[i32; 4]],
    many: usize,
}

impl Store<'_> {
    /// The row with these numbers, found from row `start` on or appended.
    fn row(&mut self, start: usize, numbers: [i32; 4]) -> usize {
        let found = self.rows[start..self.many]
            .iter()
            .position(|row| *row == numbers);
        if let Some(row) = found {
            return start + row;
        }
        self.rows[self.many] = numbers;
        self.many += 1;
        self.many - 1
    }

    /// A number as its low 32 bits and its high ones.
    fn number(&mut self, ty: u8, value: i64) -> usize {
        let (low, high) = (value as i32, (value >> 32) as i32);
        self.row(0, [-1 - i32::from(ty), low, high, 0])
    }

    /// A variant, as 16 times the type plus its number, over the rows of its parts.
    fn built(&mut self, start: usize, kind: u8, parts: [usize; 3]) -> usize {
        let [a, b, c] = parts.map(|part| part as i32);
        self.row(start, [kind.into(), a, b, c])
    }
}

/// Numbers that no constant has, upwards from 1.
struct Fresh<'a> {
    constants: &'a [Constant],
    last: i64,
}

impl Fresh<'_> {
    fn next(&mut self) -> i64 {
        let constants = self.constants.iter();
        let taken = |&number: &i64| {
            let mut constants = constants.clone().filter(|constant| constant.sort != 0);
            !constants.any(|constant| constant.value == number)
        };
        self.last = (self.last + 1..).find(taken).expect("few are taken");
        self.last
    }
}

/// The rows drawn so far, and what drawing more looks at.
struct Sheet<'a> {
    guard: &'a Guard,
    growth: Growth,
    rows: Store<'a>,
    /// The row of each type's default, once drawn.
    defaults: [Option<usize>; TYPES],
    /// For each root of a cycle the row of the last message made there.
    tops: [Option<usize>; TYPES],
    fresh: Fresh<'a>,
    /// The highest rank of a class that gets a message.
    highest: usize,
}

impl Sheet<'_> {
    fn fixed(&mut self, fixed: &Fixed, row: impl Fn(Term) -> usize) -> usize {
        match *fixed {
            Fixed::Shape(shape) => {
                let mut parts = [0; 3];
                for (place, &part) in parts.iter_mut().zip(shape.parts.iter()) {
                    *place = row(part);
                }
                self.rows.built(0, shape.kind - 1, parts)
            }
            Fixed::Constant(constant) => self.rows.number(constant.sort - 1, constant.value),
            Fixed::Single(kind) => self.rows.built(0, kind, [0; 3]),
        }
    }

    /// A message of its own for a class of a type with a label.
    fn free(&mut self, ty: u8, label: Label) -> usize {
        if self.guard.is_number(ty) {
            let number = self.fresh.next();
            return self.rows.number(ty, number);
        }
        let variants = &self.guard.types[usize::from(ty)].variants;
        let held = |v: &usize| label >> v & 1 == 1 && !variants[*v].is_empty();
        let variant = (0..variants.len()).find(held);
        let variant = variant.expect("a free class can have fields") as u8;
        let start = self.guard.fields(ty, variant)[chosen(self.guard, ty, variant)];
        let (row, steps) = match self.growth.end(self.guard, start) {
            End::Number { ty, steps } => {
                let number = self.fresh.next();
                (self.rows.number(ty, number), steps)
            }
            End::Cycle {
                root,
                steps,
                period,
            } => (self.lap(root, period), steps),
        };
        let row = self.grow(start, steps, row);
        self.wrap(ty, variant, row)
    }

    /// One lap more of a cycle: whole rounds, longer than every rank and every way to the root.
    fn lap(&mut self, root: u8, period: u8) -> usize {
        let top = self.tops[usize::from(root)];
        let mut row = top.unwrap_or_else(|| self.default(root));
        let longest = self.highest + self.guard.types.len() - 1;
        for _ in 0..longest / usize::from(period) + 1 {
            row = self.grow(root, period, row);
        }
        self.tops[usize::from(root)] = Some(row);
        row
    }

    /// So many steps of growth from a type that end in a row, the last step first.
    fn grow(&mut self, ty: u8, steps: u8, mut row: usize) -> usize {
        for left in (0..steps).rev() {
            let at = self.growth.path(ty).nth(left.into()).unwrap_or(ty);
            row = self.wrap(at, self.growth.variants[usize::from(at)], row);
        }
        row
    }

    /// A variant over a row in its chosen field, with defaults in the others.
    fn wrap(&mut self, ty: u8, variant: u8, row: usize) -> usize {
        let chosen = chosen(self.guard, ty, variant);
        let parts = self.parts(ty, variant, Some((chosen, row)));
        self.rows.built(row + 1, 16 * ty + variant, parts)
    }

    /// The rows of a variant's parts: defaults, but for one that is given.
    fn parts(&mut self, ty: u8, variant: u8, given: Option<(usize, usize)>) -> [usize; 3] {
        let fields = *self.guard.fields(ty, variant);
        let mut parts = [0; 3];
        for (place, &field) in fields.iter().enumerate() {
            parts[place] = match given {
                Some((at, row)) if at == place => row,
                _ => self.default(field),
            };
        }
        parts
    }

    fn default(&mut self, ty: u8) -> usize {
        if let Some(row) = self.defaults[usize::from(ty)] {
            return row;
        }
        let row = if self.guard.is_number(ty) {
            self.rows.number(ty, 0)
        } else {
            let variant = self.guard.defaults[usize::from(ty)];
            let parts = self.parts(ty, variant, None);
            self.rows.built(0, 16 * ty + variant, parts)
        };
        self.defaults[usize::from(ty)] = Some(row);
        row
    }
}
