//! The root's state before any rule, as crate `given` makes it.

use crate::guard::{Line, Term};
use crate::problem::{Problem, TERMS};
use crate::state::State;

pub fn given(problem: &Problem) -> State {
    let mut state = State::new();
    for term in 0..TERMS as Term {
        if problem.sorts[term as usize] != 0 {
            state.restrict(term, problem.full(term));
        }
    }
    for shape in &problem.shapes {
        if shape.kind != 0 && shape.others == 0 {
            state.restrict(shape.owner, 1 << ((shape.kind - 1) % 16));
        }
    }
    for (k, constant) in problem.constants.iter().enumerate() {
        for before in &problem.constants[..k] {
            let same = before.sort == constant.sort && before.value == constant.value;
            if constant.sort != 0 && same {
                state.unite(before.term, constant.term);
            }
        }
    }
    for line in problem.lines {
        match *line {
            Line::Equal(a, b) => {
                state.unite(a, b);
            }
            Line::Unequal(..) => {}
            Line::Is(term, variant) => state.restrict(term, 1 << variant),
            Line::Isnt(term, variant) => state.restrict(term, !(1 << variant)),
        }
    }
    state
}
