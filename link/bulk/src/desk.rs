//! The calls that are compared.

use crate::library;
use guarddesk::raw;

/// The buffers of a call.
pub struct Lent<'l> {
    pub rows: &'l mut [i32],
    pub places: &'l mut [i32],
    /// Not lent to the call without a record.
    pub record: &'l mut [u8],
    pub answer: &'l mut [u32],
}

/// The library's calls, or others in their place.
pub trait Desk {
    fn decide(&self, file: &[u8], budget: u32, lent: &mut Lent) -> u32 {
        raw::decide_into(file, budget, lent.rows, lent.places, lent.answer)
    }

    /// The flight loader's call (request #110).
    fn load(&self, file: &[u8], budget: u32, lent: &mut Lent) -> u32 {
        raw::load_into(file, budget, lent.rows, lent.places, lent.answer)
    }

    fn explain(&self, file: &[u8], budget: u32, lent: &mut Lent) -> usize {
        let Lent {
            rows,
            places,
            record,
            answer,
        } = lent;
        library::explain_into(file, budget, rows, places, record, answer)
    }

    fn check(&self, file: &[u8], record: &[u8]) -> u32 {
        library::check(file, record)
    }

    fn write(&self, list: &[i64], out: &mut [u8]) -> i64 {
        raw::write_into(list, out)
    }

    fn merge(&self, first: &[u8], second: &[u8], out: &mut [u8]) -> i64 {
        raw::merge_into(first, second, out)
    }

    fn store(&self, file: &[u8], out: &mut [u8]) -> i64 {
        raw::store_into(file, out)
    }

    fn restore(&self, stored: &[u8], out: &mut [u8]) -> i64 {
        raw::restore_into(stored, out)
    }

    fn branches(&self, procedure: &[u8], budget: u32, out: &mut [u8]) -> i64 {
        raw::branches_into(procedure, budget, out)
    }

    fn summarize(&self, file: &[u8], budget: u32, summary: &mut [u16]) -> u32 {
        raw::summarize_into(file, budget, summary)
    }

    fn add_line(&self, file: &[u8], line: &[u8], budget: u32, summary: &mut [u16]) -> u32 {
        raw::add_line_into(file, line, budget, summary)
    }
}

#[derive(Clone, Copy)]
pub struct Library;

impl Desk for Library {}

/// Wrong desks of the tests: the library but for one call.
#[cfg(test)]
pub mod planted {
    use super::{Desk, Lent};

    #[derive(Clone, Copy)]
    pub struct Decide<D>(pub D);

    impl<D> Desk for Decide<D>
    where
        D: Fn(&[u8], u32, &mut [i32], &mut [i32], &mut [u32]) -> u32,
    {
        fn decide(&self, file: &[u8], budget: u32, lent: &mut Lent) -> u32 {
            (self.0)(file, budget, lent.rows, lent.places, lent.answer)
        }
    }

    #[derive(Clone, Copy)]
    pub struct Load<L>(pub L);

    impl<L> Desk for Load<L>
    where
        L: Fn(&[u8], u32, &mut [i32], &mut [i32], &mut [u32]) -> u32,
    {
        fn load(&self, file: &[u8], budget: u32, lent: &mut Lent) -> u32 {
            (self.0)(file, budget, lent.rows, lent.places, lent.answer)
        }
    }

    pub struct Explain<E>(pub E);

    impl<E: Fn(&[u8], u32, &mut Lent) -> usize> Desk for Explain<E> {
        fn explain(&self, file: &[u8], budget: u32, lent: &mut Lent) -> usize {
            (self.0)(file, budget, lent)
        }
    }

    pub struct Check<C>(pub C);

    impl<C: Fn(&[u8], &[u8]) -> u32> Desk for Check<C> {
        fn check(&self, file: &[u8], record: &[u8]) -> u32 {
            (self.0)(file, record)
        }
    }

    pub struct Write<W>(pub W);

    impl<W: Fn(&[i64], &mut [u8]) -> i64> Desk for Write<W> {
        fn write(&self, list: &[i64], out: &mut [u8]) -> i64 {
            (self.0)(list, out)
        }
    }

    pub struct Merge<M>(pub M);

    impl<M: Fn(&[u8], &[u8], &mut [u8]) -> i64> Desk for Merge<M> {
        fn merge(&self, first: &[u8], second: &[u8], out: &mut [u8]) -> i64 {
            (self.0)(first, second, out)
        }
    }

    pub struct Store<S>(pub S);

    impl<S: Fn(&[u8], &mut [u8]) -> i64> Desk for Store<S> {
        fn store(&self, file: &[u8], out: &mut [u8]) -> i64 {
            (self.0)(file, out)
        }
    }

    pub struct Restore<R>(pub R);

    impl<R: Fn(&[u8], &mut [u8]) -> i64> Desk for Restore<R> {
        fn restore(&self, stored: &[u8], out: &mut [u8]) -> i64 {
            (self.0)(stored, out)
        }
    }

    pub struct Branches<B>(pub B);

    impl<B: Fn(&[u8], u32, &mut [u8]) -> i64> Desk for Branches<B> {
        fn branches(&self, procedure: &[u8], budget: u32, out: &mut [u8]) -> i64 {
            (self.0)(procedure, budget, out)
        }
    }

    pub struct Summarize<S>(pub S);

    impl<S: Fn(&[u8], u32, &mut [u16]) -> u32> Desk for Summarize<S> {
        fn summarize(&self, file: &[u8], budget: u32, summary: &mut [u16]) -> u32 {
            (self.0)(file, budget, summary)
        }
    }

    pub struct AddLine<A>(pub A);

    impl<A: Fn(&[u8], &[u8], u32, &mut [u16]) -> u32> Desk for AddLine<A> {
        fn add_line(&self, file: &[u8], line: &[u8], budget: u32, summary: &mut [u16]) -> u32 {
            (self.0)(file, line, budget, summary)
        }
    }
}
