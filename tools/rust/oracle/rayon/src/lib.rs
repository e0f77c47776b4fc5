//! Sequential stand-in for the part of rayon that phonors calls: one worker, items in order.
//! With one worker the list driver of phonors keeps `inner_par` false for every list of one triplet or more.

use std::slice::{ChunksMut, Iter, IterMut};

/// Number of workers.
pub fn current_num_threads() -> usize {
    1
}

/// A "parallel" iterator: an ordinary one with rayon's method names.
pub struct Sequence<I>(I);

impl<I: Iterator> Sequence<I> {
    pub fn enumerate(self) -> Sequence<std::iter::Enumerate<I>> {
        Sequence(self.0.enumerate())
    }

    pub fn zip<J: Iterator>(self, other: Sequence<J>) -> Sequence<std::iter::Zip<I, J>> {
        Sequence(self.0.zip(other.0))
    }

    pub fn for_each<F: FnMut(I::Item)>(self, f: F) {
        self.0.for_each(f)
    }

    /// The one worker makes its state once and keeps it for the whole sequence.
    pub fn for_each_init<T, S: Fn() -> T, F: FnMut(&mut T, I::Item)>(self, init: S, mut f: F) {
        let mut state = init();
        self.0.for_each(|item| f(&mut state, item))
    }
}

/// `par_iter`, `par_iter_mut` and `par_chunks_mut` of a slice.
pub trait SliceSequences<T> {
    fn par_iter(&self) -> Sequence<Iter<'_, T>>;
    fn par_iter_mut(&mut self) -> Sequence<IterMut<'_, T>>;
    fn par_chunks_mut(&mut self, size: usize) -> Sequence<ChunksMut<'_, T>>;
}

impl<T> SliceSequences<T> for [T] {
    fn par_iter(&self) -> Sequence<Iter<'_, T>> {
        Sequence(self.iter())
    }

    fn par_iter_mut(&mut self) -> Sequence<IterMut<'_, T>> {
        Sequence(self.iter_mut())
    }

    fn par_chunks_mut(&mut self, size: usize) -> Sequence<ChunksMut<'_, T>> {
        Sequence(self.chunks_mut(size))
    }
}

pub mod prelude {
    pub use crate::SliceSequences;
}
