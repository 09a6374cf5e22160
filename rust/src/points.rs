//! The points of a line, one by one.

use std::fmt;
use std::iter::FusedIterator;
use std::slice::ChunksExact;

/// The points of a [`Line`](crate::Line), in order: what [`iter`](crate::Line::iter) gives.
#[derive(Clone)]
pub struct Points<'a>(ChunksExact<'a, i64>);

impl<'a> Points<'a> {
    /// Of coordinates x, y, x, y.
    pub(crate) fn new(numbers: &'a [i64]) -> Points<'a> {
        Points(numbers.chunks_exact(2))
    }
}

fn point(numbers: &[i64]) -> (i64, i64) {
    (numbers[0], numbers[1])
}

impl Iterator for Points<'_> {
    type Item = (i64, i64);

    fn next(&mut self) -> Option<(i64, i64)> {
        self.0.next().map(point)
    }

    fn size_hint(&self) -> (usize, Option<usize>) {
        self.0.size_hint()
    }

    fn nth(&mut self, n: usize) -> Option<(i64, i64)> {
        self.0.nth(n).map(point)
    }
}

impl DoubleEndedIterator for Points<'_> {
    fn next_back(&mut self) -> Option<(i64, i64)> {
        self.0.next_back().map(point)
    }
}

impl ExactSizeIterator for Points<'_> {}

impl FusedIterator for Points<'_> {}

impl fmt::Debug for Points<'_> {
    fn fmt(&self, f: &mut fmt::Formatter) -> fmt::Result {
        f.debug_list().entries(self.clone()).finish()
    }
}
