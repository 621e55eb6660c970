//! Points, and lists of them.

use crate::raw::{Listed, MAX_AREA};
use crate::refusal::accepted;
use crate::Refusal;
use std::fmt;
use std::iter::FusedIterator;

/// A row and a column, from 0 at the top left. It need not lie on a board: the referee refuses it where it does not. A pair `(row, column)` serves too.
#[derive(Clone, Copy, Debug, PartialEq, Eq, Hash, PartialOrd, Ord)]
pub struct Point {
    /// From the top.
    pub row: u8,
    /// From the left.
    pub column: u8,
}

impl Point {
    /// The point in this row and column.
    pub const fn new(row: u8, column: u8) -> Point {
        Point { row, column }
    }

    /// The point with this index on a board of this width; such an index is below 19 × 19.
    pub(crate) fn at(index: usize, width: u8) -> Point {
        let width = usize::from(width);
        Point { row: (index / width) as u8, column: (index % width) as u8 }
    }
}

impl From<(u8, u8)> for Point {
    fn from((row, column): (u8, u8)) -> Point {
        Point { row, column }
    }
}

impl fmt::Display for Point {
    fn fmt(&self, out: &mut fmt::Formatter<'_>) -> fmt::Result {
        write!(out, "({}, {})", self.row, self.column)
    }
}

/// A list of points, row by row from the top left: an iterator that knows its length. It holds its points and borrows nothing.
///
/// ```
/// use samtrekhu::{Board, Point};
///
/// let board = Board::new(2, 2)?;
/// let mut points = board.get_empty_coords()?;
/// assert_eq!(points.len(), 4);
/// assert_eq!(points.next(), Some(Point::new(0, 0)));
/// assert_eq!(points.last(), Some(Point::new(1, 1)));
/// # Ok::<(), samtrekhu::Refusal>(())
/// ```
#[derive(Clone)]
pub struct Points {
    indexes: [u16; MAX_AREA],
    next: usize,
    end: usize,
    width: u8,
}

impl Points {
    /// The list that a call fills in, on a board of this width.
    pub(crate) fn listed(width: u8, call: impl FnOnce(&mut [u16]) -> Listed) -> Result<Points, Refusal> {
        let mut indexes = [0; MAX_AREA];
        let Listed { number, count } = call(&mut indexes);
        accepted(number)?;
        Ok(Points { indexes, next: 0, end: count, width })
    }
}

impl Iterator for Points {
    type Item = Point;

    fn next(&mut self) -> Option<Point> {
        if self.next == self.end {
            return None;
        }
        let index = self.indexes[self.next];
        self.next += 1;
        Some(Point::at(index.into(), self.width))
    }

    fn size_hint(&self) -> (usize, Option<usize>) {
        let left = self.end - self.next;
        (left, Some(left))
    }
}

impl ExactSizeIterator for Points {}

impl FusedIterator for Points {}

impl fmt::Debug for Points {
    fn fmt(&self, out: &mut fmt::Formatter<'_>) -> fmt::Result {
        out.debug_list().entries(self.clone()).finish()
    }
}
