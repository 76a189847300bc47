//! The lines of a view's document.

use crate::{Refusal, View};
use std::iter::FusedIterator;
use std::ops::Range;

/// The lines of a view's document, each a copy with its line end; the last one has none. Lines are those of the component.
///
/// A line for whose copy there is no memory is an `Err` with [`Refusal::OutOfMemory`], and the lines after it follow.
#[derive(Debug)]
pub struct Lines<'v> {
    view: View<'v>,
    lines: Range<i64>,
}

impl<'v> Lines<'v> {
    /// Of a view that is open, with so many lines.
    pub(crate) fn of(view: View<'v>, count: i64) -> Lines<'v> {
        Lines { view, lines: 0..count }
    }

    /// A line that is there: its view is open, and the text stays as long as the session is borrowed.
    fn at(&self, line: i64) -> Result<Vec<u8>, Refusal> {
        let start = self.view.position_from_line(line)?;
        let end = self.view.position_from_line(line + 1)?;
        let length = usize::try_from(end - start).map_err(|_| Refusal::OutOfMemory)?;
        let mut bytes = Vec::new();
        bytes.try_reserve_exact(length).map_err(|_| Refusal::OutOfMemory)?;
        bytes.resize(length, 0);
        self.view.read_range(start, &mut bytes)?;
        Ok(bytes)
    }
}

impl Iterator for Lines<'_> {
    type Item = Result<Vec<u8>, Refusal>;

    fn next(&mut self) -> Option<Self::Item> {
        let line = self.lines.next()?;
        Some(self.at(line))
    }

    fn nth(&mut self, count: usize) -> Option<Self::Item> {
        let line = self.lines.nth(count)?;
        Some(self.at(line))
    }

    fn size_hint(&self) -> (usize, Option<usize>) {
        self.lines.size_hint()
    }
}

impl DoubleEndedIterator for Lines<'_> {
    fn next_back(&mut self) -> Option<Self::Item> {
        let line = self.lines.next_back()?;
        Some(self.at(line))
    }
}

impl ExactSizeIterator for Lines<'_> {
    fn len(&self) -> usize {
        usize::try_from(self.lines.end - self.lines.start).unwrap_or(0)
    }
}

impl FusedIterator for Lines<'_> {}
