use std::ops::Range;

/// Where a token stands: two positions of the map, its first byte's and the one behind its last.
///
/// A position of the map is a text's offset and a place in the text, added. As in lex.rs, [`Span::default`] is the span of nothing
/// that was read, which has no positions; `u32::MAX` stands for them.
#[derive(Clone, Copy, Debug, PartialEq, Eq, Hash)]
pub struct Span {
    start: u32,
    end: u32,
}

impl Default for Span {
    fn default() -> Span {
        Span {
            start: u32::MAX,
            end: u32::MAX,
        }
    }
}

impl Span {
    /// The span between two positions.
    ///
    /// # Panics
    ///
    /// If one of them is `u32::MAX`, as lex.rs does. No answer of the library has that position.
    pub fn new(start: u32, end: u32) -> Span {
        let span = Span { start, end };
        assert!(span.is_known(), "u32::MAX is no position of the map");
        span
    }

    /// A span of the library's, whose positions are below `u32::MAX`.
    pub(crate) fn told(start: u32, end: u32) -> Span {
        Span { start, end }
    }

    /// Its two numbers, known or not.
    pub(crate) fn numbers(self) -> (u32, u32) {
        (self.start, self.end)
    }

    /// The position of its first byte.
    ///
    /// # Panics
    ///
    /// If the span is not known.
    pub fn start(&self) -> u32 {
        assert!(self.is_known(), "a span that is not known has no start");
        self.start
    }

    /// The position behind its last byte.
    ///
    /// # Panics
    ///
    /// If the span is not known.
    pub fn end(&self) -> u32 {
        assert!(self.is_known(), "a span that is not known has no end");
        self.end
    }

    /// Moves the start. A span that was not known is then empty and stands there.
    pub fn set_start(&mut self, start: u32) {
        if !self.is_known() {
            self.end = start;
        }
        self.start = start;
    }

    /// Moves the end. A span that was not known is then empty and stands there.
    pub fn set_end(&mut self, end: u32) {
        if !self.is_known() {
            self.start = end;
        }
        self.end = end;
    }

    /// Moves a known span by an offset.
    pub fn adjust(&mut self, offset: u32) {
        if self.is_known() {
            self.start += offset;
            self.end += offset;
        }
    }

    /// Whether the span has positions.
    pub fn is_known(&self) -> bool {
        self.start != u32::MAX && self.end != u32::MAX
    }

    /// The span's places in a text that stands at `offset` in the map, or none if it begins before the text.
    ///
    /// ```
    /// let text = "use clock";
    /// let row = witbox::list(text, 100)?[1];
    /// assert_eq!(row.span, witbox::Span::new(104, 109));
    /// assert_eq!(row.span.places(100).map(|places| &text[places]), Some("clock"));
    /// # Ok::<(), witbox::Error>(())
    /// ```
    pub fn places(&self, offset: u32) -> Option<Range<usize>> {
        if !self.is_known() {
            return None;
        }
        let start = self.start.checked_sub(offset)?;
        let end = self.end.checked_sub(offset)?;
        Some(usize::try_from(start).ok()?..usize::try_from(end).ok()?)
    }
}

#[cfg(test)]
mod tests {
    use super::*;

    #[test]
    fn moved() {
        let mut span = Span::default();
        assert!(!span.is_known());
        span.adjust(3);
        assert!(!span.is_known());
        assert_eq!(span.places(0), None);
        span.set_end(7);
        assert_eq!(span, Span::new(7, 7));
        span.set_start(5);
        span.adjust(10);
        assert_eq!((span.start(), span.end()), (15, 17));
        assert_eq!(span.places(15), Some(0..2));
        assert_eq!(span.places(16), None);
        let mut other = Span::default();
        other.set_start(4);
        assert_eq!(other, Span::new(4, 4));
    }
}
