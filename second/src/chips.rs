//! The chips: their numbers in a panel, their names, and how many lines each
//! shows. All that one chip has otherwise than the other is computed from its
//! lines.

/// Positions of a line, which are places of display memory and of the shift too.
pub const LINE: usize = 16;

/// Rows of dots that a line has.
pub const LINE_ROWS: usize = 8;

/// Display memory has as many bytes for every chip.
pub const DISPLAY_SIZE: usize = 32;

/// A chip by its number in a panel; there may be no such chip.
#[derive(Clone, Copy, Debug, PartialEq)]
pub struct Chip(pub u8);

impl Chip {
    /// The NJU6631A.
    pub const ONE_LINE: Chip = Chip(31);
    /// The NJU6635.
    pub const TWO_LINES: Chip = Chip(35);
    pub const KNOWN: [Chip; 2] = [Chip::ONE_LINE, Chip::TWO_LINES];

    /// The chip that the programs are told by this name.
    pub fn named(name: &str) -> Option<Chip> {
        Chip::KNOWN.into_iter().find(|chip| chip.name() == name)
    }

    pub fn name(self) -> &'static str {
        match self {
            Chip::ONE_LINE => "6631",
            Chip::TWO_LINES => "6635",
            _ => "unknown",
        }
    }

    pub fn is_known(self) -> bool {
        Chip::KNOWN.contains(&self)
    }

    /// An unknown chip counts as one line where somebody has to count.
    pub fn lines(self) -> usize {
        if self == Chip::TWO_LINES { 2 } else { 1 }
    }

    /// How many bytes of display memory the chip itself has.
    pub fn places(self) -> usize {
        LINE * self.lines()
    }

    /// Rows of the frame.
    pub fn rows(self) -> usize {
        LINE_ROWS * self.lines()
    }

    /// Bytes of the frame: ten a row.
    pub fn frame_size(self) -> usize {
        10 * self.rows()
    }
}

#[cfg(test)]
mod tests {
    use super::*;

    #[test]
    fn names_and_sizes() {
        assert_eq!(Chip::named("6631"), Some(Chip(31)));
        assert_eq!(Chip::named("6635"), Some(Chip(35)));
        for other in ["", "31", "35", "6632", "66355", "06635", "NJU6635", "6635 ", "unknown"] {
            assert_eq!(Chip::named(other), None, "{other:?}");
        }
        assert_eq!([Chip(31), Chip(35)].map(Chip::places), [16, 32]);
        assert_eq!([Chip(31), Chip(35)].map(Chip::rows), [8, 16]);
        assert_eq!([Chip(31), Chip(35)].map(Chip::frame_size), [80, 160]);
    }

    #[test]
    fn only_two_numbers_are_known() {
        let known: Vec<u8> = (0..=255).filter(|&number| Chip(number).is_known()).collect();
        assert_eq!(known, [31, 35]);
        assert!((0..=255).filter(|&number| number != 35).all(|number| Chip(number).lines() == 1));
    }
}
