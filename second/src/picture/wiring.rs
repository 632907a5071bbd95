//! How the glass hangs on the chip. In pin configuration mode B segment 1 takes the
//! last place, and the two groups of eight commons trade places. That says where a
//! dot lands, and nothing about which dots are lit.

use super::COLUMNS;
use crate::chip::Sheet;
use crate::chips::LINE_ROWS;

/// The pin configuration.
#[derive(Clone, Copy, Debug, PartialEq)]
pub enum Mode {
    A,
    B,
}

impl Mode {
    /// Bit 0 of the Function Set bits, on both chips; no other bit has a say.
    pub fn of(sheet: &Sheet) -> Mode {
        if sheet.function & 1 == 0 { Mode::A } else { Mode::B }
    }

    pub fn name(self) -> &'static str {
        match self {
            Mode::A => "mode A",
            Mode::B => "mode B",
        }
    }
}

/// The panel's own rows and columns in the order in which the frame has them, from
/// the top and from the left.
pub struct Wiring {
    pub rows: Vec<usize>,
    pub columns: Vec<usize>,
}

impl Wiring {
    pub fn of(sheet: &Sheet) -> Wiring {
        let mut rows: Vec<usize> = (0..sheet.chip.rows()).collect();
        let mut columns: Vec<usize> = (0..COLUMNS).collect();
        if Mode::of(sheet) == Mode::B {
            columns.reverse();
            // By one group: two of them trade places, and rows keep their order
            // within each. One line alone comes round to where it was.
            rows.rotate_left(LINE_ROWS);
        }
        Wiring { rows, columns }
    }
}
