//! Other readings of mirrored glass. A picture that looks the same under one of them
//! cannot show which is built, so of each some picture is wanted that does not.

use crate::chips::Chip;
use crate::picture::{self, COLUMNS};

/// Where another reading lets a dot of so many rows land: row and column.
type Lands = fn(usize, usize, usize) -> (usize, usize);

/// A reading, with the frame that it makes of mode A's.
#[derive(Clone, Copy)]
pub struct Misread {
    pub name: &'static str,
    lands: Lands,
}

impl Misread {
    pub fn frame(&self, upright: &[u8]) -> Vec<u8> {
        let rows = upright.len() / 10;
        let mut frame = vec![0; upright.len()];
        for (row, column) in (0..rows * COLUMNS).map(|at| (at / COLUMNS, at % COLUMNS)) {
            if picture::dot(upright, row, column) {
                let (row, column) = (self.lands)(rows, row, column);
                frame[10 * row + column / 8] |= 0x80 >> (column % 8);
            }
        }
        frame
    }
}

/// The row in the other half, where there are two.
fn across(rows: usize, row: usize) -> usize {
    (row + 8) % rows
}

const OF_EVERY_CHIP: [Misread; 7] = [
    Misread { name: "not turned", lands: |_, row, column| (row, column) },
    // The whole glass upside down: of two lines the halves are exchanged by it.
    Misread { name: "rows reversed within a half", lands: |rows, row, column| (rows - 1 - row, 79 - column) },
    Misread { name: "rows reversed and columns not", lands: |rows, row, column| (rows - 1 - row, column) },
    Misread {
        name: "cells reversed but not their dots",
        lands: |rows, row, column| (across(rows, row), 5 * (15 - column / 5) + column % 5),
    },
    Misread {
        name: "dots reversed within their cells alone",
        lands: |rows, row, column| (across(rows, row), 5 * (column / 5) + 4 - column % 5),
    },
    Misread {
        name: "bytes reversed but not their bits",
        lands: |rows, row, column| (across(rows, row), 8 * (9 - column / 8) + column % 8),
    },
    // One line of the first chip hangs on two groups of 40 segments.
    Misread {
        name: "each half of a line reversed by itself",
        lands: |rows, row, column| (across(rows, row), 40 * (column / 40) + 39 - column % 40),
    },
];

const OF_TWO_LINES: [Misread; 3] = [
    Misread { name: "halves not exchanged", lands: |_, row, column| (row, 79 - column) },
    Misread { name: "halves alone exchanged", lands: |rows, row, column| (across(rows, row), column) },
    Misread {
        name: "rows reversed within a half, halves not exchanged",
        lands: |_, row, column| (row / 8 * 8 + 7 - row % 8, 79 - column),
    },
];

/// The other readings that this chip can tell from the right one.
pub fn all(chip: Chip) -> Vec<Misread> {
    let more = if chip.lines() == 2 { &OF_TWO_LINES[..] } else { &[] };
    [&OF_EVERY_CHIP, more].concat()
}

#[cfg(test)]
mod tests {
    use super::*;
    use crate::turned::turned;

    /// Two dots of the first cell and one of the tenth: no two readings agree.
    #[test]
    fn every_reading_has_a_frame_of_its_own() {
        for chip in Chip::KNOWN {
            let mut upright = vec![0; chip.frame_size()];
            (upright[0], upright[16]) = (0b1100_0000, 0b0100_0000);
            let mut frames: Vec<Vec<u8>> = all(chip).iter().map(|other| other.frame(&upright)).collect();
            assert!(frames.iter().all(|frame| frame.iter().map(|byte| byte.count_ones()).sum::<u32>() == 3));
            frames.push(turned(&upright));
            let count = frames.len();
            frames.sort();
            frames.dedup();
            assert_eq!(frames.len(), count);
        }
    }

    /// The leftmost dot of the top row and its neighbour, by hand.
    #[test]
    fn frames_by_hand() {
        let mut upright = vec![0; 160];
        upright[0] = 0xC0;
        for (name, at, byte) in [
            ("not turned", 0, 0xC0), ("rows reversed within a half", 159, 0x03),
            ("rows reversed and columns not", 150, 0xC0), ("cells reversed but not their dots", 89, 0x18),
            ("dots reversed within their cells alone", 80, 0x18), ("bytes reversed but not their bits", 89, 0xC0),
            ("each half of a line reversed by itself", 84, 0x03), ("halves not exchanged", 9, 0x03),
            ("halves alone exchanged", 80, 0xC0), ("rows reversed within a half, halves not exchanged", 79, 0x03),
        ] {
            let frame = all(Chip::TWO_LINES).iter().find(|other| other.name == name).expect(name).frame(&upright);
            let mut expected = vec![0; 160];
            expected[at] = byte;
            assert_eq!(frame, expected, "{name}");
        }
    }
}
