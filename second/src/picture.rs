//! The picture: which dots are lit, where each lands, and where two frames differ.

mod wiring;

pub use wiring::{Mode, Wiring};

use crate::chip::Sheet;
use crate::chips::{Chip, LINE, LINE_ROWS};
use crate::panel::number::{SIZE, UNSOUND};
use crate::panel::Panel;

pub const COLUMNS: usize = 80;
pub const FONT_SIZE: usize = 1_920;

/// What the painter answers.
#[derive(Clone, Copy, Debug, PartialEq)]
pub enum Painting {
    /// How many dots are lit.
    Lit(u32),
    Refused(u8),
}

/// What the comparison of two frames answers.
#[derive(Clone, Copy, Debug, PartialEq)]
pub enum Comparison {
    /// The first dot, by rows, that differs.
    At { row: usize, column: usize },
    Same,
    Refused(u8),
}

/// A place on the glass that shows one code.
#[derive(Clone, Copy, Debug, PartialEq)]
pub struct Place {
    pub line: usize,
    pub position: usize,
}

/// Paints every dot into the lent frame, or refuses and leaves it alone.
pub fn paint(panel: &Panel, font: &[u8], dark: bool, frame: &mut [u8]) -> Painting {
    if !panel.is_sound() {
        return Painting::Refused(UNSOUND);
    }
    let chip = panel.sheet.chip;
    if frame.len() != chip.frame_size() || font.len() != FONT_SIZE {
        return Painting::Refused(SIZE);
    }
    frame.fill(0);
    let Wiring { rows, columns } = Wiring::of(&panel.sheet);
    let mut lit = 0;
    for (row, &own_row) in rows.iter().enumerate() {
        for (column, &own_column) in columns.iter().enumerate() {
            if is_lit(&panel.sheet, font, dark, own_row, own_column) {
                frame[10 * row + column / 8] |= 1 << (7 - column % 8);
                lit += 1;
            }
        }
    }
    Painting::Lit(lit)
}

/// Of a dot by the panel's own row and column: the mode has no say in it.
fn is_lit(sheet: &Sheet, font: &[u8], dark: bool, row: usize, column: usize) -> bool {
    if !sheet.d {
        return false;
    }
    let place = Place { line: row / LINE_ROWS, position: column / 5 };
    let row = row % LINE_ROWS;
    let code = code_at(sheet, place);
    let five_dots = match code {
        0x00..=0x0F => sheet.pattern[8 * usize::from(code & 3) + row],
        _ => font[8 * usize::from(code - 16) + row],
    };
    let at_cursor = place == cursor(sheet);
    five_dots >> (4 - column % 5) & 1 != 0
        || at_cursor && sheet.c && row == 7
        || at_cursor && sheet.b && dark
}

/// The code that a place shows: each line shifts within itself.
pub fn code_at(sheet: &Sheet, place: Place) -> u8 {
    sheet.display[LINE * place.line + (place.position + usize::from(sheet.shift)) % LINE]
}

/// The cursor moves with the display, so the shift is taken off the address. An
/// address of either memory counts as it is, as far as there are lines: on one
/// line every pattern address stands on it.
pub fn cursor(sheet: &Sheet) -> Place {
    let address = usize::from(sheet.counter.number());
    Place {
        line: address / LINE % sheet.chip.lines(),
        position: (address + LINE - usize::from(sheet.shift)) % LINE,
    }
}

/// Compares two frames of this chip as they lie. A comparison sees no panel, so the
/// chip is all that it can find unsound, and it knows no mode.
pub fn compare(chip: Chip, one: &[u8], other: &[u8]) -> Comparison {
    if !chip.is_known() {
        return Comparison::Refused(UNSOUND);
    }
    if [one, other].iter().any(|frame| frame.len() != chip.frame_size()) {
        return Comparison::Refused(SIZE);
    }
    for row in 0..chip.rows() {
        for column in 0..COLUMNS {
            if dot(one, row, column) != dot(other, row, column) {
                return Comparison::At { row, column };
            }
        }
    }
    Comparison::Same
}

pub fn dot(frame: &[u8], row: usize, column: usize) -> bool {
    frame[10 * row + column / 8] >> (7 - column % 8) & 1 != 0
}

/// The font of a run that is lent none. Its upper three bits are often set,
/// also in the blank, so that a painter that looks at them is found out.
pub fn trial_font() -> Vec<u8> {
    (0..FONT_SIZE)
        .map(|i| match i {
            128..=135 => 0xE0,
            _ => ((37 * i + 11 * (i / 8) + 5) % 256) as u8,
        })
        .collect()
}

#[cfg(test)]
mod mirrored;
#[cfg(test)]
mod two_lines;

#[cfg(test)]
mod tests {
    use super::*;
    use crate::chip::{Counter, DisplayAddress, PatternAddress};
    use crate::panel::Times;

    const ROWS: usize = 8;
    const FRAME_SIZE: usize = 80;

    /// The display on, all blank but one code at one address.
    fn showing(code: u8, address: usize) -> Panel {
        let mut panel = Panel::fresh(Chip::ONE_LINE, Times::USUAL);
        panel.sheet.d = true;
        panel.sheet.store(address, code);
        panel
    }

    /// A font that is blank but for one code; no turning or mirroring leaves
    /// its glyph alike. The upper three bits are no dots.
    fn font_with(code: u8) -> Vec<u8> {
        let mut font = vec![0xE0; FONT_SIZE];
        font[8 * (usize::from(code) - 16)..][..8].copy_from_slice(&GLYPH);
        font
    }

    const GLYPH: [u8; 8] = [0x90, 0xF8, 0x14, 0x12, 0x11, 0x10, 0x00, 0x01];
    const DOTS: [&str; 8] = ["#....", "##...", "#.#..", "#..#.", "#...#", "#....", ".....", "....#"];

    /// The five columns of a position, and the number of lit dots elsewhere.
    fn position(frame: &[u8], position: usize) -> (Vec<String>, usize) {
        let is_lit = |row, column| dot(frame, row, column);
        let row = |row| (0..5).map(|x| if is_lit(row, 5 * position + x) { '#' } else { '.' }).collect();
        let elsewhere = (0..ROWS * COLUMNS)
            .filter(|&at| is_lit(at / COLUMNS, at % COLUMNS) && at % COLUMNS / 5 != position)
            .count();
        ((0..ROWS).map(row).collect(), elsewhere)
    }

    #[test]
    fn a_glyph_dot_by_dot_at_a_shift() {
        for (code, shift, at) in [(0x10, 0, 0), (0x57, 3, 6), (0xFF, 15, 15), (0x80, 9, 2)] {
            let mut panel = showing(code, at);
            panel.sheet.shift = shift;
            let mut frame = [0xA5; FRAME_SIZE];
            assert_eq!(paint(&panel, &font_with(code), true, &mut frame), Painting::Lit(11));
            let place = (at + 16 - usize::from(shift)) % 16;
            assert_eq!(position(&frame, place), (DOTS.map(str::to_string).to_vec(), 0), "{code:02X}h");
        }
    }

    #[test]
    fn where_a_dot_lies_in_a_frame() {
        // Position 1: columns 5 to 9, bits 2 to 0 of byte 0 and 7 and 6 of byte 1.
        let mut frame = [0; FRAME_SIZE];
        paint(&showing(0x57, 1), &font_with(0x57), false, &mut frame);
        let rows: Vec<[u8; 2]> = (0..ROWS).map(|row| [frame[10 * row], frame[10 * row + 1]]).collect();
        let expected = [
            [0x04, 0x00], [0x06, 0x00], [0x05, 0x00], [0x04, 0x80], [0x04, 0x40], [0x04, 0x00], [0x00, 0x00], [0x00, 0x40],
        ];
        assert_eq!(rows, expected);
    }

    #[test]
    fn codes_below_10h_show_the_patterns() {
        for code in 0x00..=0x0F {
            let mut panel = showing(code, 4);
            let first = 8 * (usize::from(code) % 4);
            panel.sheet.pattern[first..first + 8].copy_from_slice(&GLYPH.map(|row| row & 0x1F));
            let mut frame = [0; FRAME_SIZE];
            paint(&panel, &[0; FONT_SIZE], false, &mut frame);
            assert_eq!(position(&frame, 4), (DOTS.map(str::to_string).to_vec(), 0), "{code:02X}h");
        }
    }

    #[test]
    fn cursor_and_blink() {
        let [full, none] = ["#####", "....."].map(|row| vec![row.to_string(); 8]);
        let under = [&none[..7], &full[..1]].concat();
        for (c, b, dark, expected) in [
            (true, false, false, &under), (true, false, true, &under), (false, true, false, &none),
            (false, true, true, &full), (true, true, false, &under), (true, true, true, &full), (false, false, true, &none),
        ] {
            for (counter, place) in [
                (Counter::Display(DisplayAddress(2)), 13), (Counter::Pattern(PatternAddress(2)), 13),
                (Counter::Pattern(PatternAddress(22)), 1), (Counter::Display(DisplayAddress(15)), 10),
            ] {
                let mut panel = showing(0x20, 0);
                (panel.sheet.c, panel.sheet.b, panel.sheet.counter, panel.sheet.shift) = (c, b, counter, 5);
                let mut frame = [0xFF; FRAME_SIZE];
                paint(&panel, &[0; FONT_SIZE], dark, &mut frame);
                assert_eq!(position(&frame, place), (expected.clone(), 0), "C {c} B {b} dark {dark} {counter:?}");
            }
        }
    }

    #[test]
    fn with_d_off_no_dot_is_lit() {
        let mut panel = showing(0x57, 0);
        (panel.sheet.d, panel.sheet.c, panel.sheet.b) = (false, true, true);
        let mut frame = [0xFF; FRAME_SIZE];
        assert_eq!(paint(&panel, &[0xFF; FONT_SIZE], true, &mut frame), Painting::Lit(0));
        assert_eq!(frame, [0; FRAME_SIZE]);
    }

    #[test]
    fn a_refused_painting_leaves_the_frame_alone() {
        let sound = showing(0x57, 0);
        let mut unsound = sound.clone();
        unsound.sheet.shift = 16;
        for (panel, font, size, number) in [
            (&sound, 1_919, 80, SIZE), (&sound, 1_921, 80, SIZE), (&sound, 1_920, 79, SIZE), (&sound, 1_920, 81, SIZE),
            (&sound, 1_920, 0, SIZE), (&unsound, 1_920, 80, UNSOUND), (&unsound, 0, 0, UNSOUND),
        ] {
            let mut frame = vec![0xA5; size];
            assert_eq!(paint(panel, &vec![0xFF; font], true, &mut frame), Painting::Refused(number));
            assert_eq!(frame, vec![0xA5; size]);
        }
    }

    #[test]
    fn the_first_dot_that_differs() {
        let one = [0x5A; FRAME_SIZE];
        assert_eq!(compare(Chip::ONE_LINE, &one, &one), Comparison::Same);
        for (byte, bit, row, column) in [(0, 7, 0, 0), (9, 0, 0, 79), (10, 7, 1, 0), (34, 4, 3, 35), (79, 0, 7, 79)] {
            let mut other = one;
            other[byte] ^= 1 << bit;
            assert_eq!(compare(Chip::ONE_LINE, &one, &other), Comparison::At { row, column });
            other[79] ^= 1;
            other[byte] |= 1 << bit;
            let mut none = one;
            none[byte] &= !(1 << bit);
            assert_eq!(compare(Chip::ONE_LINE, &other, &none), Comparison::At { row, column }, "the first of two");
        }
        for sizes in [(79, 80), (80, 81), (0, 0)] {
            assert_eq!(compare(Chip::ONE_LINE, &vec![0; sizes.0], &vec![0; sizes.1]), Comparison::Refused(SIZE));
        }
    }
}
