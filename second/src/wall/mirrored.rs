//! Tests of the wall in pin configuration mode B, with `upright` and without.

use super::*;
use crate::chips::Chip;
use crate::panel::Times;

/// Blank but for the letter L.
fn font() -> Vec<u8> {
    let mut font = vec![0; 1_920];
    font[8 * (usize::from(b'L') - 16)..][..8].copy_from_slice(&[0x10, 0x10, 0x10, 0x10, 0x10, 0x10, 0x1F, 0x00]);
    font
}

/// Records 40 apart from 0: RS and the byte.
fn sent(transfers: &[(u8, u8)]) -> Vec<u8> {
    let times = (0..).step_by(40);
    transfers.iter().zip(times).flat_map(|(&(rs, byte), time)| log::write_transfer(time, rs, byte)).collect()
}

fn plainly(form: Form, chip: Chip) -> Asked {
    Asked::plainly(form, Panel::fresh(chip, Times::USUAL))
}

fn upright(form: Form, chip: Chip) -> Asked {
    Asked { upright: true, ..plainly(form, chip) }
}

fn printed(asked: &Asked, log: &[u8]) -> String {
    String::from_utf8(print(asked, &font(), log)).expect("text")
}

/// A drawing of rows that are given where they are not dark.
fn drawn(rows: usize, lit: &[(usize, String)]) -> String {
    let edge = format!("+{}+\n", "-".repeat(80));
    let dots = |row: usize| lit.iter().find(|(at, _)| *at == row).map_or(".".repeat(80), |(_, dots)| dots.clone());
    let all: String = (0..rows).map(|row| format!("|{}|\n", dots(row))).collect();
    format!("{edge}{all}{edge}")
}

/// The eight rows of an L and of the cursor to its right, from the left edge.
fn from_the_left(first_row: usize) -> Vec<(usize, String)> {
    let stem = (0..6).map(|row| (first_row + row, format!("#....{}", ".".repeat(75))));
    let foot = [
        (first_row + 6, format!("#####{}", ".".repeat(75))), (first_row + 7, format!(".....#####{}", ".".repeat(70))),
    ];
    stem.chain(foot).collect()
}

/// The same, seen in a mirror.
fn from_the_right(first_row: usize) -> Vec<(usize, String)> {
    let stem = (0..6).map(|row| (first_row + row, format!("{}....#", ".".repeat(75))));
    let foot = [
        (first_row + 6, format!("{}#####", ".".repeat(75))), (first_row + 7, format!("{}#####.....", ".".repeat(70))),
    ];
    stem.chain(foot).collect()
}

const ONE_LINE: &str = "\
text |L               |
codes 4C 20 20 20 20 20 20 20 20 20 20 20 20 20 20 20
cursor 1
written 00
";

#[test]
fn one_line_runs_right_to_left() {
    let log = sent(&[(0, 0x31), (0, 0x0E), (1, b'L')]);
    let turned = drawn(8, &from_the_right(0)) + ONE_LINE;
    assert_eq!(printed(&plainly(Form::Ascii, Chip::ONE_LINE), &log), turned);
    let as_in_mode_a = drawn(8, &from_the_left(0)) + ONE_LINE;
    assert_eq!(printed(&upright(Form::Ascii, Chip::ONE_LINE), &log), as_in_mode_a);
    for asked in [plainly(Form::HalfBlocks, Chip::ONE_LINE), upright(Form::HalfBlocks, Chip::ONE_LINE)] {
        assert_eq!(printed(&asked, &log), ONE_LINE);
    }
}

/// Bits 1 to 3 are not the mode.
#[test]
fn in_mode_a_the_word_makes_no_difference() {
    let log = sent(&[(0, 0x3E), (0, 0x0E), (1, b'L')]);
    let print = drawn(8, &from_the_left(0)) + ONE_LINE;
    for asked in [plainly(Form::Ascii, Chip::ONE_LINE), upright(Form::Ascii, Chip::ONE_LINE)] {
        assert_eq!(printed(&asked, &log), print);
    }
}

const TWO_LINES: &str = "\
text |                |
text |L               |
codes 20 20 20 20 20 20 20 20 20 20 20 20 20 20 20 20
codes 4C 20 20 20 20 20 20 20 20 20 20 20 20 20 20 20
cursor 1 line 1
written 10
";

#[test]
fn the_second_line_is_drawn_above() {
    let log = sent(&[(0, 0x0E), (0, 0x90), (1, b'L'), (0, 0x31)]);
    let turned = drawn(16, &from_the_right(0)) + TWO_LINES;
    assert_eq!(printed(&plainly(Form::Ascii, Chip::TWO_LINES), &log), turned);
    let as_in_mode_a = drawn(16, &from_the_left(8)) + TWO_LINES;
    assert_eq!(printed(&upright(Form::Ascii, Chip::TWO_LINES), &log), as_in_mode_a);
}

#[test]
fn the_first_line_is_drawn_beneath() {
    let log = sent(&[(0, 0x0E), (1, b'L'), (0, 0x31)]);
    assert!(printed(&plainly(Form::Ascii, Chip::TWO_LINES), &log).starts_with(&drawn(16, &from_the_right(8))));
    assert!(printed(&upright(Form::Ascii, Chip::TWO_LINES), &log).starts_with(&drawn(16, &from_the_left(0))));
}

/// The blink of position 0, dark: byte 9 of the rows in mode B, byte 0 in mode A.
#[test]
fn bitmaps() {
    let log = sent(&[(0, 0x31), (0, 0x0D)]);
    for (chip, head, first_row) in [(Chip::ONE_LINE, "P4\n80 8\n", 0), (Chip::TWO_LINES, "P4\n80 16\n", 8)] {
        let bitmap = |byte: usize, dots: u8, first_row: usize| {
            let mut frame = vec![0; chip.frame_size()];
            (first_row..first_row + 8).for_each(|row| frame[10 * row + byte] = dots);
            [head.as_bytes(), &frame].concat()
        };
        let dark = |asked: Asked| print(&Asked { dark: true, ..asked }, &font(), &log);
        assert_eq!(dark(plainly(Form::Bitmap, chip)), bitmap(9, 0x1F, first_row));
        assert_eq!(dark(upright(Form::Bitmap, chip)), bitmap(0, 0xF8, 0));
    }
}

/// 31h at 120, and a reset behind it.
#[test]
fn the_mode_is_that_of_the_time() {
    let mut log = sent(&[(0, 0x32), (0, 0x0E), (1, b'L'), (0, 0x31)]);
    log.extend(log::write_reset(200));
    let [left, right] = [from_the_left(0), from_the_right(0)].map(|rows| drawn(8, &rows) + ONE_LINE);
    for (at, plain) in [(119, &left), (120, &right), (199, &right)] {
        let asked = Asked { at: Some(at), ..plainly(Form::Ascii, Chip::ONE_LINE) };
        assert_eq!(printed(&asked, &log), *plain, "at {at}");
        assert_eq!(printed(&Asked { upright: true, ..asked }, &log), left, "upright at {at}");
    }
    assert!(printed(&plainly(Form::Ascii, Chip::ONE_LINE), &log).starts_with(&drawn(8, &[])));
}
