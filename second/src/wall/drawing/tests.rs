//! Tests of the drawing with its cells apart, by hand from docs/WALL.md.

use crate::chips::Chip;
use crate::log;
use crate::panel::{Panel, Times};
use crate::wall::{print, Asked, Form};

fn plainly(chip: Chip) -> Asked {
    Asked { apart: true, ..Asked::plainly(Form::Ascii, Panel::fresh(chip, Times::USUAL)) }
}

/// Code 20h has no dot, and FFh all of them.
fn font() -> Vec<u8> {
    let mut font = vec![0; 1_920];
    font[8 * (0xFF - 16)..].fill(0x1F);
    font
}

fn printed(asked: &Asked, transfers: &[(u64, u8, u8)]) -> Vec<String> {
    let print = String::from_utf8(print(asked, &font(), &log::write_transfers(transfers))).expect("text");
    print.lines().map(str::to_string).collect()
}

/// A row of 95: these cells lit, the others not.
fn row(lit: &[usize]) -> String {
    let cell = |cell: usize| if lit.contains(&cell) { "#####" } else { "....." };
    let cells: [&str; 16] = std::array::from_fn(cell);
    format!("|{}|", cells.join(" "))
}

/// The example of docs/WALL.md, apart.
#[test]
fn the_example() {
    let asked = plainly(Chip::ONE_LINE);
    let log = log::write_transfers(&[(0, 0, 0x0E), (40, 1, 0x57)]);
    let print = print(&asked, &crate::cases::wall_font(), &log);
    let dark = " .....".repeat(14);
    let edge = format!("+{}+\n", "-".repeat(95));
    let rows = ["#...#", "#...#", "#...#", "#.#.#", "#.#.#", "##.##", "#...#"];
    let drawn: String = rows.map(|row| format!("|{row} .....{dark}|\n")).concat();
    let codes = format!("codes 57{}", " 20".repeat(15));
    let beneath = format!("text |W               |\n{codes}\ncursor 1\nwritten 00\n");
    let expected = format!("{edge}{drawn}|..... #####{dark}|\n{edge}{beneath}");
    assert_eq!(String::from_utf8(print).as_deref(), Ok(&expected[..]));
}

/// Lit cells on both sides of the first gap and of the last: none before the first
/// cell, none behind the last, and after five columns each.
#[test]
fn where_the_gaps_are() {
    let sent = [(0, 0, 0x0C), (40, 1, 0xFF), (80, 1, 0xFF), (120, 0, 0x8E), (160, 1, 0xFF), (200, 1, 0xFF)];
    let lines = printed(&plainly(Chip::ONE_LINE), &sent);
    assert_eq!(lines.len(), 10 + 4);
    assert_eq!(lines[1], row(&[0, 1, 14, 15]));
    assert!(lines[1].starts_with("|##### ##### ..... ") && lines[1].ends_with(" ..... ##### #####|"));
    assert_eq!((lines[1].len(), lines[0].len()), (97, 97));
    let gaps: Vec<usize> = lines[1][1..96].match_indices(' ').map(|(column, _)| column).collect();
    assert_eq!(gaps, [5, 11, 17, 23, 29, 35, 41, 47, 53, 59, 65, 71, 77, 83, 89]);
}

/// The ninth of seventeen rows is blank, and no other.
#[test]
fn a_blank_row_between_two_lines() {
    let sent = [(0, 0, 0x0C), (40, 1, 0xFF), (80, 0, 0x9F), (120, 1, 0xFF)];
    let lines = printed(&plainly(Chip::TWO_LINES), &sent);
    let edge = format!("+{}+", "-".repeat(95));
    assert_eq!((&lines[0], &lines[18]), (&edge, &edge));
    assert_eq!(lines[9], format!("|{}|", " ".repeat(95)));
    assert!(lines[1..9].iter().all(|line| *line == row(&[0])));
    assert!(lines[10..18].iter().all(|line| *line == row(&[15])));
    assert_eq!(lines.len(), 19 + 6);
}

/// Mode B: the cells trade places, and the gaps do not; upright it is as in mode A.
#[test]
fn mirrored_glass() {
    let sent = [(0, 0, 0x0C), (40, 1, 0xFF), (80, 0, 0x31)];
    for (chip, upright, first, cell) in [
        (Chip::ONE_LINE, false, 1, 15), (Chip::ONE_LINE, true, 1, 0), (Chip::TWO_LINES, false, 10, 15),
        (Chip::TWO_LINES, true, 1, 0),
    ] {
        let lines = printed(&Asked { upright, ..plainly(chip) }, &sent);
        assert!(lines[first..first + 8].iter().all(|line| *line == row(&[cell])), "{} {upright}", chip.name());
        assert!(chip == Chip::ONE_LINE || lines[9] == format!("|{}|", " ".repeat(95)));
        assert!(chip == Chip::ONE_LINE || lines[11 - first] == row(&[]));
    }
}

/// The blink, and a time before the letter.
#[test]
fn dark_and_at_a_time() {
    let sent = [(0, 0, 0x0D), (40, 1, 0xFF)];
    let dark = Asked { dark: true, ..plainly(Chip::ONE_LINE) };
    assert_eq!(printed(&dark, &sent)[1], row(&[0, 1]));
    assert_eq!(printed(&Asked { at: Some(39), ..dark }, &sent)[1], row(&[0]));
    assert_eq!(printed(&Asked { at: Some(39), ..plainly(Chip::ONE_LINE) }, &sent)[1], row(&[]));
}
