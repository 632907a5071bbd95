//! Tests of the line `written` of the wall.

use super::*;
use crate::chips::Chip;
use crate::panel::Times;

/// The last line for a chip after these, RS and the byte, all of them taken.
fn last_line(chip: Chip, transfers: &[(u8, u8)]) -> String {
    let log: Vec<(u64, u8, u8)> =
        transfers.iter().zip((0..).step_by(2_000)).map(|(&(rs, byte), time)| (time, rs, byte)).collect();
    let start = Panel::fresh(chip, Times::USUAL);
    let asked = Asked::plainly(Form::HalfBlocks, start);
    let print = String::from_utf8(print(&asked, &[0; 1_920], &log::write_transfers(&log))).expect("text");
    print.strip_suffix('\n').and_then(|print| print.lines().last()).expect("a last line").to_string()
}

#[test]
fn addresses_lowest_first() {
    for (transfers, one, two) in [
        (&[][..], "written -", "written -"),
        (&[(1, 0x57)], "written 00", "written 00"),
        (&[(1, 0x20)], "written -", "written -"),
        (&[(0, 0x8F), (1, 0x57)], "written 0F", "written 0F"),
        (&[(0, 0x9F), (1, 0x57), (0, 0x8A), (1, 0x00)], "written 0A 0F", "written 0A 1F"),
        (&[(0, 0x8C), (1, 0x41), (0, 0x90), (1, 0x42), (0, 0x83), (1, 0x43)], "written 00 03 0C", "written 03 0C 10"),
        (&[(1, 0x57), (1, 0x57), (0, 0x80), (1, 0x20)], "written 01", "written 01"),
        (&[(1, 0x57), (0, 0x01)], "written -", "written -"),
        (&[(0, 0x40), (1, 0x57)], "written -", "written -"),
    ] {
        assert_eq!(last_line(Chip::ONE_LINE, transfers), one, "{transfers:02X?}");
        assert_eq!(last_line(Chip::TWO_LINES, transfers), two, "{transfers:02X?}");
    }
}

/// Neither a shift nor D = 0, nor a code that shows nothing, moves or hides one.
#[test]
fn places_of_memory_and_not_of_the_screen() {
    for code in [0x18, 0x1C, 0x08, 0x0C, 0x0F] {
        assert_eq!(last_line(Chip::TWO_LINES, &[(0, 0x85), (1, 0x00), (1, 0xFF), (0, code)]), "written 05 06");
    }
    assert_eq!(last_line(Chip::ONE_LINE, &[(0, 0x07), (1, 0x41), (1, 0x42)]), "written 00 01");
}

#[test]
fn all_places() {
    let all: Vec<(u8, u8)> = vec![(1, 0x41); 32];
    let addresses = |count: u8| (0..count).map(|at| format!(" {at:02X}")).collect::<String>();
    assert_eq!(last_line(Chip::ONE_LINE, &all), format!("written{}", addresses(16)));
    assert_eq!(last_line(Chip::TWO_LINES, &all), format!("written{}", addresses(32)));
}
