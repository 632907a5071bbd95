//! Tests of the wall's print with two lines.

use super::*;
use crate::chips::Chip;
use crate::panel::Times;

fn asked(form: Form, at: Option<u64>) -> Asked {
    Asked { at, ..Asked::plainly(form, Panel::fresh(Chip::TWO_LINES, Times::USUAL)) }
}

/// Records 40 apart from 0: RS and the byte.
fn sent(transfers: &[(u8, u8)]) -> Vec<u8> {
    let times = (0..).step_by(40);
    transfers.iter().zip(times).flat_map(|(&(rs, byte), time)| log::write_transfer(time, rs, byte)).collect()
}

/// A letter on each line, shown one place to the left, and the cursor on the second.
fn two_letters() -> Vec<u8> {
    sent(&[(1, b'a'), (0, 0x90), (1, b'b'), (1, 0x80), (0, 0x18), (0, 0x0E)])
}

#[test]
fn a_line_of_text_and_codes_for_each_line() {
    let print = print(&asked(Form::HalfBlocks, None), &[0; 1_920], &two_letters());
    let expected = "\
text |               a|
text |.              b|
codes 20 20 20 20 20 20 20 20 20 20 20 20 20 20 20 61
codes 80 20 20 20 20 20 20 20 20 20 20 20 20 20 20 62
cursor 1 line 1
written 00 10 11
";
    assert_eq!(String::from_utf8(print).as_deref(), Ok(expected));
}

#[test]
fn the_drawing_has_sixteen_rows() {
    let mut font = vec![0; 1_920];
    font[8 * (usize::from(b'a') - 16)] = 0x1F;
    font[8 * (usize::from(b'b') - 16) + 1] = 0x10;
    let print = print(&asked(Form::Ascii, None), &font, &two_letters());
    let print = String::from_utf8(print).expect("text");
    let lines: Vec<&str> = print.lines().collect();
    assert_eq!(lines.len(), 18 + 6);
    let edge = format!("+{}+", "-".repeat(80));
    assert_eq!((lines[0], lines[17]), (&edge[..], &edge[..]));
    let dark = ".".repeat(80);
    for (row, line) in lines[1..17].iter().enumerate() {
        let dots = match row {
            0 => format!("{}#####", ".".repeat(75)),
            9 => format!("{}#....", ".".repeat(75)),
            15 => format!(".....#####{}", ".".repeat(70)),
            _ => dark.clone(),
        };
        assert_eq!(*line, format!("|{dots}|"), "row {row}");
    }
}

#[test]
fn the_cursor_is_named_with_its_line() {
    for (transfers, cursor) in [
        (&[(0, 0x0E)][..], "cursor 0 line 0"), (&[(0, 0x0D), (0, 0x8F)], "cursor 15 line 0"),
        (&[(0, 0x0F), (0, 0x9F)], "cursor 15 line 1"), (&[(0, 0x0E), (0, 0x53)], "cursor 3 line 1"),
        (&[(0, 0x0E), (0, 0x43)], "cursor 3 line 0"), (&[(0, 0x0E), (0, 0x90), (0, 0x1C)], "cursor 1 line 1"),
        (&[(0, 0x0C), (0, 0x90)], "cursor off"), (&[(0, 0x0B), (0, 0x90)], "cursor off"),
    ] {
        let print = print(&asked(Form::HalfBlocks, None), &[0; 1_920], &sent(transfers));
        assert_eq!(String::from_utf8_lossy(&print).lines().nth(4), Some(cursor), "{transfers:02X?}");
    }
}

#[test]
fn the_glass_at_a_time() {
    for (at, first, second) in [(0, "a", ""), (79, "a", ""), (80, "a", "b"), (119, "a", "b"), (120, "a", "b.")] {
        let print = print(&asked(Form::HalfBlocks, Some(at)), &[0; 1_920], &two_letters());
        let print = String::from_utf8_lossy(&print).into_owned();
        assert!(print.starts_with(&format!("text |{first:16}|\ntext |{second:16}|\n")), "at {at}");
    }
}

#[test]
fn a_bitmap_of_sixteen_rows() {
    let log = sent(&[(0, 0x0E), (0, 0x9F)]);
    let mut expected = b"P4\n80 16\n".to_vec();
    expected.extend([0; 160]);
    expected[9 + 159] = 0x1F;
    assert_eq!(print(&asked(Form::Bitmap, None), &[0; 1_920], &log), expected);
}

#[test]
fn the_times_are_the_callers() {
    let log = [log::write_transfer(0, 0, 0x01), log::write_transfer(316, 1, b'a')].concat();
    let mut asked = asked(Form::HalfBlocks, None);
    for (long, text) in [(316, "text |a               |\n"), (317, "text |                |\n")] {
        asked.start.times = Times { reset: 10_000, long, short: 28 };
        assert!(print(&asked, &[0; 1_920], &log).starts_with(text.as_bytes()));
    }
}
