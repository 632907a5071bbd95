//! What the two modes have to do with each other, said of frames and of prints alone:
//! nothing here knows how the painter finds a dot's place. It is checked on the model
//! at every question, and what the programs print is the model's byte for byte.

pub mod misread;

use crate::panel::Panel;
use crate::picture::{self, Painting};
use crate::wall::{self, Asked, Form};

/// What a frame is in the other mode: each row's ten bytes back to front, the bits of
/// each too, and of sixteen rows the lower eight above the upper.
pub fn turned(frame: &[u8]) -> Vec<u8> {
    let bytes: Vec<u8> = frame.chunks(10).flat_map(|row| row.iter().rev().map(|byte| byte.reverse_bits())).collect();
    exchanged(&bytes, 80)
}

/// The second of two halves, each so long, and then the first; a half alone as it is.
fn exchanged<T: Clone>(all: &[T], half: usize) -> Vec<T> {
    let (first, second) = all.split_at(half.min(all.len()));
    [second, first].concat()
}

/// Whether the two modes light as many dots of this panel, each the other's turn.
pub fn check_paintings(panel: &Panel, font: &[u8]) -> Result<(), &'static str> {
    for dark in [false, true] {
        let [a, b] = [0, 1].map(|bit| painting(panel, bit, font, dark));
        if a.0 != b.0 {
            return Err("the modes are answered otherwise");
        }
        if turned(&a.1) != b.1 || turned(&b.1) != a.1 {
            return Err("the modes' frames are not each other's turn");
        }
    }
    Ok(())
}

fn painting(panel: &Panel, bit: u8, font: &[u8], dark: bool) -> (Painting, Vec<u8>) {
    let mut panel = panel.clone();
    panel.sheet.function = panel.sheet.function & !1 | bit;
    let mut frame = vec![0; panel.sheet.chip.frame_size()];
    (picture::paint(&panel, font, dark, &mut frame), frame)
}

/// Whether the wall's prints with `upright` and without are each other's turn where
/// bit 0 is set, and the same where it is not, in both forms: the frames as they are.
pub fn check_prints(asked: &Asked, font: &[u8], log: &[u8]) -> Result<(), &'static str> {
    let is_turned = wall::shown(&asked.start, log, asked.at).panel.sheet.function % 2 == 1;
    let frames = Asked { apart: false, live: false, ..asked.clone() };
    for form in [Form::Ascii, Form::Bitmap] {
        let [plain, upright] =
            [false, true].map(|upright| wall::print(&Asked { form, upright, ..frames.clone() }, font, log));
        if !is_turned && plain != upright {
            return Err("upright makes a difference in mode A");
        }
        let expected = if form == Form::Ascii { turned_print(&upright) } else { turned_bitmap(&upright) };
        if is_turned && expected != plain {
            return Err("what is upright is not the turn of what is not");
        }
    }
    Ok(())
}

/// The characters of each row back to front, the lower eight of sixteen rows above the
/// upper, and the lines beneath the drawing as they are.
fn turned_print(print: &[u8]) -> Vec<u8> {
    let lines: Vec<Vec<u8>> = print.split_inclusive(|&byte| byte == b'\n').map(<[u8]>::to_vec).collect();
    let end = 1 + lines[1..].iter().take_while(|line| line[0] == b'|').count();
    let row = |line: &Vec<u8>| [line[..82].iter().rev().copied().collect(), b"\n".to_vec()].concat();
    let rows: Vec<Vec<u8>> = lines[1..end].iter().map(row).collect();
    [&lines[..1], &exchanged(&rows, 8), &lines[end..]].concat().concat()
}

fn turned_bitmap(print: &[u8]) -> Vec<u8> {
    let head = if print.starts_with(b"P4\n80 16\n") { 9 } else { 8 };
    [&print[..head], &turned(&print[head..])].concat()
}

#[cfg(test)]
mod tests {
    use super::*;

    /// By hand: the first byte is the last, with its bits the other way round.
    #[test]
    fn a_turned_frame() {
        let mut one = [0; 80];
        (one[0], one[12], one[79]) = (0b1000_0010, 0b1110_0000, 0b0000_0011);
        let mut other = [0; 80];
        (other[9], other[17], other[70]) = (0b0100_0001, 0b0000_0111, 0b1100_0000);
        assert_eq!(turned(&one), other);
        let [above, below] = [[&one[..], &[0; 80]].concat(), [&[0; 80][..], &other].concat()];
        assert_eq!((turned(&above), turned(&below)), (below.clone(), above.clone()));
    }

    #[test]
    fn a_turned_print() {
        let edge = format!("+{}+\n", "-".repeat(80));
        let rows = |first: &str, last: &str| {
            format!("|{first}|\n{}|{last}|\n", format!("|{}|\n", ".".repeat(80)).repeat(6))
        };
        let (dark, lines) = (".".repeat(80), "text |ab|\ncodes 41\n");
        let [left, right] = [format!("##.{}", ".".repeat(77)), format!("{}.##", ".".repeat(77))];
        let one = format!("{edge}{}{edge}{lines}", rows(&left, &dark));
        assert_eq!(turned_print(one.as_bytes()), format!("{edge}{}{edge}{lines}", rows(&right, &dark)).as_bytes());
        let two = format!("{edge}{}{}{edge}{lines}", rows(&left, &dark), rows(&dark, &dark));
        let other = format!("{edge}{}{}{edge}{lines}", rows(&dark, &dark), rows(&right, &dark));
        assert_eq!(turned_print(two.as_bytes()), other.as_bytes());
    }

    #[test]
    fn a_turned_bitmap() {
        let bitmap = |head: &str, at: usize, byte: u8, size: usize| {
            let mut frame = vec![0; size];
            frame[at] = byte;
            [head.as_bytes(), &frame].concat()
        };
        let (one, two) = ("P4\n80 8\n", "P4\n80 16\n");
        assert_eq!(turned_bitmap(&bitmap(one, 0, 0xC0, 80)), bitmap(one, 9, 0x03, 80));
        assert_eq!(turned_bitmap(&bitmap(two, 0, 0xC0, 160)), bitmap(two, 89, 0x03, 160));
    }
}
