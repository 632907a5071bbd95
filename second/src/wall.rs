//! What `wall` prints: the glass at the end of a log, at a time or as the log comes,
//! drawn, and as text, codes, the cursor's place and the written places.
//! docs/WALL.md says it.

mod drawing;
pub mod live;

use crate::chip::Sheet;
use crate::chips::LINE;
use crate::log::{self, TIME_LIMIT};
use crate::panel::number::{BACK, BAD};
use crate::panel::Panel;
use crate::picture::{self, Place};
use crate::prints::spaced;

/// The latest time that may be asked for; no record has it.
pub const LATEST: u64 = TIME_LIMIT;

#[derive(Clone, Copy, Debug, PartialEq)]
pub enum Form {
    /// Two rows of dots to a line: drawn by others, and left out here.
    HalfBlocks,
    Ascii,
    Bitmap,
    /// Drawn by others too; what they draw is read back in `svg`.
    Svg,
}

/// What `wall` is asked for.
#[derive(Clone, Debug, PartialEq)]
pub struct Asked {
    pub form: Form,
    /// The word `apart`; `live` and the SVG have their cells apart without it.
    pub apart: bool,
    /// The pictures as the log comes.
    pub live: bool,
    pub dark: bool,
    /// The picture as it would be in mode A.
    pub upright: bool,
    /// None for the end of the log.
    pub at: Option<u64>,
    /// None for the program's own.
    pub font: Option<Vec<u8>>,
    /// The fresh panel that the log is sent to.
    pub start: Panel,
}

impl Asked {
    /// This form and nothing else: light, as it is wired, at the end of the log.
    pub fn plainly(form: Form, start: Panel) -> Asked {
        Asked { form, apart: false, live: false, dark: false, upright: false, at: None, font: None, start }
    }
}

/// The panel that is shown, and the record that it is the panel before.
pub struct Shown {
    pub panel: Panel,
    /// None where the panel is that at the end of the log or at the cut.
    pub before: Option<usize>,
}

/// The glass before the first record that moved the clock past the time.
pub fn shown(start: &Panel, log: &[u8], at: Option<u64>) -> Shown {
    let mut panel = start.clone();
    for (place, record) in log::records(log).0.into_iter().enumerate() {
        let earlier = panel.clone();
        let answer = panel.answer(record).number;
        let has_a_say = !matches!(answer, BACK | BAD);
        let time = log::message(record).map(|message| message.time());
        if has_a_say && at.is_some() && time > at {
            return Shown { panel: earlier, before: Some(place) };
        }
    }
    Shown { panel, before: None }
}

/// The print but for what others draw.
pub fn print(asked: &Asked, font: &[u8], log: &[u8]) -> Vec<u8> {
    if asked.live {
        return live::print(asked, font, log).into_bytes();
    }
    let panel = shown(&asked.start, log, asked.at).panel;
    let glass = Glass::of(asked, font, &panel);
    match asked.form {
        Form::Bitmap => [format!("P4\n80 {}\n", panel.sheet.chip.rows()).as_bytes(), &glass.frame].concat(),
        Form::Ascii | Form::HalfBlocks => glass.print(asked).into_bytes(),
        Form::Svg => Vec::new(),
    }
}

/// What is printed where reading fails after these bytes.
pub fn print_broken_off(asked: &Asked, font: &[u8], log: &[u8]) -> String {
    if asked.live { live::print_broken_off(asked, font, log) } else { String::new() }
}

/// A picture: the frame, and the lines beneath its drawing.
#[derive(PartialEq)]
pub struct Glass {
    pub frame: Vec<u8>,
    pub lines: String,
}

impl Glass {
    pub fn of(asked: &Asked, font: &[u8], panel: &Panel) -> Glass {
        Glass { frame: frame(asked, font, panel), lines: lines(&panel.sheet) }
    }

    /// The drawing in marks, where it is asked for, and the lines.
    fn print(&self, asked: &Asked) -> String {
        let is_drawn = asked.form == Form::Ascii;
        let drawing = is_drawn.then(|| drawing::drawing(&self.frame, asked.apart || asked.live));
        drawing.unwrap_or_default() + &self.lines
    }
}

/// The frame that is drawn of this panel; the lines beneath are the panel's own,
/// upright or not.
pub fn frame(asked: &Asked, font: &[u8], panel: &Panel) -> Vec<u8> {
    let mut drawn = panel.clone();
    if asked.upright {
        drawn.sheet.function &= !1;
    }
    let mut frame = vec![0; panel.sheet.chip.frame_size()];
    picture::paint(&drawn, font, asked.dark, &mut frame);
    frame
}

/// The text of each line, a character for each position.
pub fn texts(sheet: &Sheet) -> Vec<String> {
    (0..sheet.chip.lines()).map(|line| codes(sheet, line).map(character).iter().collect()).collect()
}

fn codes(sheet: &Sheet, line: usize) -> [u8; LINE] {
    std::array::from_fn(|position| picture::code_at(sheet, Place { line, position }))
}

/// The text of every line, then the codes of every line, the cursor, and the
/// written places of all lines together.
fn lines(sheet: &Sheet) -> String {
    let texts: String = texts(sheet).iter().map(|text| format!("text |{text}|\n")).collect();
    let all_codes = (0..sheet.chip.lines()).map(|line| format!("codes {}\n", spaced(&codes(sheet, line))));
    format!("{texts}{}cursor {}\nwritten {}\n", all_codes.collect::<String>(), cursor(sheet), written(sheet))
}

/// With one line there is no need to say which.
fn cursor(sheet: &Sheet) -> String {
    let Place { line, position } = picture::cursor(sheet);
    match sheet.chip.lines() {
        _ if !(sheet.d && (sheet.c || sheet.b)) => "off".to_string(),
        1 => position.to_string(),
        _ => format!("{position} line {line}"),
    }
}

/// Addresses of memory, whatever the shift, and hidden by nothing.
fn written(sheet: &Sheet) -> String {
    let places: Vec<u8> = sheet.written.places().into_iter().map(|place| place as u8).collect();
    if places.is_empty() { "-".to_string() } else { spaced(&places) }
}

fn character(code: u8) -> char {
    match code {
        0x20..=0x7E => char::from(code),
        _ => '.',
    }
}

#[cfg(test)]
mod mirrored;
#[cfg(test)]
mod two_lines;
#[cfg(test)]
mod written;

#[cfg(test)]
mod tests {
    use super::*;
    use crate::chip::{Counter, DisplayAddress, PatternAddress};
    use crate::chips::Chip;
    use crate::panel::Times;

    fn fresh() -> Panel {
        Panel::fresh(Chip::ONE_LINE, Times::USUAL)
    }

    fn instruction(time: u64, code: u8) -> Vec<u8> {
        log::write_transfer(time, 0, code)
    }

    fn data(time: u64, byte: u8) -> Vec<u8> {
        log::write_transfer(time, 1, byte)
    }

    /// The text line of a log at a time.
    fn text(log: &[u8], at: Option<u64>) -> String {
        let print = lines(&shown(&fresh(), log, at).panel.sheet);
        print.lines().next().expect("three lines").to_string()
    }

    /// The codes 80h to 8Fh by address, shifted so that position 0 shows 83h.
    fn shifted() -> Sheet {
        let mut sheet = Sheet::fresh(Chip::ONE_LINE);
        for place in 0..16 {
            sheet.store(place, 0x80 + place as u8);
        }
        sheet.shift = 3;
        sheet
    }

    #[test]
    fn positions_are_counted_from_the_shift() {
        let mut sheet = shifted();
        sheet.store(2, b'c');
        sheet.store(3, b'd');
        let print = lines(&sheet);
        assert_eq!(
            print,
            "text |d..............c|\ncodes 64 84 85 86 87 88 89 8A 8B 8C 8D 8E 8F 80 81 63\ncursor off\n\
             written 00 01 02 03 04 05 06 07 08 09 0A 0B 0C 0D 0E 0F\n"
        );
    }

    #[test]
    fn text_shows_20h_to_7eh() {
        let shown: String = [0x00, 0x0F, 0x1F, 0x20, 0x21, 0x7E, 0x7F, 0x80, 0xFF].map(character).iter().collect();
        assert_eq!(shown, "... !~...");
    }

    #[test]
    fn the_cursor_is_shown_where_d_and_c_or_b_are_on() {
        for (d, c, b, is_shown) in [
            (true, true, false, true), (true, false, true, true), (true, true, true, true),
            (true, false, false, false), (false, true, true, false), (false, true, false, false),
        ] {
            let mut sheet = shifted();
            (sheet.d, sheet.c, sheet.b) = (d, c, b);
            sheet.counter = Counter::Display(DisplayAddress(1));
            let cursor = if is_shown { "\ncursor 14\n" } else { "\ncursor off\n" };
            assert!(lines(&sheet).contains(cursor), "{d} {c} {b}");
        }
        let mut sheet = shifted();
        (sheet.d, sheet.c) = (true, true);
        sheet.counter = Counter::Pattern(PatternAddress(21));
        assert!(lines(&sheet).contains("\ncursor 2\n"), "(21 mod 16 - 3) mod 16");
    }

    #[test]
    fn the_glass_at_a_time() {
        let log = [instruction(100, 0x06), data(200, b'a'), data(300, b'b'), data(300, b'c'), data(340, b'd')].concat();
        for (at, letters) in [
            (Some(0), ""), (Some(199), ""), (Some(200), "a"), (Some(299), "a"), (Some(300), "ab"), (Some(339), "ab"),
            (Some(340), "abd"), (Some(1 << 48), "abd"), (None, "abd"),
        ] {
            assert_eq!(text(&log, at), format!("text |{letters:16}|"), "{at:?}");
        }
    }

    #[test]
    fn bad_and_backward_records_have_no_say() {
        let late = log::write_transfer(1 << 48, 1, b'x');
        let stray = log::write_transfer(900, 4, b'x');
        let log = [data(100, b'a'), late, stray, data(50, b'x'), data(200, b'b'), data(400, b'c'), data(150, b'x')].concat();
        assert_eq!(text(&log, Some(300)), "text |ab              |");
        assert_eq!(text(&log, Some(150)), "text |a               |", "at the time of one that is back");
        assert_eq!(text(&log, Some(400)), "text |abc             |");
        assert_eq!(shown(&fresh(), &log, Some(300)).before, Some(5));
        assert_eq!(shown(&fresh(), &log, Some(400)).before, None);
    }

    #[test]
    fn a_later_record_ends_it_whatever_it_did() {
        let status = log::write_transfer(200, 2, 0);
        for later in [status, instruction(200, 0x00), log::write_reset(200), data(110, b'x')] {
            let log = [data(100, b'a'), later, data(20_000, b'b')].concat();
            assert_eq!(shown(&fresh(), &log, Some(105)).before, Some(1));
            assert_eq!(text(&log, Some(105)), "text |a               |");
        }
    }

    /// The cursor, which a doubtful read moves, is still where it was.
    #[test]
    fn a_doubtful_read_ends_it_as_a_taken_one_does() {
        let wide = log::write_transfers(&[(0, 0, 0x0E), (100, 3, 0), (200, 3, 0)]);
        let narrow = log::write_transfers(&[(0, 0, 0x0E), (40, 0, 0x20), (100, 3, 0), (101, 3, 0), (200, 3, 0)]);
        for (log, at, before, cursor) in [
            (&wide, 99, Some(1), 0), (&wide, 100, Some(2), 1), (&narrow, 99, Some(2), 0), (&narrow, 100, Some(3), 0),
            (&narrow, 101, Some(4), 1), (&narrow, 200, None, 1),
        ] {
            let shown = shown(&fresh(), log, Some(at));
            assert_eq!(shown.before, before, "at {at}");
            assert!(lines(&shown.panel.sheet).contains(&format!("\ncursor {cursor}\n")), "at {at}");
        }
    }

    #[test]
    fn a_cut_ends_the_log() {
        let cut = [data(100, b'a'), vec![1, 0], data(200, b'b')].concat();
        for at in [None, Some(150), Some(200), Some(1 << 48)] {
            assert_eq!(text(&cut, at), "text |a               |");
        }
        assert_eq!(text(&[], None), "text |                |");
        assert_eq!(text(&[12], Some(0)), "text |                |");
    }

    #[test]
    fn a_bitmap_is_the_frame_behind_two_lines() {
        let font = vec![0; 1_920];
        let mut asked = Asked::plainly(Form::Bitmap, fresh());
        let mut expected = b"P4\n80 8\n".to_vec();
        expected.extend([0; 80]);
        let log = instruction(0, 0x0D);
        assert_eq!(print(&asked, &font, &log), expected);
        // The blink fills position 0: five dots in each of eight rows.
        asked.dark = true;
        for row in 0..8 {
            expected[8 + 10 * row] = 0xF8;
        }
        assert_eq!(print(&asked, &font, &log), expected);
    }
}
