//! The words after each program's name: what a run is lent and asked for. The names
//! are looked at first, then which of them stand together, and then what they say.

mod groups;
pub mod together;

use crate::chips::Chip;
use crate::panel::{Panel, Times};
use crate::panel_file;
use crate::picture::{self, FONT_SIZE};
use crate::wall::{Asked, LATEST};
use groups::{Groups, Taken};
use std::fs;

/// A lent frame has at most this many bytes.
pub const FRAME_LIMIT: usize = 200;

/// Everything that a run of `trace` starts from. The word `records` is no part
/// of it: the print is the same.
pub struct Lent {
    pub font: Vec<u8>,
    pub panel: Panel,
    pub frame_size: usize,
    pub frames: Option<(Vec<u8>, Vec<u8>)>,
}

/// The groups that every program takes: which chip a fresh panel has, and which
/// times. They are all that `glazomir` and `report` take.
const FRESH: [Taken; 2] = [("chip", 1), ("times", 3)];

const TRACE: [Taken; 5] = [("font", 1), ("panel", 1), ("frame", 1), ("frames", 2), ("records", 0)];

const WALL: [Taken; 9] = [
    ("ascii", 0), ("pbm", 0), ("svg", 0), ("apart", 0), ("live", 0), ("dark", 0), ("upright", 0), ("at", 1),
    ("font", 1),
];

/// Reads the words of `glazomir` and of `report`: the panel that they start
/// from. The error is one line that says what is wrong.
pub fn start(words: &[String]) -> Result<Panel, &'static str> {
    fresh(&Groups::read(words, &FRESH)?)
}

/// Reads the words of `trace`.
pub fn trace(words: &[String]) -> Result<Lent, &'static str> {
    let groups = Groups::read(words, &[&TRACE[..], &FRESH].concat())?;
    // A panel that is handed in has a chip and times of its own.
    let fresh = fresh(&groups)?;
    let panel = groups.value("panel", |words| panel_file::read(&file(&words[0])?))?.unwrap_or(fresh);
    let frame_size = groups.value("frame", |words| number(&words[0], FRAME_LIMIT as u64))?;
    Ok(Lent {
        font: groups.value("font", |words| file(&words[0]))?.unwrap_or_else(picture::trial_font),
        frame_size: frame_size.map_or(panel.sheet.chip.frame_size(), |size| size as usize),
        panel,
        frames: groups.value("frames", |words| Ok((frame(&words[0])?, frame(&words[1])?)))?,
    })
}

/// Reads the words of `wall`. No font of its own stands here in for one that
/// is not given.
pub fn wall(words: &[String]) -> Result<Asked, &'static str> {
    let groups = wall_groups(words)?;
    Ok(Asked {
        form: together::form(&groups)?,
        apart: groups.has("apart"),
        live: groups.has("live"),
        dark: groups.has("dark"),
        upright: groups.has("upright"),
        start: fresh(&groups)?,
        at: groups.value("at", |words| number(&words[0], LATEST))?,
        font: groups.value("font", |words| font_of_full_size(&words[0]))?,
    })
}

/// All that is wrong with the words of `wall` together; nothing where the words
/// themselves are refused.
pub fn wrong_together(words: &[String]) -> Vec<&'static str> {
    wall_groups(words).map_or(Vec::new(), |groups| together::faults(&groups))
}

fn wall_groups(words: &[String]) -> Result<Groups<'_>, &'static str> {
    Groups::read(words, &[&WALL[..], &FRESH].concat())
}

/// The chip's name comes before the numbers.
fn fresh(groups: &Groups) -> Result<Panel, &'static str> {
    let chip = groups.value("chip", |words| Chip::named(&words[0]).ok_or("name of the chip"))?;
    let times = groups.value("times", times)?;
    Ok(Panel::fresh(chip.unwrap_or(Chip::ONE_LINE), times.unwrap_or(Times::USUAL)))
}

fn file(word: &str) -> Result<Vec<u8>, &'static str> {
    fs::read(word).map_err(|_| "file not readable")
}

fn font_of_full_size(word: &str) -> Result<Vec<u8>, &'static str> {
    let bytes = file(word)?;
    if bytes.len() != FONT_SIZE {
        return Err("size of the font");
    }
    Ok(bytes)
}

fn frame(word: &str) -> Result<Vec<u8>, &'static str> {
    let bytes = file(word)?;
    if bytes.len() > FRAME_LIMIT {
        return Err("frame file too long");
    }
    Ok(bytes)
}

fn times(words: &[String]) -> Result<Times, &'static str> {
    let time = |at: usize| number(&words[at], 65_535).map(|n| n as u16);
    Ok(Times { reset: time(0)?, long: time(1)?, short: time(2)? })
}

fn number(word: &str, most: u64) -> Result<u64, &'static str> {
    if word.is_empty() || !word.bytes().all(|digit| digit.is_ascii_digit()) {
        return Err("not a number");
    }
    match word.parse() {
        Ok(number) if number <= most => Ok(number),
        _ => Err("number too large"),
    }
}

#[cfg(test)]
mod tests {
    use super::*;
    use crate::wall::Form;

    fn split(words: &str) -> Vec<String> {
        words.split(' ').map(str::to_string).collect()
    }

    fn usual(chip: u8) -> Panel {
        Panel::fresh(Chip(chip), Times { reset: 10_000, long: 1_640, short: 40 })
    }

    #[test]
    fn what_is_not_given_is_as_the_page_says() {
        let lent = trace(&[]).ok().expect("no words");
        assert_eq!((lent.panel, lent.frame_size), (usual(31), 80));
        assert!(lent.frames.is_none());
        // (37 i + 11 (i div 8) + 5) mod 256 at 0, 8 and 1,919; E0h for code 20h.
        assert_eq!((lent.font[0], lent.font[8], lent.font[1_919]), (5, 56, 165));
        assert_eq!(lent.font[127..137], [5, 224, 224, 224, 224, 224, 224, 224, 224, 104]);
        let asked = wall(&[]).expect("no words");
        assert_eq!(asked, Asked::plainly(Form::HalfBlocks, usual(31)));
        assert_eq!(start(&[]), Ok(usual(31)));
    }

    #[test]
    fn words_come_in_any_order() {
        let lent = trace(&split("records frame 0 times 1 2 65535")).ok().expect("words of trace");
        assert_eq!((lent.panel.times.long, lent.panel.times.short, lent.frame_size), (2, 65_535, 0));
        let asked = wall(&split("at 281474976710656 dark pbm")).expect("words of wall");
        let expected = Asked { dark: true, at: Some(1 << 48), ..Asked::plainly(Form::Bitmap, usual(31)) };
        assert_eq!(asked, expected);
    }

    #[test]
    fn upright_stands_anywhere() {
        let upright = |form, chip| Asked { upright: true, ..Asked::plainly(form, usual(chip)) };
        assert_eq!(wall(&split("upright")), Ok(upright(Form::HalfBlocks, 31)));
        assert_eq!(wall(&split("upright ascii chip 6635")), Ok(upright(Form::Ascii, 35)));
        assert_eq!(wall(&split("times 10000 1640 40 pbm upright")), Ok(upright(Form::Bitmap, 31)));
        assert_eq!(start(&split("upright")), Err("unknown word"), "it is a word of the wall alone");
        let all = Asked { dark: true, at: Some(7), ..upright(Form::Ascii, 35) };
        for words in [
            "upright dark ascii at 7 chip 6635", "ascii upright chip 6635 dark at 7",
            "chip 6635 at 7 dark ascii upright", "at 7 upright times 10000 1640 40 chip 6635 dark ascii",
        ] {
            assert_eq!(wall(&split(words)), Ok(all.clone()), "{words}");
        }
    }

    #[test]
    fn cells_apart_and_as_the_log_comes() {
        let ascii = Asked::plainly(Form::Ascii, usual(31));
        assert_eq!(wall(&split("apart ascii")), Ok(Asked { apart: true, ..ascii.clone() }));
        let live = Asked { live: true, upright: true, ..ascii };
        assert_eq!(wall(&split("ascii upright live")), Ok(live.clone()));
        assert_eq!(wall(&split("live apart upright ascii")), Ok(Asked { apart: true, ..live }));
        let svg = Asked { dark: true, at: Some(7), ..Asked::plainly(Form::Svg, usual(35)) };
        assert_eq!(wall(&split("svg at 7 chip 6635 dark")), Ok(svg));
        for word in ["apart", "live", "svg"] {
            assert_eq!(start(&split(word)), Err("unknown word"), "{word} is a word of the wall alone");
        }
    }

    #[test]
    fn the_chip_and_its_times() {
        for (name, chip, size) in [("6631", 31, 80), ("6635", 35, 160)] {
            let words = split(&format!("chip {name}"));
            let lent = trace(&words).ok().expect("words of trace");
            assert_eq!((lent.panel, lent.frame_size), (usual(chip), size));
            assert_eq!(start(&words), Ok(usual(chip)));
            assert_eq!(wall(&words).map(|asked| asked.start), Ok(usual(chip)));
            let panel = Panel::fresh(Chip(chip), Times { reset: 0, long: 316, short: 28 });
            for words in [format!("chip {name} times 0 316 0028"), format!("times 0 316 28 chip {name}")] {
                assert_eq!(start(&split(&words)), Ok(panel.clone()));
                assert_eq!(trace(&split(&words)).map(|lent| lent.panel), Ok(panel.clone()));
                assert_eq!(wall(&split(&words)).map(|asked| asked.start), Ok(panel.clone()));
            }
        }
        let lent = trace(&split("frame 80 chip 6635")).ok().expect("words of trace");
        assert_eq!(lent.frame_size, 80);
    }

    #[test]
    fn a_panel_has_a_chip_of_its_own() {
        let path = std::env::temp_dir().join(format!("second-panel-{}", std::process::id()));
        let file = path.display().to_string();
        for (chip, size) in [(31, 80), (35, 160), (34, 80)] {
            let panel = Panel::fresh(Chip(chip), Times { reset: 1, long: 2, short: 3 });
            fs::write(&path, panel_file::write(&panel)).expect("a temporary file");
            for beside in ["chip 6631", "chip 6635", "times 7 7 7 chip 6635", "times 7 7 7"] {
                let lent = trace(&split(&format!("{beside} panel {file}"))).ok().expect("a panel");
                assert_eq!((lent.panel, lent.frame_size), (panel.clone(), size), "{beside}");
            }
            for (beside, reason) in [("chip 34", "name of the chip"), ("times 7 7 65536", "number too large")] {
                assert_eq!(trace(&split(&format!("panel {file} {beside}"))).err(), Some(reason));
            }
        }
        fs::remove_file(&path).expect("it was written");
    }

    /// What a file says in its last five bytes is the panel's own too; one of before,
    /// which is without them, is no panel.
    #[test]
    fn a_panel_that_is_good_or_not() {
        let path = std::env::temp_dir().join(format!("second-good-{}", std::process::id()));
        let words = split(&format!("panel {}", path.display()));
        let fresh = panel_file::write(&usual(35));
        for (last, expected) in [
            (&[0, 0, 0, 0, 0][..], Ok(false)), (&[1, 0, 0, 0, 0], Ok(true)), (&[2, 0, 0, 0, 0], Err("good")),
            (&[255, 0, 0, 0, 0], Err("good")), (&[], Err("size of the file")), (&[0], Err("size of the file")),
        ] {
            fs::write(&path, [&fresh[..101], last].concat()).expect("a temporary file");
            assert_eq!(trace(&words).map(|lent| lent.panel.sheet.good), expected, "{last:?}");
        }
        fs::remove_file(&path).expect("it was written");
    }

    #[test]
    fn refusals_of_every_program() {
        for (words, reason) in [
            ("chip", "name missing"), ("chip 6633", "name of the chip"), ("chip 35", "name of the chip"),
            ("chip NJU6635", "name of the chip"), ("chip ", "name of the chip"),
            ("chip times 1 2 3", "unknown word"), ("chip times", "name of the chip"),
            ("chip 6635 chip 6635", "chip given twice"), ("chip 6631 times 1 2 3 chip 6635", "chip given twice"),
            ("times 1 2 3 times 1 2 3", "times given twice"), ("times", "number missing"),
            ("times 1 2", "number missing"),
            ("times 1 2 65536", "number too large"), ("times 1 -2 3", "not a number"),
            ("times 1 2 chip", "not a number"),
            ("times 1 2 chip 6635", "unknown word"), ("6635", "unknown word"), ("Chip 6635", "unknown word"),
            ("", "unknown word"), ("chip 6635 4", "unknown word"),
        ] {
            let words = split(words);
            assert_eq!(start(&words).err(), Some(reason), "{words:?}");
            assert_eq!(trace(&words).err(), Some(reason), "{words:?}");
            assert_eq!(wall(&words).err(), Some(reason), "{words:?}");
        }
    }

    #[test]
    fn refusals_of_trace() {
        for (words, reason) in [
            ("ascii", "unknown word"), ("upright", "unknown word"), ("live", "unknown word"),
            ("records records", "group given twice"),
            ("frame 201", "number too large"), ("frame +1", "not a number"), ("frame ", "not a number"),
            ("font", "file missing"), ("Records", "unknown word"),
        ] {
            assert_eq!(trace(&split(words)).err(), Some(reason), "{words}");
        }
    }

    #[test]
    fn refusals_of_wall() {
        for (words, reason) in [
            ("records", "unknown word"), ("ascii dark ascii", "group given twice"), ("at", "number missing"),
            ("at 281474976710657", "number too large"), ("at 18446744073709551616", "number too large"),
            ("at -1", "not a number"), ("font", "file missing"), ("live dark live", "group given twice"),
            ("upright upright", "group given twice"), ("upright pbm dark upright", "group given twice"),
            ("Upright", "unknown word"), ("upright 1", "unknown word"), ("at upright", "not a number"),
            ("apart apart", "group given twice"), ("svg svg", "group given twice"), ("SVG", "unknown word"),
        ] {
            assert_eq!(wall(&split(words)).err(), Some(reason), "{words}");
        }
    }
}
