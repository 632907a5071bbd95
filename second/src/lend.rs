//! What generated runs are lent: chips and times, `panels`, fonts and frames of
//! good and wrong sizes, and words that `trace` must refuse.
//!
//! Where there are many sorts, they go by turn instead of by chance, so that
//! none is left out.

pub mod mirrored;
pub mod panels;
pub mod written;

use crate::chips::Chip;
use crate::panel::{Panel, Times};
use crate::panel_file;
use crate::random::Random;

/// A word of a command line; files are written out when the run is made.
#[derive(Clone, Debug, PartialEq)]
pub enum Word {
    Text(String),
    File(Vec<u8>),
    /// The name of a file that is not there.
    Missing,
}

/// Words that belong together, such as `times 1 2 3`.
pub type Group = Vec<Word>;

pub struct Lending {
    pub groups: Vec<Group>,
    /// The panel that the run starts from, where there is a sound one.
    pub start: Option<Panel>,
}

/// A group, split at spaces.
pub fn text(words: &str) -> Group {
    words.split(' ').map(|word| Word::Text(word.to_string())).collect()
}

/// A word and the files that follow it.
pub fn files(word: &str, contents: Vec<Vec<u8>>) -> Group {
    let mut group = text(word);
    group.extend(contents.into_iter().map(Word::File));
    group
}

/// The words for a fresh panel of this chip: none are needed for one line.
pub fn chip_words(chip: Chip) -> Vec<Group> {
    if chip == Chip::ONE_LINE { Vec::new() } else { vec![text(&format!("chip {}", chip.name()))] }
}

/// A fresh panel of either chip, and the words for it; `percent` of them have
/// other times than the usual ones.
pub fn fresh(random: &mut Random, percent: u64) -> (Vec<Group>, Panel) {
    let chip = random.pick(&Chip::KNOWN);
    let mut groups = chip_words(chip);
    if groups.is_empty() && random.chance(40) {
        groups.push(text(&format!("chip {}", chip.name())));
    }
    let mut times = Times::USUAL;
    if random.chance(percent) {
        times = some_times(random);
        groups.push(text(&format!("times {} {} {}", times.reset, times.long, times.short)));
    }
    (groups, Panel::fresh(chip, times))
}

pub fn lend(random: &mut Random, turn: u64) -> Lending {
    let (mut groups, fresh) = fresh(random, 33);
    let mut chip = fresh.sheet.chip;
    let mut start = Some(fresh);
    if turn % 4 == 1 {
        let bytes = panels::some_bytes(random, turn / 4);
        let panel = panel_file::read(&bytes).ok();
        chip = panel.as_ref().map_or(chip, |panel| panel.sheet.chip);
        start = panel.filter(Panel::is_sound);
        groups.push(files("panel", vec![bytes]));
    }
    // Of an unknown chip, either size would do.
    let sized = if chip.is_known() { chip } else { random.pick(&Chip::KNOWN) };
    groups.extend(pictures(random, sized));
    if random.chance(33) {
        groups.push(text("records"));
    }
    let first = random.below(groups.len().max(1) as u64) as usize;
    groups.rotate_left(first);
    if turn % 41 == 17 {
        let at = if random.chance(75) { groups.len() } else { 0 };
        groups.insert(at, refused_words(random, turn / 41));
        start = None;
    }
    Lending { groups, start }
}

/// What the painter and the comparison are lent.
fn pictures(random: &mut Random, chip: Chip) -> Vec<Group> {
    let mut groups = Vec::new();
    if random.chance(20) {
        groups.push(files("font", vec![font(random)]));
    }
    if random.chance(20) {
        let any = random.below(201);
        let other = other_size(chip) as u64;
        let size = random.pick(&[chip.frame_size() as u64, other, other, 0, 79, 81, 159, 161, 1, 200, any]);
        groups.push(text(&format!("frame {size}")));
    }
    if random.chance(20) {
        let (one, other) = frames(random, chip);
        groups.push(files("frames", vec![one, other]));
    }
    groups
}

/// The size of the other chip's frames.
fn other_size(chip: Chip) -> usize {
    if chip == Chip::ONE_LINE { Chip::TWO_LINES.frame_size() } else { Chip::ONE_LINE.frame_size() }
}

pub fn some_times(random: &mut Random) -> Times {
    let mut time = || match random.below(6) {
        0 => 0,
        1 => 65_535,
        2 => 1,
        3 => random.below(100) as u16,
        4 => random.below(3_000) as u16,
        _ => random.next() as u16,
    };
    Times { reset: time(), long: time(), short: time() }
}

fn font(random: &mut Random) -> Vec<u8> {
    let size = random.pick(&[1_920, 1_920, 1_920, 1_920, 0, 80, 1_919, 1_921, 3_840]);
    random.bytes(size)
}

fn frames(random: &mut Random, chip: Chip) -> (Vec<u8>, Vec<u8>) {
    let (size, dots) = (chip.frame_size(), 8 * chip.frame_size() as u64);
    let one = random.bytes(size);
    let mut other = one.clone();
    let other_size = other_size(chip);
    let wrong_size = random.pick(&[0, 1, size - 1, size + 1, other_size, other_size, other_size, 200]);
    match random.below(12) {
        0 => {}
        1 => flip(&mut other, random.below(dots)),
        2..=4 => flip(&mut other, random.pick(&[0, 79, 80, 639, dots - 640, dots / 2, dots - 80, dots - 1, dots - 1])),
        5 => {
            for _ in 0..2 + random.below(9) {
                flip(&mut other, random.below(dots));
            }
        }
        6 => other = random.bytes(size),
        7 => return (random.bytes(wrong_size), other),
        8 => other.resize(wrong_size, 0),
        9 => return (vec![7; wrong_size], vec![7; wrong_size]),
        10 => return (random.bytes(other_size), random.bytes(other_size)),
        // A dot of the last line, and any that come after it.
        _ => {
            let first = dots - 1 - random.below(640);
            flip(&mut other, first);
            flip(&mut other, first + random.below(dots - first));
        }
    }
    (one, other)
}

/// Turns over one dot, the dots being counted by rows.
fn flip(frame: &mut [u8], dot: u64) {
    frame[(dot / 8) as usize] ^= 0x80 >> (dot % 8);
}

/// Words for its fresh panel that every program refuses.
pub const REFUSED: [&str; 22] = [
    "chip", "chip ", "chip 6633", "chip 31", "chip 35", "chip 06635", "chip 66350", "chip NJU6635", "chip 6631A",
    "chip times 1 2 3", "chip 6635 chip 6635", "chip 6631 times 1 2 3 chip 6635", "6635", "chip 6635 6631",
    "times", "times 1 2", "times 1 2 65536", "times 65536 2 3", "times 1 two 3", "times 1 -2 3",
    "times 1 2 3 times 1 2 3", "times 1 99999999999999999999 3",
];

fn refused_words(random: &mut Random, turn: u64) -> Group {
    let wordings = [
        "bogus", "font", "panel", "frame", "frame 201", "frame x", "frame 80 frame 80", "records records",
        "frame 99999999999999999999",
    ];
    let kinds = wordings.len() as u64 + 6;
    match turn % kinds {
        0 => files("frames", vec![random.bytes(80)]),
        1 => files("frames", vec![random.bytes(80), random.bytes(201)]),
        2 => files("frames", vec![random.bytes(201), random.bytes(80)]),
        3 => vec![Word::Text("font".to_string()), Word::Missing],
        4 => vec![Word::Text("panel".to_string()), Word::Missing],
        5 => text(random.pick(&REFUSED)),
        other => text(wordings[(other - 6) as usize]),
    }
}
