//! Trials for `wall`: a log that sets the glass on purpose, a font of random
//! bytes, so that a turned or mirrored glyph shows, and often a time to look at.

pub mod apart;
pub mod live;
mod mirrored;
pub mod together;
mod written;

pub use mirrored::turned_by_time;
pub use written::places_by_time;

use crate::cases;
use crate::chips::Chip;
use crate::generator::{self, Trial};
use crate::lend::{self, files, text, Group, Word};
use crate::log::{self, TIME_LIMIT};
use crate::panel::number::{BACK, BAD, DOUBTFUL};
use crate::panel::{Panel, Times};
use crate::picture::FONT_SIZE;
use crate::random::Random;
use crate::sender::{self, Scene};
use crate::start::BLOCK;

/// D, C and B in all the ways in which the cursor shows or does not.
const SCREENS: [u8; 8] = [6, 5, 7, 2, 4, 6, 5, 3];

/// How often a picture is written in each way.
const FORMS: [&str; 6] = ["ascii", "ascii apart", "pbm", "ascii", "apart ascii", "pbm"];

fn random_of(seed: u64, number: u64) -> Random {
    Random::new(seed ^ 0x61A5_5000, number)
}

/// Shift and screen go by number, so that each meets each.
fn scene(random: &mut Random, number: u64) -> Scene {
    Scene {
        shift: (number % 16) as u8,
        screen: SCREENS[(number / 16 % 8) as usize],
        first_code: (number / 2 * 16) as u8,
        cursor: random.pick(&[0x40, 0x80]) | random.byte() & 0x1F,
        function: random.pick(&[0x0, 0x1, 0x1, 0x1, 0x2, 0x9, 0xF, 0xC]),
    }
}

pub fn trial(seed: u64, number: u64) -> Trial {
    made(&mut random_of(seed, number), number, &FORMS)
}

/// A trial whose picture is written in one of these ways.
fn made(random: &mut Random, number: u64, forms: &[&str]) -> Trial {
    let target = random.pick(&[0, 20, 60, 120]);
    let scene = scene(random, number);
    let (groups, fresh) = lend::fresh(random, 12);
    let mut log = sender::send_glass(random, fresh.clone(), target, scene);
    match random.below(20) {
        0..=3 => cut(random, &mut log),
        4 => log.clear(),
        _ => {}
    }
    let at = random.chance(60).then(|| time_to_ask(random, &fresh, &log));
    asked(random, groups, forms, at, log)
}

fn usual(chip: Chip) -> Panel {
    Panel::fresh(chip, Times::USUAL)
}

/// Every shift with the cursor on, and every code: sixteen trials, so that
/// these are not left to chance.
pub fn shifts(seed: u64, chip: Chip) -> Vec<Trial> {
    let shown = |number: u64| {
        let mut random = random_of(seed, 1_000_000 + number);
        let screen = random.pick(&[5, 6, 7]);
        let scene = Scene { screen, first_code: 16 * number as u8, ..scene(&mut random, number) };
        let log = sender::send_glass(&mut random, usual(chip), 0, scene);
        Trial { groups: words(&mut random, lend::chip_words(chip), "ascii", None), log }
    };
    (0..16).map(shown).collect()
}

/// A log of more than two blocks, with a time that falls into the second or,
/// for odd numbers, into a later one. Its first record is bad and of another length each time, so that
/// a block ends anywhere in a record.
pub fn long_trial(seed: u64, number: u64) -> Trial {
    let chip = Chip::KNOWN[number as usize / 2 % 2];
    let mut random = random_of(!seed, number);
    let mut log = log::write_record(9, &random.bytes(number as usize % 14));
    let scene = scene(&mut random, number);
    log.extend(sender::send_glass(&mut random, usual(chip), 5_500, scene));
    let blocks = if number % 2 == 0 { 1..2 } else { 2..usize::MAX };
    let later: Vec<u64> = moments(&usual(chip), &log)
        .iter()
        .filter(|moment| moment.has_a_say && blocks.contains(&(moment.offset / BLOCK)))
        .filter_map(|moment| moment.time)
        .collect();
    let time = random.pick(&later);
    let at = random.pick(&[time, time, time.saturating_sub(1), time + 1]).min(TIME_LIMIT);
    asked(&mut random, lend::chip_words(chip), &FORMS, Some(at), log)
}

/// This log, asked for as it ends.
pub fn whole_log(seed: u64, chip: Chip, log: Vec<u8>) -> Trial {
    asked(&mut random_of(seed, 0), lend::chip_words(chip), &FORMS, None, log)
}

/// Two lines, a letter on each, at every time at which the glass changes.
pub fn two_lines_by_time() -> Vec<Trial> {
    let (instruction, data) = (0, 1);
    let sent = [
        (instruction, 0x0E), (data, 0x57), (instruction, 0x90), (data, 0x57), (instruction, 0x18), (instruction, 0x53),
    ];
    let times = (0..).step_by(40);
    let log: Vec<u8> =
        times.zip(sent).flat_map(|(time, (control, byte))| log::write_transfer(time, control, byte)).collect();
    let asked = |words: String| {
        let groups = vec![text(&words), text("chip 6635"), files("font", vec![cases::wall_font()])];
        Trial { groups, log: log.clone() }
    };
    let mut trials: Vec<Trial> = (0..7).map(|n| asked(format!("ascii at {}", 40 * n))).collect();
    let others = ["ascii at 119", "pbm at 120", "pbm dark", "at 200 dark ascii"];
    trials.extend(others.map(|words| asked(words.to_string())));
    trials
}

/// A cursor that two reads move, the first of them doubtful, at every time at
/// which it moves: whole, and as halves.
pub fn doubtful_reads_by_time() -> Vec<Trial> {
    let (instruction, read) = (0, 3);
    let wide = log::write_transfers(&[(0, instruction, 0x0E), (100, read, 0), (200, read, 0)]);
    let narrow = log::write_transfers(&[
        (0, instruction, 0x0E), (40, instruction, 0x20), (100, read, 0), (101, read, 0), (200, read, 0),
    ]);
    let mut trials = Vec::new();
    for chip in Chip::KNOWN {
        for (words, log) in
            [("ascii at 99", &wide), ("pbm at 100", &wide), ("at 100 ascii", &narrow), ("pbm at 101", &narrow)]
        {
            let mut groups = lend::chip_words(chip);
            groups.extend([text(words), files("font", vec![cases::wall_font()])]);
            trials.push(Trial { groups, log: log.clone() });
        }
    }
    trials
}

/// The example of docs/WALL.md with its font, and logs of hardly anything.
pub fn example_and_edges() -> Vec<Trial> {
    let log = [log::write_transfer(0, 0, 0x0E), log::write_transfer(40, 1, 0x57)].concat();
    let cut = [log.clone(), vec![12, 0, 1]].concat();
    let logs = [log.clone(), cut, Vec::new(), vec![12], log[..14].to_vec()];
    let mut trials = Vec::new();
    for log in logs {
        for words in [
            "ascii", "pbm dark", "ascii at 0", "at 39 ascii", "at 40 pbm", "ascii at 281474976710656",
            "at 000000000000000000000000000039 ascii",
        ] {
            let groups = vec![text(words), files("font", vec![cases::wall_font()])];
            trials.push(Trial { groups, log: log.clone() });
        }
    }
    trials
}

/// Words that are refused, each with a font that is not.
pub fn refused(seed: u64) -> Vec<Trial> {
    let mut random = random_of(seed, 1);
    let log = generator::short_night();
    let font = files("font", vec![random.bytes(FONT_SIZE)]);
    let wordings = [
        "bogus", "ascii ascii", "live live", "svg dark svg", "Apart", "dark pbm dark", "upright upright",
        "upright pbm dark upright", "Upright", "at upright", "at", "at 1 at 1", "at -1", "at x", "at 0x10",
        "at 281474976710657", "at 18446744073709551616", "ascii at dark", "--help", "records", "Ascii", "frame 80",
    ];
    let mut trials: Vec<Trial> =
        wordings.map(|words| Trial { groups: vec![text(words), font.clone()], log: log.clone() }).into();
    let other_fonts = [0, 1, 80, 1_919, 1_921, 3_840].map(|size| files("font", vec![random.bytes(size)]));
    let no_font: [Group; 2] = [text("font"), vec![Word::Text("font".to_string()), Word::Missing]];
    for group in other_fonts.into_iter().chain(no_font) {
        trials.push(Trial { groups: vec![text("ascii"), group], log: log.clone() });
    }
    trials.push(Trial { groups: vec![text("ascii"), font.clone(), font.clone()], log: log.clone() });
    trials.push(Trial { groups: vec![font, text("ascii at")], log });
    trials
}

/// A question for this log, drawn in one of these ways.
fn asked(random: &mut Random, groups: Vec<Group>, forms: &[&str], at: Option<u64>, log: Vec<u8>) -> Trial {
    let form = random.pick(forms);
    Trial { groups: words(random, groups, form, at), log }
}

/// The words, in any order, with a font of random bytes; half of them dark, and a
/// third upright.
fn words(random: &mut Random, mut groups: Vec<Group>, form: &str, at: Option<u64>) -> Vec<Group> {
    groups.extend([text(form), files("font", vec![random.bytes(FONT_SIZE)])]);
    if random.flag() {
        groups.push(text("dark"));
    }
    if random.chance(33) {
        groups.push(text("upright"));
    }
    groups.extend(at.map(|time| text(&format!("at {time}"))));
    let first = random.below(groups.len() as u64) as usize;
    groups.rotate_left(first);
    groups
}

/// Breaks the log off within, with whole records behind the cut.
fn cut(random: &mut Random, log: &mut Vec<u8>) {
    let records = log::records(log).0;
    let kept = records.len() - random.below(records.len() as u64 / 2 + 1) as usize;
    let mut broken: Vec<u8> = records[..kept].concat();
    let way = random.below(4);
    broken.extend(generator::cut_tail(random, way));
    broken.extend(records[kept..].concat());
    *log = broken;
}

/// A record of a log, and when it was.
pub struct Moment {
    /// Where in the log it begins.
    pub offset: usize,
    /// Answered 0 to 4, 7 or 11.
    pub has_a_say: bool,
    pub is_doubtful: bool,
    /// The time that it tells, if it is long enough to tell one.
    pub time: Option<u64>,
    /// Afterwards.
    pub busy_end: u64,
}

/// All records of a log, sent to this panel.
pub fn moments(start: &Panel, log: &[u8]) -> Vec<Moment> {
    let mut panel = start.clone();
    let mut moments = Vec::new();
    let mut offset = 0;
    for record in log::records(log).0 {
        let answer = panel.answer(record).number;
        let (has_a_say, is_doubtful) = (!matches!(answer, BACK | BAD), answer == DOUBTFUL);
        let time = record.get(4..12).map(|bytes| u64::from_le_bytes(bytes.try_into().expect("8 bytes")));
        moments.push(Moment { offset, has_a_say, is_doubtful, time, busy_end: panel.busy_end });
        offset += record.len();
    }
    moments
}

/// A time at, just before or just after a record's, whether or not it has a say;
/// just before a doubtful read's; a busy end; or one of the two ends of time.
fn time_to_ask(random: &mut Random, start: &Panel, log: &[u8]) -> u64 {
    let moments = moments(start, log);
    let doubtful: Vec<&Moment> = moments.iter().filter(|moment| moment.is_doubtful).collect();
    if !doubtful.is_empty() && random.chance(25) {
        // The glass before it was read, and as it left it.
        let time = random.pick(&doubtful).time.unwrap_or(0);
        return random.pick(&[time.saturating_sub(1), time.saturating_sub(1), time]);
    }
    let wants_a_say = random.chance(75);
    let sort: Vec<&Moment> =
        moments.iter().filter(|moment| moment.has_a_say == wants_a_say && moment.time.is_some()).collect();
    let ends = random.pick(&[0, TIME_LIMIT, TIME_LIMIT - 1]);
    if sort.is_empty() || random.chance(12) {
        return ends;
    }
    let moment = random.pick(&sort);
    let time = moment.time.unwrap_or(ends);
    let near = [time, time, time.saturating_sub(1), time.saturating_add(1)];
    let busy = [moment.busy_end.saturating_sub(1), moment.busy_end];
    random.pick(&[&near[..], &busy[..]].concat()).min(TIME_LIMIT)
}
