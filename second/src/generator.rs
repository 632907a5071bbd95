//! Trials: a log and what the run over it is lent, made anew from a seed and
//! a turn. Some logs are damaged after they are sent.

use crate::chip::Width;
use crate::chips::Chip;
use crate::lend::{self, Group, Word};
use crate::log;
use crate::panel::{Panel, Times};
use crate::random::Random;
use crate::sender;
use std::fs;
use std::io;
use std::path::Path;

/// One thing to run the model and the program on.
#[derive(Clone, Debug)]
pub struct Trial {
    pub groups: Vec<Group>,
    pub log: Vec<u8>,
}

impl Trial {
    /// This log, sent to a fresh panel of this chip.
    pub fn of_chip(chip: Chip, log: Vec<u8>) -> Trial {
        Trial { groups: lend::chip_words(chip), log }
    }

    /// What is said of the fresh panel, in words that every program takes, for
    /// another program to hear.
    pub fn fresh_groups(&self) -> Vec<Group> {
        let is_taken = |group: &&Group| ["chip", "times"].iter().any(|name| group[0] == Word::Text(name.to_string()));
        self.groups.iter().filter(is_taken).cloned().collect()
    }

    /// The chip that is named among the words, if one is.
    pub fn chip_named(&self) -> Option<Chip> {
        self.groups.iter().flat_map(|group| group.windows(2)).find_map(|two| match two {
            [Word::Text(word), Word::Text(name)] if word == "chip" => Chip::named(name),
            _ => None,
        })
    }

    /// Whether a group of this name is among the words.
    pub fn gives(&self, name: &str) -> bool {
        self.groups.iter().flatten().any(|word| *word == Word::Text(name.to_string()))
    }

    /// Writes the lent files into the directory and gives the command line.
    pub fn words(&self, directory: &Path) -> io::Result<Vec<String>> {
        let mut words = Vec::new();
        for word in self.groups.iter().flatten() {
            let path = directory.join(format!("lent{}", words.len()));
            words.push(match word {
                Word::Text(text) => text.clone(),
                Word::Missing => directory.join("missing").display().to_string(),
                Word::File(bytes) => {
                    // Some disks are waited for when a file is written over.
                    let _ = fs::remove_file(&path);
                    fs::write(&path, bytes)?;
                    path.display().to_string()
                }
            });
        }
        Ok(words)
    }
}

pub fn trial(seed: u64, turn: u64) -> Trial {
    let mut random = Random::new(seed, turn);
    let lending = lend::lend(&mut random, turn);
    let is_refused = lending.start.is_none();
    let (panel, target) = match lending.start {
        Some(panel) => (panel, length(&mut random)),
        None => (Panel::fresh(Chip::ONE_LINE, Times::USUAL), random.below(30) as usize),
    };
    let mut log = sender::send_log(&mut random, panel, target);
    if is_refused {
        damage_of_a_refused_run(&mut random, &mut log);
    } else if turn % 5 == 3 {
        damage(&mut random, &mut log, turn / 5 % 25);
    }
    Trial { groups: lending.groups, log }
}

/// How many records a log is to have; a few logs are long.
fn length(random: &mut Random) -> usize {
    let (least, most) = match random.below(100) {
        0..=49 => (20, 130),
        50..=84 => (130, 250),
        85..=97 => (250, 500),
        _ => (1_000, 2_500),
    };
    least + random.below((most - least) as u64) as usize
}

/// A log of a few records at width 4, for runs that cost one start for each
/// byte.
pub fn short_log(seed: u64, chip: Chip, turn: u64) -> Vec<u8> {
    let mut random = Random::new(seed, turn);
    let first = log::write_transfer(0, 0, 0x20);
    let mut panel = Panel::fresh(chip, Times::USUAL);
    panel.answer(&first);
    let rest = sender::send_log(&mut random, panel, 6);
    let few = log::records(&rest).0.into_iter().take(6);
    first.into_iter().chain(few.flatten().copied()).collect()
}

/// A log for the report: nights of a box in haste.
pub fn night(seed: u64, turn: u64) -> Trial {
    let mut random = Random::new(!seed, turn);
    let target = random.pick(&[5, 100, 400, 400, 800]);
    let (groups, panel) = lend::fresh(&mut random, 15);
    let mut log = sender::send_nights(&mut random, panel, target);
    if random.chance(35) {
        let way = random.below(10);
        log.extend(cut_tail(&mut random, way));
    }
    Trial { groups, log }
}

/// A few records at width 4, each with a line of its own in the report or a
/// part in what is written again.
pub fn short_night() -> Vec<u8> {
    let (instruction, data, status) = (0, 1, 2);
    let mut log = log::write_transfers(&[
        (0, instruction, 0x20), (39, data, 0x50), (38, data, 0x50), (45, data, 0x70), (46, data, 0x50),
        (47, data, 0x70), (60, data, 0x50), (61, status, 0), (62, instruction, 0x80),
    ]);
    log.extend(log::write_reset(63));
    log
}

/// A run that a count of eight or of sixteen bits would take for one of three.
pub fn endless_night() -> Vec<u8> {
    let mut log = log::write_transfer(0, 0, 0x01);
    for n in 0..65_536 + 3 {
        log.extend(log::write_transfer(1 + n / 64, 1, b'A'));
    }
    for n in 0..3 {
        log.extend(log::write_transfer(2_000 + 40 * n, 1, b'A'));
    }
    log
}

/// Every code with a read behind it, sent at this width to a fresh panel.
pub fn codes_before_reads(seed: u64, chip: Chip, width: Width) -> Vec<u8> {
    let mut random = Random::new(seed, u64::MAX - 1);
    sender::send_codes_before_reads(&mut random, Panel::fresh(chip, Times::USUAL), width)
}

/// Data reads, whole or as halves, whatever the width is: behind a half that tears
/// one which waits; behind a reset; at once; and one alone, which may be a half.
pub fn first_reads() -> [Vec<u8>; 4] {
    let read = |time| log::write_transfer(time, 3, 0xFF);
    let reads = |from: u64| (from..).step_by(40).take(4).flat_map(read).collect::<Vec<u8>>();
    let status = log::write_transfer(0, 2, 0xFF);
    [[status, reads(0)].concat(), [log::write_reset(0), reads(65_535)].concat(), reads(0), read(0)]
}

/// A log far longer than any buffer that a program may keep.
pub fn long_log(seed: u64, chip: Chip) -> Vec<u8> {
    let mut random = Random::new(seed, u64::MAX);
    sender::send_log(&mut random, Panel::fresh(chip, Times::USUAL), 20_000)
}

/// Only what the lengths say is looked at: the log is cut, has nothing, or is
/// left as it is.
fn damage_of_a_refused_run(random: &mut Random, log: &mut Vec<u8>) {
    match random.below(10) {
        0 | 1 => log.clear(),
        2 => *log = vec![12],
        3..=6 => {
            let way = random.below(10);
            log.extend(cut_tail(random, way));
        }
        _ => {}
    }
}

fn damage(random: &mut Random, log: &mut Vec<u8>, way: u64) {
    let size = log.len() as u64;
    // Late in the log, for most damage ends the reading.
    let late = (size - random.below(size.clamp(1, 200))) as usize;
    match way {
        0..=9 => log.extend(cut_tail(random, way)),
        10..=13 => log.truncate(late),
        14..=17 if late < log.len() => log[late] ^= 1 << random.below(8),
        18 | 19 if late < log.len() => drop(log.remove(late)),
        20 => log.insert(late, random.byte()),
        21 => *log = Vec::new(),
        22 | 23 => *log = random.bytes(late % 200),
        24 => log.reverse(),
        _ => {}
    }
}

/// Every sort of cut, each at the end of a log.
pub fn cut_tail(random: &mut Random, way: u64) -> Vec<u8> {
    let mut tail = match way {
        0 => return vec![random.byte()],
        1 => vec![0, 0],
        2 => vec![1, 0],
        3 => vec![65, 0],
        4 => vec![0xFF, 0xFF],
        5 => vec![0x0C, 0x01],
        6 => return vec![12, 0],
        7 => return vec![64, 0].into_iter().chain(random.bytes(63)).collect(),
        8 => return vec![12, 0, 1, 0].into_iter().chain(random.bytes(9)).collect(),
        _ => return vec![10, 0, 2, 0].into_iter().chain(random.bytes(3)).collect(),
    };
    // Enough bytes follow, mostly, so that only the length is at fault.
    let enough = match way {
        4 => random.pick(&[400, 66_000]),
        5 => 400,
        _ => 70,
    };
    tail.extend(random.bytes(enough));
    tail
}

#[cfg(test)]
mod tests {
    use super::*;

    #[test]
    fn about_half_of_the_logs_are_for_two_lines() {
        let is_for_two = |trial: &Trial| trial.chip_named() == Some(Chip::TWO_LINES);
        let logs = (0..1_000).filter(|turn| is_for_two(&trial(3, *turn))).count();
        let nights = (0..1_000).filter(|turn| is_for_two(&night(3, *turn))).count();
        assert!((400..600).contains(&logs) && (400..600).contains(&nights), "{logs} {nights}");
    }

    #[test]
    fn what_another_program_hears_of_the_panel() {
        let groups = ["records", "chip 6635", "frame 80", "times 1 2 3"].map(lend::text).to_vec();
        let trial = Trial { groups, log: Vec::new() };
        assert_eq!(trial.fresh_groups(), ["chip 6635", "times 1 2 3"].map(lend::text));
        assert_eq!(trial.chip_named(), Some(Chip::TWO_LINES));
        assert!(trial.gives("times") && !trial.gives("panel"));
    }
}
