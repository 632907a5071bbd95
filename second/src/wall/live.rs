//! The pictures of `live`: one after the first read, and one after each further read
//! that has changed what stands above the line `clock`. docs/WALL.md says it, in
//! "As the log comes".

use super::{Asked, Glass};
use crate::log::{self, Message};
use crate::panel::{self, count_of, Panel, COUNTED};
use crate::report::page;

/// A read of a file brings as many bytes until the file ends.
pub const READ: usize = 32_768;

/// All that has come by the end of each read. An empty log is read once.
pub fn reads(log: &[u8]) -> Vec<&[u8]> {
    (READ..log.len()).step_by(READ).chain([log.len()]).map(|end| &log[..end]).collect()
}

/// What there is to be shown after a read: no record that is still to be finished.
pub struct Seen {
    pub panel: Panel,
    pub counts: [u64; COUNTED.len()],
    /// The answer to the last transfer.
    pub last_transfer: Option<u8>,
}

impl Seen {
    pub fn after(start: &Panel, read: &[u8]) -> Seen {
        let mut panel = start.clone();
        let run = panel::run(&mut panel, read);
        let is_transfer = |record: &[u8]| matches!(log::message(record), Some(Message::Transfer(_)));
        let answered = log::records(read).0.into_iter().zip(run.answers);
        let last_transfer = answered.filter(|(record, _)| is_transfer(record)).last().map(|(_, answer)| answer.number);
        Seen { panel, counts: run.counts, last_transfer }
    }

    /// The three lines from `clock` on.
    fn lines(&self) -> String {
        let name = |number| COUNTED[count_of(number)].1;
        let named = COUNTED.iter().zip(self.counts);
        let counts: String = named.map(|((_, name), count)| format!(" {name} {count}")).collect();
        let last_transfer = self.last_transfer.map_or("-", name);
        format!("clock {}\nanswers{counts}\nlast transfer {last_transfer}\n", page::clock(self.panel.last))
    }
}

/// All pictures of a log that is read from a file.
pub fn print(asked: &Asked, font: &[u8], log: &[u8]) -> String {
    let mut print = String::new();
    let mut stands = None;
    for read in reads(log) {
        let seen = Seen::after(&asked.start, read);
        let glass = Glass::of(asked, font, &seen.panel);
        if stands.as_ref() != Some(&glass) {
            print += &glass.print(asked);
            print += &seen.lines();
            stands = Some(glass);
        }
    }
    print
}

/// What is printed where reading fails after these bytes: none were read, none shown.
pub fn print_broken_off(asked: &Asked, font: &[u8], log: &[u8]) -> String {
    if log.is_empty() { String::new() } else { print(asked, font, log) }
}

#[cfg(test)]
mod tests;
