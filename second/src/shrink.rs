//! Makes a trial that shows something as short as it can be made, so that a
//! reader has little to read.

use crate::generator::Trial;
use crate::log;
use std::time::{Duration, Instant};

/// Shrinking starts the program at each try, so it ends after this long.
const LIMIT: Duration = Duration::from_secs(60);

struct Shrinker<'a> {
    /// The shortest trial so far that shows it.
    trial: Trial,
    shows: &'a dyn Fn(&Trial) -> bool,
    end: Instant,
}

/// Drops groups of words, then records, then bytes, as long as it still shows.
pub fn shrink(trial: Trial, shows: &dyn Fn(&Trial) -> bool) -> Trial {
    let mut shrinker = Shrinker { trial, shows, end: Instant::now() + LIMIT };
    shrinker.drop_groups();
    while shrinker.drop_parts(split_records) {}
    while shrinker.drop_parts(split_bytes) {}
    shrinker.trial
}

/// The records of a log, and the tail that is no record.
fn split_records(log: &[u8]) -> Vec<&[u8]> {
    let mut parts = log::records(log).0;
    let read: usize = parts.iter().map(|part| part.len()).sum();
    if read < log.len() {
        parts.push(&log[read..]);
    }
    parts
}

fn split_bytes(log: &[u8]) -> Vec<&[u8]> {
    log.chunks(1).collect()
}

impl Shrinker<'_> {
    fn has_time(&self) -> bool {
        Instant::now() < self.end
    }

    /// Takes the candidate over if it still shows.
    fn takes(&mut self, candidate: Trial) -> bool {
        let shows = self.has_time() && (self.shows)(&candidate);
        if shows {
            self.trial = candidate;
        }
        shows
    }

    fn drop_groups(&mut self) {
        for at in (0..self.trial.groups.len()).rev() {
            let mut fewer = self.trial.clone();
            fewer.groups.remove(at);
            self.takes(fewer);
        }
    }

    /// Tries to leave out runs of parts, long runs first; says whether it did.
    fn drop_parts(&mut self, split: fn(&[u8]) -> Vec<&[u8]>) -> bool {
        let log = self.trial.log.clone();
        let mut parts = split(&log);
        let mut dropped = false;
        let mut run = parts.len();
        while run > 0 {
            let mut at = parts.len();
            while at > 0 && self.has_time() {
                let from = at.saturating_sub(run);
                let fewer = [&parts[..from], &parts[at..]].concat();
                let candidate = Trial { groups: self.trial.groups.clone(), log: fewer.concat() };
                if self.takes(candidate) {
                    parts = fewer;
                    dropped = true;
                }
                at = from;
            }
            run /= 2;
        }
        dropped
    }
}

#[cfg(test)]
mod tests {
    use super::*;
    use crate::chips::Chip;
    use crate::lend::text;

    #[test]
    fn leaves_the_one_record_that_shows() {
        let wanted = log::write_transfer(7, 1, 0x57);
        let mut log = Vec::new();
        for time in 0..50 {
            log.extend(log::write_transfer(time, 0, 0x80));
        }
        log.extend(&wanted);
        log.extend(log::write_reset(99));
        let trial = Trial::of_chip(Chip::ONE_LINE, log);
        let small = shrink(trial, &|trial| split_records(&trial.log).contains(&&wanted[..]));
        assert_eq!(small.log, wanted);
    }

    /// A difference that two lines alone show keeps the chip and nothing else.
    #[test]
    fn leaves_the_chip_where_it_is_needed() {
        let log = [log::write_transfer(0, 0, 0x9F), log::write_transfer(40, 1, 0x57)].concat();
        let groups = vec![text("records"), text("chip 6635"), text("times 1 2 3"), text("frame 80")];
        let trial = Trial { groups, log: log.clone() };
        let small = shrink(trial, &|trial| trial.chip_named() == Some(Chip::TWO_LINES) && trial.log.len() >= 14);
        assert_eq!((small.groups, small.log.len()), (vec![text("chip 6635")], 14));
    }
}
