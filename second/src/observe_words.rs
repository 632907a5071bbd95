//! Watches what a program is told of its fresh panel, and what `glazomir` shows.

use crate::arguments;
use crate::chip::{Counter, DisplayAddress};
use crate::chips::LINE;
use crate::classes::GLAZOMIR;
use crate::generator::Trial;
use crate::panel::number::{DOUBTFUL, TAKEN};
use crate::panel::{self, Panel};
use crate::reach::Reach;

/// Notes whether chip and times are given to the program with this prefix.
pub fn given(reach: &mut Reach, prefix: &str, trial: &Trial) {
    let class = match (trial.gives("chip"), trial.gives("times")) {
        (true, true) => "chip and times given",
        (true, false) => "chip given",
        (false, true) => "times given",
        (false, false) => "neither chip nor times given",
    };
    reach.note(&format!("{prefix}{class}"));
}

/// The panel that the words ask for, where they are not refused.
pub fn start(reach: &mut Reach, prefix: &str, trial: &Trial, words: &[String]) -> Option<Panel> {
    match arguments::start(words) {
        Err(reason) => {
            reach.note_by_itself(&format!("{prefix}refused: {reason}"));
            None
        }
        Ok(start) => {
            reach.turn_to(start.sheet.chip);
            given(reach, prefix, trial);
            Some(start)
        }
    }
}

/// Notes what one question to `glazomir` reaches.
pub fn glazomir(reach: &mut Reach, trial: &Trial, words: &[String]) {
    let Some(mut panel) = start(reach, GLAZOMIR, trial, words) else { return };
    let run = panel::run(&mut panel, &trial.log);
    let note_if = |reach: &mut Reach, reached, class: &str| reach.note_if(reached, &format!("{GLAZOMIR}{class}"));
    note_if(reach, run.cut, "cut log");
    let [taken, doubtful] = [TAKEN, DOUBTFUL].map(|number| run.counts[panel::count_of(number)]);
    note_if(reach, doubtful > 0, "doubtful reads");
    note_if(reach, doubtful > 0 && doubtful != taken, "another count of doubtful than of taken");
    match panel.sheet.counter {
        Counter::Pattern(_) => note_if(reach, true, "pattern address"),
        Counter::Display(DisplayAddress(at)) => {
            note_if(reach, true, "display address");
            note_if(reach, at > 15, "display address on the second line");
        }
    }
    let is_written = |line: &[u8]| line.iter().any(|&byte| byte != 0x20);
    let (above, below) = panel.sheet.display.split_at(LINE);
    note_if(reach, is_written(above) && is_written(below), "both lines written");
}
