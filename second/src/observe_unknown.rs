//! Watches panels of no known chip: each call must refuse them, whatever else
//! they are and are lent.

use crate::arguments::Lent;
use crate::chips::Chip;
use crate::generator::Trial;
use crate::log;
use crate::panel::Panel;
use crate::reach::Reach;

fn note_if(reach: &mut Reach, reached: bool, class: &str) {
    if reached {
        reach.note_by_itself(&format!("unknown chip: {class}"));
    }
}

/// Notes what such a panel is lent; the faults are all that it has.
pub fn lent(reach: &mut Reach, trial: &Trial, lent: &Lent, faults: &[&str]) {
    reach.note_by_itself(&format!("unknown chip {}", lent.panel.sheet.chip.0));
    note_if(reach, is_sound_as(&lent.panel, Chip::ONE_LINE), "sound as one line");
    note_if(reach, is_sound_as(&lent.panel, Chip::TWO_LINES), "sound as two lines");
    note_if(reach, faults.len() > 1, "unsound in another way too");
    note_if(reach, trial.chip_named().is_some(), "a chip among the words");
    note_if(reach, trial.gives("records"), "by records");
    let (records, cut) = log::records(&trial.log);
    note_if(reach, !records.is_empty(), "10 over records");
    note_if(reach, trial.log.is_empty(), "10 on an empty log");
    note_if(reach, cut, "10 with a cut log");
    let size = |size: usize| match size {
        80 | 160 => size.to_string(),
        _ => "another size".to_string(),
    };
    note_if(reach, true, &format!("frame of {}", size(lent.frame_size)));
    if let Some((one, other)) = &lent.frames {
        match (one.len(), other.len()) {
            (80, 80) => note_if(reach, true, "frames of 80"),
            (160, 160) => note_if(reach, true, "frames of 160"),
            _ => note_if(reach, true, "frames of other sizes"),
        }
    }
}

/// Whether the chip's number alone is at fault.
fn is_sound_as(panel: &Panel, chip: Chip) -> bool {
    let mut known = panel.clone();
    known.sheet.chip = chip;
    known.is_sound()
}
