//! Watches the line `written` of `wall`: which places it names, and how they came to
//! be written.

use crate::classes::WALL;
use crate::log::{self, Message, Transfer};
use crate::observe_written::differs_by_position;
use crate::panel::Panel;
use crate::reach::Reach;
use crate::wall::{self, Asked, Form, Shown};

fn note_if(reach: &mut Reach, reached: bool, class: &str) {
    reach.note_if(reached, &format!("{WALL}{class}"));
}

/// Notes what the line shows, which is there with `ascii` alone.
pub fn written(reach: &mut Reach, asked: &Asked, shown: &Shown, log: &[u8]) {
    let sheet = &shown.panel.sheet;
    let (places, own) = (sheet.written.places(), sheet.chip.places());
    if asked.form == Form::Bitmap {
        return note_if(reach, !places.is_empty(), "bitmap with places written");
    }
    note_if(reach, places.is_empty(), "no place written");
    note_if(reach, places.len() == 1, "one place written");
    note_if(reach, places.len() == own, "all places written");
    note_if(reach, places.first() == Some(&0), "the first place written");
    note_if(reach, places.last() == Some(&(own - 1)), "the last place written");
    note_if(reach, places.iter().any(|place| place % 16 > 9), "an address with a letter");
    note_if(reach, differs_by_position(sheet), "other places by position");
    note_if(reach, !sheet.d && !places.is_empty(), "places written with D off");
    note_if(reach, places.is_empty() && sheet.pattern != [0; 32], "places written in pattern memory alone");
    let at_end = wall::shown(&asked.start, log, None).panel.sheet.written;
    note_if(reach, at_end != sheet.written, "other places at the end of the log");
    let records = log::records(log).0;
    let before = shown.before.unwrap_or(records.len());
    history(reach, &asked.start, &records[..before]);
}

/// Notes in which order places were written, and what became a space again and is
/// one still.
fn history(reach: &mut Reach, start: &Panel, records: &[&[u8]]) {
    let mut panel = start.clone();
    // Places in the order in which they were written, and those spaced over since.
    let (mut order, mut over): (Vec<usize>, Vec<usize>) = (Vec::new(), Vec::new());
    let mut is_cleared = false;
    for record in records {
        let before = panel.sheet.written.places();
        panel.answer(record);
        let after = panel.sheet.written.places();
        let is_write = matches!(log::message(record), Some(Message::Transfer(Transfer { rs: true, .. })));
        let is_reset = matches!(log::message(record), Some(Message::Reset { .. }));
        order.retain(|place| after.contains(place));
        over.retain(|place| !after.contains(place));
        order.extend(after.iter().filter(|place| !before.contains(place)));
        if is_write {
            over.extend(before.iter().filter(|place| !after.contains(place)));
        }
        is_cleared = after.is_empty() && (is_cleared || !before.is_empty() && !is_write && !is_reset);
    }
    note_if(reach, !order.is_sorted(), "a higher place written before a lower one");
    note_if(reach, !over.is_empty(), "20h over a written place");
    note_if(reach, is_cleared, "Clear of written places");
}
