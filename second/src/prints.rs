//! The two prints: the thirteen lines of `glazomir`, and all of `trace`, whichever
//! chip the panel has.

use crate::arguments::Lent;
use crate::chip::Counter;
use crate::chips::Chip;
use crate::panel::number::{CUT, UNSOUND};
use crate::panel::{self, Half, Panel, Run, COUNTED};
use crate::picture::{self, Comparison, Painting};
use std::fmt::Write;

/// What the mirror program prints for a log that is sent to this panel.
pub fn glazomir(start: &Panel, log: &[u8]) -> String {
    let mut panel = start.clone();
    let run = panel::run(&mut panel, log);
    let mut print = format!("records {}\n", run.records);
    for ((_, name), count) in COUNTED.into_iter().zip(run.counts) {
        line(&mut print, format_args!("{name} {count}"));
    }
    line(&mut print, format_args!("cut {}", u8::from(run.cut)));
    let word = match panel.sheet.counter {
        Counter::Display(_) => "address",
        Counter::Pattern(_) => "pattern",
    };
    line(&mut print, format_args!("{word} {:02X}", panel.sheet.counter.number()));
    let codes = &panel.sheet.display[..panel.sheet.chip.places()];
    line(&mut print, format_args!("codes {}", spaced(codes)));
    print
}

/// What `trace` prints for a log and what it is lent.
pub fn trace(lent: &Lent, log: &[u8]) -> String {
    let mut panel = lent.panel.clone();
    let run = panel::run(&mut panel, log);
    let mut print = String::new();
    answers(&mut print, &run);
    if run.cut {
        line(&mut print, format_args!("refused {CUT}"));
    }
    line(&mut print, format_args!("records {}", run.records));
    line(&mut print, format_args!("cut {}", u8::from(run.cut)));
    line(&mut print, format_args!("counts {}", run.counts.map(|count| count.to_string()).join(" ")));
    line(&mut print, format_args!("sound {}", u8::from(panel.is_sound())));
    sheet(&mut print, &panel);
    line(&mut print, format_args!("busy {} last {}", panel.busy_end, panel.last));
    line(&mut print, format_args!("half {}", half(panel.half)));
    line(&mut print, format_args!("good {}", u8::from(panel.sheet.good)));
    line(&mut print, format_args!("written {:08X}", panel.sheet.written.number()));
    pictures(&mut print, lent, &panel);
    print
}

/// What `trace` prints where the reading breaks off after these bytes.
pub fn trace_broken_off(lent: &Lent, log: &[u8]) -> String {
    let mut print = String::new();
    if !log.is_empty() {
        answers(&mut print, &panel::run(&mut lent.panel.clone(), log));
    }
    print
}

fn line(print: &mut String, text: std::fmt::Arguments) {
    writeln!(print, "{text}").expect("writing to a string");
}

fn answers(print: &mut String, run: &Run) {
    if run.refused {
        line(print, format_args!("refused {UNSOUND}"));
    }
    for answer in &run.answers {
        line(print, format_args!("{} {:02X}", answer.number, answer.byte));
    }
}

fn sheet(print: &mut String, panel: &Panel) {
    let sheet = &panel.sheet;
    let bit = u8::from;
    line(print, format_args!("chip {}", sheet.chip.0));
    // Of a chip that nobody knows all is shown that there is.
    let shown = if sheet.chip == Chip::ONE_LINE { sheet.chip.places() } else { sheet.display.len() };
    line(print, format_args!("display {}", spaced(&sheet.display[..shown])));
    line(print, format_args!("pattern {}", spaced(&sheet.pattern)));
    let memory = match sheet.counter {
        Counter::Display(_) => "display",
        Counter::Pattern(_) => "pattern",
    };
    line(print, format_args!("counter {memory} {:02X}", sheet.counter.number()));
    line(print, format_args!("shift {}", sheet.shift));
    line(print, format_args!("entry {} {}", bit(sheet.i_d), bit(sheet.s)));
    line(print, format_args!("screen {} {} {}", bit(sheet.d), bit(sheet.c), bit(sheet.b)));
    line(print, format_args!("width {} function {:X}", sheet.width.bits(), sheet.function));
}

fn half(half: Option<Half>) -> String {
    let Some(Half { rs, rw, nibble }) = half else {
        return "none".to_string();
    };
    let ignored = u8::from(nibble.is_none());
    format!("{} {} {ignored} {:X}", u8::from(rs), u8::from(rw), nibble.unwrap_or(0))
}

/// Both paintings, then the comparison of the frames as they then stand.
fn pictures(print: &mut String, lent: &Lent, panel: &Panel) {
    let mut painted = [vec![0xA5; lent.frame_size], vec![0xA5; lent.frame_size]];
    for (k, frame) in painted.iter_mut().enumerate() {
        let outcome = match picture::paint(panel, &lent.font, k == 1, frame) {
            Painting::Lit(lit) => format!("lit {lit}"),
            Painting::Refused(number) => format!("refused {number}"),
        };
        let gap = if frame.is_empty() { "" } else { " " };
        line(print, format_args!("frame {k} {outcome}{gap}{}", hex(frame)));
    }
    let [light, dark] = &painted;
    let (one, other) = match &lent.frames {
        Some((one, other)) => (one, other),
        None => (light, dark),
    };
    match picture::compare(panel.sheet.chip, one, other) {
        Comparison::At { row, column } => line(print, format_args!("differ {row} {column}")),
        Comparison::Same => line(print, format_args!("differ none")),
        Comparison::Refused(number) => line(print, format_args!("differ refused {number}")),
    }
}

/// Upper-case hex without spaces.
pub fn hex(bytes: &[u8]) -> String {
    bytes.iter().map(|byte| format!("{byte:02X}")).collect()
}

/// Upper-case hex with a space between two bytes.
pub fn spaced(bytes: &[u8]) -> String {
    let words: Vec<String> = bytes.iter().map(|byte| format!("{byte:02X}")).collect();
    words.join(" ")
}

#[cfg(test)]
mod tests {
    use super::*;
    use crate::arguments;
    use crate::log;
    use crate::written::Written;

    /// The lines of `trace` for a log, without the panel and the pictures.
    fn lines(lent: &Lent, log: &[u8]) -> Vec<String> {
        let print = trace(lent, log);
        print.lines().take_while(|line| !line.starts_with("chip")).map(str::to_string).collect()
    }

    fn usual() -> Lent {
        arguments::trace(&[]).ok().expect("no words")
    }

    fn unsound() -> Lent {
        let mut lent = usual();
        lent.panel.sheet.shift = 16;
        lent
    }

    #[test]
    fn a_cut_run_says_so_after_its_records() {
        let log = [log::write_transfer(0, 1, 0x41), vec![12]].concat();
        let expected = ["0 00", "refused 8", "records 1", "cut 1", "counts 1 0 0 0 0 0 0 0 0", "sound 1"];
        assert_eq!(lines(&usual(), &log), expected);
        assert_eq!(lines(&usual(), &[12]), ["refused 8", "records 0", "cut 1", "counts 0 0 0 0 0 0 0 0 0", "sound 1"]);
        assert_eq!(lines(&usual(), &[]), ["records 0", "cut 0", "counts 0 0 0 0 0 0 0 0 0", "sound 1"]);
    }

    #[test]
    fn a_refused_run_is_not_cut_and_counts_nothing() {
        let log = [log::write_transfer(0, 1, 0x41), log::write_record(9, &[]), vec![12]].concat();
        for (log, records) in [(&log[..], 2), (&log[..18], 2), (&log[..15], 1), (&[12], 0), (&[], 0)] {
            let expected = ["refused 10", &format!("records {records}"), "cut 0", "counts 0 0 0 0 0 0 0 0 0", "sound 0"];
            assert_eq!(lines(&unsound(), log), expected);
        }
    }

    #[test]
    fn refused_pictures() {
        let print = trace(&Lent { frame_size: 1, ..unsound() }, &[]);
        assert!(print.ends_with("\nframe 0 refused 10 A5\nframe 1 refused 10 A5\ndiffer refused 9\n"));
        let print = trace(&Lent { frame_size: 0, ..usual() }, &[]);
        assert!(print.ends_with("\nframe 0 refused 9\nframe 1 refused 9\ndiffer refused 9\n"));
    }

    #[test]
    fn reading_that_breaks_off_leaves_the_records_lines() {
        let log = [log::write_transfer(0, 1, 0x41), vec![12]].concat();
        assert_eq!(trace_broken_off(&usual(), &log), "0 00\n");
        assert_eq!(trace_broken_off(&usual(), &[]), "");
    }

    #[test]
    fn a_panel_in_pattern_memory_with_a_half() {
        let log = [
            log::write_transfer(0, 0, 0x2B), log::write_transfer(40, 0, 0x50), log::write_transfer(41, 0, 0xE0),
            log::write_transfer(81, 1, 0xD0),
        ]
        .concat();
        let print = trace(&usual(), &log);
        for line in [
            "counter pattern 1E", "width 4 function B", "half 1 0 0 D", "busy 81 last 81", "counts 2 0 2 0 0 0 0 0 0",
            "good 1",
        ] {
            assert!(print.contains(&format!("\n{line}\n")), "{line}");
        }
        assert!(glazomir(&usual().panel, &log).contains("\npattern 1E\ncodes 20 20"));
    }

    #[test]
    fn a_doubtful_read_and_what_it_leaves() {
        let mut log = log::write_transfer(0, 3, 0);
        assert_eq!(lines(&usual(), &log)[..3], ["11 00", "records 1", "cut 0"]);
        assert!(trace(&usual(), &log).contains("\nhalf none\ngood 1\nwritten 00000000\nframe 0 "));
        assert!(glazomir(&usual().panel, &log).starts_with("records 1\ntaken 0\ndoubtful 1\nheld 0\n"));
        log.extend(log::write_transfer(40, 1, 0x41));
        assert!(trace(&usual(), &log).contains("\ncounts 1 1 0 0 0 0 0 0 0\n"));
        assert!(trace(&usual(), &log).contains("\nhalf none\ngood 0\nwritten 00000002\nframe 0 "));
    }

    /// Of a panel that is refused, too, what it says is printed.
    #[test]
    fn whether_a_refused_panel_is_good() {
        for (good, line) in [(false, "good 0"), (true, "good 1")] {
            let mut lent = unsound();
            lent.panel.sheet.good = good;
            let lines = format!("\nhalf none\n{line}\nwritten 00000000\nframe 0 ");
            assert!(trace(&lent, &log::write_transfer(0, 3, 0)).contains(&lines));
        }
    }

    /// The bits as they stand, of a panel that they make unsound too, and of one that
    /// is unsound for another reason.
    #[test]
    fn the_bits_of_a_refused_panel() {
        for (shift, bytes, line) in [
            (0, [1, 0, 0, 0], "written 00000001"), (16, [0, 0, 0, 0x80], "written 80000000"),
            (16, [0; 4], "written 00000000"), (0, [0xEF, 0xCD, 0xAB, 0x89], "written 89ABCDEF"),
        ] {
            let mut lent = usual();
            (lent.panel.sheet.shift, lent.panel.sheet.written) = (shift, Written::from_bytes(bytes));
            let print = trace(&lent, &log::write_reset(0));
            assert!(print.starts_with("refused 10\nrecords 1\ncut 0\n"), "{line}");
            assert!(print.contains("\nsound 0\nchip 31\ndisplay 20 "), "{line}");
            assert!(print.contains(&format!("\ngood 0\n{line}\nframe 0 refused 10 ")), "{line}");
        }
    }

    /// A panel of this chip with 41h at its first place, and frames of its size.
    fn lent_by(chip: u8) -> Lent {
        let mut lent = usual();
        lent.panel.sheet.chip = Chip(chip);
        lent.panel.sheet.store(0, 0x41);
        lent.frame_size = lent.panel.sheet.chip.frame_size();
        lent
    }

    /// The lines `sound` and `chip`, and how many bytes of display memory follow.
    fn chip_and_display(lent: &Lent) -> (String, usize) {
        let print = trace(lent, &[]);
        let lines: Vec<&str> = print.lines().skip_while(|line| !line.starts_with("sound")).collect();
        assert!(lines[2].starts_with("display 41 20 ") && lines[3].starts_with("pattern 00 "));
        (format!("{}, {}", lines[0], lines[1]), lines[2].split(' ').count() - 1)
    }

    #[test]
    fn the_chip_and_as_much_of_display_memory_as_it_has() {
        assert_eq!(chip_and_display(&lent_by(31)), ("sound 1, chip 31".to_string(), 16));
        assert_eq!(chip_and_display(&lent_by(35)), ("sound 1, chip 35".to_string(), 32));
        assert_eq!(chip_and_display(&lent_by(0)), ("sound 0, chip 0".to_string(), 32));
        assert_eq!(chip_and_display(&lent_by(255)), ("sound 0, chip 255".to_string(), 32));
    }

    #[test]
    fn pictures_of_the_other_chips_size() {
        let dots = "A5".repeat(80);
        let print = trace(&Lent { frame_size: 80, ..lent_by(35) }, &[]);
        assert!(print.ends_with(&format!("\nframe 0 refused 9 {dots}\nframe 1 refused 9 {dots}\ndiffer refused 9\n")));
        let dots = "A5".repeat(160);
        let print = trace(&Lent { frame_size: 160, ..lent_by(31) }, &[]);
        assert!(print.ends_with(&format!("\nframe 0 refused 9 {dots}\nframe 1 refused 9 {dots}\ndiffer refused 9\n")));
    }

    #[test]
    fn a_comparison_looks_at_the_chip_and_not_at_the_panel() {
        let dots = "A5".repeat(80);
        for (size, other) in [(80, 80), (160, 160), (0, 200)] {
            let frames = Some((vec![0; size], vec![0; other]));
            let print = trace(&Lent { frames, ..lent_by(34) }, &[]);
            let refused = format!("\nframe 0 refused 10 {dots}\nframe 1 refused 10 {dots}\ndiffer refused 10\n");
            assert!(print.ends_with(&refused), "{size}");
        }
        let mut lent = lent_by(35);
        lent.panel.sheet.shift = 16;
        assert!(trace(&lent, &[]).ends_with("\ndiffer none\n"), "both are as they were lent");
    }

    #[test]
    fn a_refused_run_of_an_unknown_chip() {
        let log = [log::write_transfer(0, 1, 0x41), vec![12]].concat();
        let expected = ["refused 10", "records 1", "cut 0", "counts 0 0 0 0 0 0 0 0 0", "sound 0"];
        assert_eq!(lines(&lent_by(36), &log), expected);
    }
}
