//! Tests of the pictures of `live`, by hand from docs/WALL.md.

use super::*;
use crate::chips::Chip;
use crate::log::write_transfers;
use crate::panel::Times;
use crate::wall::{print, Form};

fn asked(chip: Chip) -> Asked {
    Asked { live: true, ..Asked::plainly(Form::Ascii, Panel::fresh(chip, Times::USUAL)) }
}

fn printed(asked: &Asked, log: &[u8]) -> String {
    String::from_utf8(print(asked, &crate::cases::wall_font(), log)).expect("text")
}

/// The three last lines of the only picture of a log.
fn last_lines(log: &[u8]) -> Vec<String> {
    let print = printed(&asked(Chip::ONE_LINE), log);
    assert_eq!(print.lines().count(), 17, "one picture");
    print.lines().skip(14).map(str::to_string).collect()
}

/// Bad records of so many bytes together, which is a multiple of 64.
fn filler(size: usize) -> Vec<u8> {
    log::write_record(9, &[0; 60]).repeat(size / 64)
}

/// In each of these reads, which fit exactly, these transfers and then filler.
fn in_reads(reads: &[&[(u64, u8, u8)]]) -> Vec<u8> {
    let mut log = Vec::new();
    for transfers in reads {
        let mut read = write_transfers(transfers);
        let short = (64 - read.len() % 64) % 64;
        // A record has four bytes at least.
        read.extend(if short == 0 { Vec::new() } else { log::write_record(9, &vec![0; (short + 60) % 64]) });
        read.extend(filler(READ - read.len()));
        assert_eq!(read.len(), READ);
        log.extend(read);
    }
    log
}

/// The line that begins so of each picture.
fn each(print: &str, name: &str) -> Vec<String> {
    print.lines().filter_map(|line| line.strip_prefix(name)).map(str::to_string).collect()
}

#[test]
fn a_picture_whole() {
    let mut log = write_transfers(&[(0, 0, 0x0E), (40, 1, 0x57), (11_520_000_850, 2, 0)]);
    log.extend(log::write_record(9, &[]));
    let apart = Asked { live: false, apart: true, ..asked(Chip::ONE_LINE) };
    let three = "\
clock 03:12:00.000850
answers taken 2 doubtful 0 held 0 status 1 ignored 0 torn 0 back 0 bad 1 none 0
last transfer status
";
    assert_eq!(printed(&asked(Chip::ONE_LINE), &log), printed(&apart, &log) + three);
    let two = printed(&asked(Chip::TWO_LINES), &log);
    assert_eq!(two, printed(&Asked { live: false, apart: true, ..asked(Chip::TWO_LINES) }, &log) + three);
    assert_eq!(two.lines().count(), 19 + 6 + 3);
}

#[test]
fn an_empty_log_has_a_picture() {
    let none = "answers taken 0 doubtful 0 held 0 status 0 ignored 0 torn 0 back 0 bad 0 none 0";
    for log in [&[][..], &[12]] {
        assert_eq!(last_lines(log), ["clock 00:00:00.000000", none, "last transfer -"]);
    }
    let asked = asked(Chip::ONE_LINE);
    assert_eq!(print_broken_off(&asked, &crate::cases::wall_font(), &[]), "");
    assert_ne!(print_broken_off(&asked, &crate::cases::wall_font(), &[12]), "");
}

/// Neither a reset nor a bad record is a transfer; one that is back is, and moves no
/// clock.
#[test]
fn the_last_transfer_and_the_clock() {
    let taken = write_transfers(&[(1_000_000, 0, 0x0E)]);
    let after = |rest: Vec<u8>| [taken.clone(), rest].concat();
    let narrow = [(1_000_040, 0, 0x20), (1_000_080, 1, 0x50), (1_000_081, 0, 0)];
    for (log, clock, last) in [
        (taken.clone(), "00:00:01.000000", "taken"),
        (log::write_reset(7), "00:00:00.000007", "-"),
        (log::write_record(1, &[0; 8]), "00:00:00.000000", "-"),
        (log::write_transfer(1 << 48, 1, 0x57), "00:00:00.000000", "-"),
        (after(log::write_reset(2_000_000)), "00:00:02.000000", "taken"),
        (after(log::write_reset(999_999)), "00:00:01.000000", "taken"),
        (after(log::write_transfer(2_000_000, 4, 0)), "00:00:01.000000", "taken"),
        (after(log::write_transfer(999_999, 1, 0x57)), "00:00:01.000000", "back"),
        (after(log::write_transfer(1_000_039, 1, 0x57)), "00:00:01.000039", "ignored"),
        (after(log::write_transfer(1_000_040, 0, 0x00)), "00:00:01.000040", "none"),
        (after(log::write_transfer(1_000_040, 3, 0x00)), "00:00:01.000040", "doubtful"),
        (after(write_transfers(&narrow[..2])), "00:00:01.000080", "held"),
        (after(write_transfers(&narrow)), "00:00:01.000081", "torn"),
    ] {
        let lines = last_lines(&log);
        assert_eq!(lines[0], format!("clock {clock}"));
        assert_eq!(lines[2], format!("last transfer {last}"), "{clock}");
    }
}

#[test]
fn where_reads_end() {
    for (size, ends) in [
        (0, &[0][..]), (1, &[1]), (32_767, &[32_767]), (32_768, &[32_768]), (32_769, &[32_768, 32_769]),
        (65_536, &[32_768, 65_536]), (65_537, &[32_768, 65_536, 65_537]),
    ] {
        let log = vec![0; size];
        assert_eq!(reads(&log).into_iter().map(<[u8]>::len).collect::<Vec<_>>(), ends, "{size}");
    }
}

/// Five reads, of which the third and the fifth change nothing above the clock; the
/// counts and clocks are those of the reads that have a picture.
#[test]
fn a_picture_for_each_read_that_changes_something() {
    let log = in_reads(&[
        &[(0, 0, 0x0E)], &[(40, 1, 0x57)], &[(80, 2, 0), (90, 2, 0)], &[(130, 1, 0x58)], &[(170, 2, 0)],
    ]);
    let print = printed(&asked(Chip::ONE_LINE), &log);
    assert_eq!(each(&print, "text "), ["|                |", "|W               |", "|WX              |"]);
    assert_eq!(each(&print, "clock "), ["00:00:00.000000", "00:00:00.000040", "00:00:00.000130"]);
    assert_eq!(each(&print, "last transfer "), ["taken", "taken", "taken"]);
    let statuses = each(&print, "answers ").iter().map(|line| line.contains(" status 2 ")).collect::<Vec<_>>();
    assert_eq!(statuses, [false, false, true]);
}

/// A record that a read breaks off is no part of its picture.
#[test]
fn a_record_in_two_reads() {
    let mut log = filler(READ - 64);
    log.extend(log::write_record(9, &[0; 47]));
    log.extend(write_transfers(&[(0, 1, 0x57)]));
    assert_eq!(log.len(), READ + 1);
    assert_eq!(each(&printed(&asked(Chip::ONE_LINE), &log), "text "), ["|                |", "|W               |"]);
    assert_eq!(each(&printed(&asked(Chip::ONE_LINE), &log[..READ]), "text "), ["|                |"]);
    // Behind a cut nothing is a record, however much is read.
    let cut = [vec![1, 0], log].concat();
    assert_eq!(each(&printed(&asked(Chip::ONE_LINE), &cut), "text "), ["|                |"]);
}

/// How many pictures a log has in which the second read does this, after D, C and B.
fn pictures(asked: &Asked, screen: u8, second: &[(u64, u8, u8)]) -> usize {
    let first = [(0, 0, 0x08 | screen), (40, 0, 0x40), (80, 1, 0x1F), (120, 0, 0x80), (160, 1, 0x57), (200, 1, 0x08)];
    each(&printed(asked, &in_reads(&[&first, second])), "clock ").len()
}

#[test]
fn what_changes_a_picture_and_what_does_not() {
    let plain = asked(Chip::ONE_LINE);
    let pattern = |entry: u8| [(300, 0, 0x40 | entry), (340, 1, 0x15), (380, 0, 0x82)];
    for (screen, second, expected) in [
        (6, &[(300, 2, 0)][..], 1),
        // The cursor where its line shows it, though no dot does: B alone, light.
        (6, &[(300, 0, 0x83)], 2), (5, &[(300, 0, 0x83)], 2), (4, &[(300, 0, 0x83)], 1), (3, &[(300, 0, 0x83)], 1),
        // Pattern 0 is shown, pattern 1 is not; with D off none is.
        (4, &pattern(0), 2), (4, &pattern(8), 1), (0, &pattern(0), 1),
        // The text with D off, and with a change that is undone.
        (0, &[(300, 1, 0x41)], 2), (4, &[(300, 1, 0x41), (340, 0, 0x82), (380, 1, 0x20)], 1),
        // The mode, with dots lit and with none.
        (4, &[(300, 0, 0x31)], 2), (0, &[(300, 0, 0x31)], 1), (4, &[(300, 0, 0x3E)], 1),
    ] {
        assert_eq!(pictures(&plain, screen, second), expected, "{screen} {second:X?}");
    }
    let upright = Asked { upright: true, ..asked(Chip::ONE_LINE) };
    assert_eq!(pictures(&upright, 4, &[(300, 0, 0x31)]), 1);
}

/// The same dots, text and codes from other addresses: the line `written` is above
/// the clock too.
#[test]
fn other_places_that_show_the_same() {
    let log = in_reads(&[
        &[(0, 0, 0x0C), (40, 1, 0x57)], &[(3_000, 0, 0x01), (6_000, 0, 0x18), (6_040, 0, 0x81), (6_080, 1, 0x57)],
    ]);
    let print = printed(&asked(Chip::ONE_LINE), &log);
    assert_eq!(each(&print, "text "), ["|W               |", "|W               |"]);
    assert_eq!(each(&print, "written "), ["00", "01"]);
}

/// What stood there before the last picture is printed anew.
#[test]
fn there_and_back() {
    let log = in_reads(&[&[(0, 0, 0x0E)], &[(40, 0, 0x81)], &[(80, 0, 0x80)]]);
    assert_eq!(each(&printed(&asked(Chip::ONE_LINE), &log), "cursor "), ["0", "1", "0"]);
}
