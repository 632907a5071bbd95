//! The busy rule, halves, the order of the answers, soundness and runs, each
//! as the rules say it.

use super::*;

const INSTRUCTION: u8 = 0;
const DATA: u8 = 1;
const STATUS_READ: u8 = 2;
const DATA_READ: u8 = 3;

fn fresh() -> Panel {
    Panel::fresh(Chip::ONE_LINE, Times::USUAL)
}

/// Number and bus byte of the answer to one transfer.
fn send(panel: &mut Panel, time: u64, control: u8, data: u8) -> (u8, u8) {
    let answer = panel.answer(&log::write_transfer(time, control, data));
    (answer.number, answer.byte)
}

/// A panel at width 4, free from 40 on.
fn narrow() -> Panel {
    let mut panel = fresh();
    assert_eq!(send(&mut panel, 0, INSTRUCTION, 0x20), (TAKEN, 0));
    panel
}

fn address(panel: &Panel) -> Counter {
    panel.sheet.counter
}

fn display(at: u8) -> Counter {
    Counter::Display(DisplayAddress(at))
}

#[test]
fn the_busy_end_after_each_kind_of_transfer() {
    for (control, data, wait) in [
        (INSTRUCTION, 0x01, 1_640), (INSTRUCTION, 0x02, 1_640), (INSTRUCTION, 0x03, 1_640), (INSTRUCTION, 0x04, 40),
        (INSTRUCTION, 0x0F, 40), (INSTRUCTION, 0x14, 40), (INSTRUCTION, 0x38, 40), (INSTRUCTION, 0x40, 40),
        (INSTRUCTION, 0x80, 40), (DATA, 0x01, 40), (DATA_READ, 0x01, 40),
    ] {
        let mut panel = fresh();
        panel.sheet.good = true;
        assert_eq!(send(&mut panel, 7, control, data).0, TAKEN);
        assert_eq!((panel.busy_end, panel.last), (7 + wait, 7), "{control} {data:02X}h");
    }
    let mut panel = fresh();
    assert_eq!(panel.answer(&log::write_reset(7)).number, TAKEN);
    assert_eq!((panel.busy_end, panel.last), (10_007, 7));
}

#[test]
fn free_from_the_busy_end_on() {
    let mut panel = fresh();
    send(&mut panel, 100, INSTRUCTION, 0x01);
    for time in [100, 1_739] {
        let busy_end = panel.busy_end;
        assert_eq!(send(&mut panel, time, DATA, 0x57), (IGNORED, 0));
        assert_eq!(panel.busy_end, busy_end, "an ignored transfer starts no busy time");
        assert_eq!((panel.last, panel.sheet.display[0]), (time, 0x20));
    }
    assert_eq!(send(&mut panel, 1_740, DATA, 0x57), (TAKEN, 0));
    assert_eq!((panel.sheet.display[0], panel.busy_end), (0x57, 1_780));
}

#[test]
fn a_status_read_is_never_ignored() {
    let mut panel = fresh();
    send(&mut panel, 0, INSTRUCTION, 0x5B);
    let before = panel.clone();
    assert_eq!(send(&mut panel, 39, STATUS_READ, 0xFF), (STATUS, 0x9B));
    assert_eq!(send(&mut panel, 40, STATUS_READ, 0xFF), (STATUS, 0x1B));
    assert_eq!(panel, Panel { last: 40, ..before });
}

#[test]
fn nothing_takes_no_time() {
    let mut panel = fresh();
    assert_eq!(send(&mut panel, 5, INSTRUCTION, 0x00), (NONE, 0));
    assert_eq!(panel, Panel { last: 5, ..fresh() });
    send(&mut panel, 5, INSTRUCTION, 0x80);
    assert_eq!(send(&mut panel, 44, INSTRUCTION, 0x00), (IGNORED, 0), "busy comes before nothing");
}

#[test]
fn a_reset_is_taken_while_busy_and_keeps_the_times() {
    let mut panel = narrow();
    panel.sheet.pattern[3] = 9;
    send(&mut panel, 39, DATA, 0x50);
    assert!(panel.half.is_some());
    assert_eq!(panel.answer(&log::write_reset(39)), Answer { number: TAKEN, byte: 0 });
    assert_eq!(panel, Panel { last: 39, busy_end: 10_039, ..fresh() });
}

#[test]
fn halves_are_joined() {
    let mut panel = narrow();
    assert_eq!(send(&mut panel, 40, INSTRUCTION, 0x8F), (HELD, 0), "the low bits do not count");
    assert_eq!(panel.half, Some(Half { rs: false, rw: false, nibble: Some(8) }));
    assert_eq!((panel.busy_end, panel.last), (40, 40));
    assert_eq!(send(&mut panel, 41, INSTRUCTION, 0x5F), (TAKEN, 0));
    assert_eq!((address(&panel), panel.busy_end, panel.half), (display(5), 81, None));
}

#[test]
fn free_or_busy_is_decided_at_the_first_half() {
    // Begun one too early: ignored in both halves, and no new pair begins.
    let mut panel = narrow();
    assert_eq!(send(&mut panel, 39, INSTRUCTION, 0x80), (IGNORED, 0));
    assert_eq!(panel.half, Some(Half { rs: false, rw: false, nibble: None }));
    assert_eq!(send(&mut panel, 41, INSTRUCTION, 0x50), (IGNORED, 0));
    assert_eq!((panel.half, address(&panel), panel.busy_end), (None, display(0), 40));
    assert_eq!(send(&mut panel, 42, INSTRUCTION, 0x80), (HELD, 0));
}

#[test]
fn torn_pairs() {
    for first in 0..4 {
        for second in (0..4).filter(|&second| second != first) {
            for begun in [39, 40] {
                let mut panel = narrow();
                send(&mut panel, begun, first, 0x80);
                let before = panel.clone();
                assert_eq!(send(&mut panel, 50, second, 0x50), (TORN, 0), "{first} then {second}");
                assert_eq!(panel, Panel { half: None, last: 50, ..before }, "and it starts no pair");
            }
        }
    }
}

#[test]
fn reads_are_fixed_at_the_first_half() {
    let mut panel = narrow();
    panel.sheet.store(0, 0xA7);
    panel.sheet.good = true;
    assert_eq!(send(&mut panel, 40, DATA_READ, 0xFF), (HELD, 0xA0));
    panel.sheet.store(0, 0x11);
    assert_eq!(send(&mut panel, 60, DATA_READ, 0xFF), (TAKEN, 0x70));
    assert_eq!((address(&panel), panel.busy_end), (display(1), 100));
    // Begun while busy, ended while free: bit 7 is the first half's.
    assert_eq!(send(&mut panel, 99, STATUS_READ, 0), (HELD, 0x80));
    assert_eq!(send(&mut panel, 200, STATUS_READ, 0), (STATUS, 0x10));
    assert_eq!((panel.busy_end, panel.last, panel.half), (100, 200, None));
    // A half that is handed in waits with what was fixed then.
    panel.half = Some(Half { rs: false, rw: true, nibble: Some(9) });
    assert_eq!(send(&mut panel, 200, STATUS_READ, 0), (STATUS, 0x90));
}

#[test]
fn nothing_in_two_halves() {
    let mut panel = narrow();
    assert_eq!(send(&mut panel, 40, INSTRUCTION, 0x0F), (HELD, 0));
    assert_eq!(send(&mut panel, 41, INSTRUCTION, 0x0F), (NONE, 0));
    assert_eq!((panel.half, panel.busy_end, panel.last), (None, 40, 41));
}

#[test]
fn back_and_bad_change_nothing() {
    let mut panel = narrow();
    send(&mut panel, 40, DATA, 0x50);
    let before = panel.clone();
    let backward = [log::write_transfer(39, 0, 0x01), log::write_reset(39)];
    let bad = [
        log::write_transfer(50, 4, 0), log::write_transfer(TIME_LIMIT, 0, 0), log::write_reset(TIME_LIMIT),
        log::write_record(3, &[0; 10]), log::write_record(1, &[0; 8]), log::write_record(2, &[0; 10]),
        // Bad comes before back.
        log::write_transfer(39, 8, 0),
    ];
    for (records, number) in [(&backward[..], BACK), (&bad[..], BAD)] {
        for record in records {
            assert_eq!(panel.answer(record), Answer { number, byte: 0 });
            assert_eq!(panel, before);
        }
    }
    assert_eq!(send(&mut panel, 40, DATA, 0x70), (TAKEN, 0), "at the last time is not back");
    assert_eq!(panel.sheet.display[0], 0x57);
}

#[test]
fn what_is_left_after_a_record_is_left_alone() {
    let two = [log::write_transfer(0, DATA, 0x41), log::write_transfer(40, DATA, 0x42)].concat();
    let mut panel = fresh();
    assert_eq!(panel.answer(&two).number, TAKEN);
    assert_eq!(panel.sheet.display[..2], [0x41, 0x20]);
    for cut in [&[][..], &[12], &two[..13], &[1, 0, 0], &[65, 0]] {
        let before = panel.clone();
        assert_eq!(panel.answer(cut), Answer { number: CUT, byte: 0 });
        assert_eq!(panel, before);
    }
}

/// Changes a sound panel in one way; gives whether it is still sound.
fn sound_with(change: fn(&mut Panel)) -> bool {
    let mut panel = narrow();
    change(&mut panel);
    panel.is_sound()
}

#[test]
fn soundness_at_its_edges() {
    let half = |rs, rw, nibble| Some(Half { rs, rw, nibble });
    assert!(sound_with(|panel| panel.sheet.counter = Counter::Display(DisplayAddress(15))));
    assert!(!sound_with(|panel| panel.sheet.counter = Counter::Display(DisplayAddress(16))));
    assert!(sound_with(|panel| panel.sheet.counter = Counter::Pattern(PatternAddress(31))));
    assert!(!sound_with(|panel| panel.sheet.counter = Counter::Pattern(PatternAddress(32))));
    assert!(sound_with(|panel| panel.sheet.shift = 15) && !sound_with(|panel| panel.sheet.shift = 16));
    assert!(sound_with(|panel| panel.sheet.function = 15) && !sound_with(|panel| panel.sheet.function = 16));
    assert!(sound_with(|panel| panel.sheet.pattern[31] = 31) && !sound_with(|panel| panel.sheet.pattern[31] = 32));
    assert!(sound_with(|panel| panel.last = (1 << 48) - 1) && !sound_with(|panel| panel.last = 1 << 48));
    assert!(sound_with(|panel| panel.busy_end = (1 << 48) + 65_535));
    assert!(!sound_with(|panel| panel.busy_end = (1 << 48) + 65_536));
    for (waiting, is_sound) in [
        (half(true, false, Some(15)), true), (half(true, false, Some(16)), false), (half(false, true, Some(0)), true),
        (half(false, true, None), false), (half(true, true, None), true), (half(false, false, None), true),
    ] {
        let mut panel = narrow();
        panel.half = waiting;
        assert_eq!(panel.is_sound(), is_sound, "{waiting:?}");
        panel.sheet.width = Width::Eight;
        assert!(!panel.is_sound(), "no half waits at width 8");
    }
}

#[test]
fn an_unsound_panel_is_refused_first() {
    let mut panel = fresh();
    panel.sheet.shift = 16;
    let before = panel.clone();
    for bytes in [&[][..], &[12], &log::write_record(9, &[]), &log::write_transfer(0, DATA, 0x41)] {
        assert_eq!(panel.answer(bytes), Answer { number: UNSOUND, byte: 0 });
        assert_eq!(panel, before);
    }
}

#[test]
fn counts_of_a_run() {
    let log = [
        log::write_transfer(0, INSTRUCTION, 0x20), log::write_transfer(39, DATA, 0), log::write_transfer(40, DATA, 0),
        log::write_transfer(40, DATA, 0), log::write_transfer(41, INSTRUCTION, 0), log::write_transfer(41, STATUS_READ, 0),
        log::write_transfer(42, STATUS_READ, 0), log::write_transfer(41, DATA, 0), log::write_record(9, &[]),
        log::write_transfer(50, INSTRUCTION, 0), log::write_transfer(51, INSTRUCTION, 0), vec![12],
    ]
    .concat();
    let mut panel = fresh();
    let report = run(&mut panel, &log);
    let numbers: Vec<u8> = report.answers.iter().map(|answer| answer.number).collect();
    assert_eq!(numbers, [TAKEN, IGNORED, IGNORED, HELD, TORN, HELD, STATUS, BACK, BAD, HELD, NONE]);
    assert_eq!((report.counts, report.records), ([1, 0, 3, 1, 2, 1, 1, 1, 1], 11));
    assert!(report.cut && !report.refused);
    panel.sheet.shift = 16;
    let refused = run(&mut panel, &log);
    assert_eq!((refused.answers.len(), refused.counts, refused.records), (0, [0; 9], 11));
    assert!(!refused.cut && refused.refused);
}
