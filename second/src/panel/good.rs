//! Doubtful reads: when the panel answers 11, with which byte, what it does then,
//! and what leaves it alone, each as the wish says it.

use super::*;

const INSTRUCTION: u8 = 0;
const DATA: u8 = 1;
const STATUS_READ: u8 = 2;
const DATA_READ: u8 = 3;

/// A panel of either chip whose next read is good or not, with A7h at address 0.
fn panel(chip: Chip, width: Width, good: bool) -> Panel {
    let mut panel = Panel::fresh(chip, Times::USUAL);
    panel.sheet.store(0, 0xA7);
    (panel.sheet.width, panel.sheet.good) = (width, good);
    panel
}

fn wide(good: bool) -> Panel {
    panel(Chip::ONE_LINE, Width::Eight, good)
}

fn narrow(good: bool) -> Panel {
    panel(Chip::TWO_LINES, Width::Four, good)
}

/// Number and bus byte of the answer to one transfer.
fn send(panel: &mut Panel, time: u64, control: u8, data: u8) -> (u8, u8) {
    let answer = panel.answer(&log::write_transfer(time, control, data));
    (answer.number, answer.byte)
}

fn at_display(panel: &Panel, at: u8) -> bool {
    panel.sheet.counter == Counter::Display(DisplayAddress(at))
}

#[test]
fn a_doubtful_read_does_all_that_a_taken_one_does_but_for_the_byte() {
    for (good, answer) in [(true, (TAKEN, 0xA7)), (false, (DOUBTFUL, 0))] {
        for s in [false, true] {
            let mut panel = wide(good);
            panel.sheet.s = s;
            let mut expected = panel.clone();
            expected.sheet.counter = Counter::Display(DisplayAddress(1));
            (expected.sheet.good, expected.last, expected.busy_end) = (true, 7, 47);
            assert_eq!(send(&mut panel, 7, DATA_READ, 0xFF), answer);
            assert_eq!(panel, expected, "and nothing shifts");
        }
    }
}

#[test]
fn it_moves_the_address_by_the_entry_bit_in_both_memories() {
    for (counter, i_d, after) in [
        (Counter::Display(DisplayAddress(0)), false, Counter::Display(DisplayAddress(15))),
        (Counter::Display(DisplayAddress(15)), true, Counter::Display(DisplayAddress(0))),
        (Counter::Pattern(PatternAddress(0)), false, Counter::Pattern(PatternAddress(31))),
        (Counter::Pattern(PatternAddress(31)), true, Counter::Pattern(PatternAddress(0))),
    ] {
        let mut panel = wide(false);
        panel.sheet.pattern = [0x1F; 32];
        (panel.sheet.counter, panel.sheet.i_d) = (counter, i_d);
        assert_eq!(send(&mut panel, 0, DATA_READ, 0), (DOUBTFUL, 0));
        assert_eq!(panel.sheet.counter, after);
    }
}

#[test]
fn the_next_read_is_good_again() {
    let mut panel = wide(false);
    panel.sheet.store(1, 0xB8);
    assert_eq!(send(&mut panel, 0, DATA_READ, 0), (DOUBTFUL, 0));
    assert_eq!(send(&mut panel, 40, DATA_READ, 0), (TAKEN, 0xB8));
    assert_eq!(send(&mut panel, 80, DATA_READ, 0), (TAKEN, 0x20));
    assert_eq!(send(&mut panel, 120, DATA, 0x41), (TAKEN, 0));
    assert_eq!(send(&mut panel, 160, DATA_READ, 0), (DOUBTFUL, 0));
}

#[test]
fn its_busy_time_and_its_clock_count() {
    let mut panel = wide(false);
    send(&mut panel, 100, DATA_READ, 0);
    assert_eq!(send(&mut panel, 139, INSTRUCTION, 0x85), (IGNORED, 0));
    assert_eq!(send(&mut panel, 138, INSTRUCTION, 0x85), (BACK, 0));
    assert_eq!(send(&mut panel, 140, INSTRUCTION, 0x85), (TAKEN, 0));
    let mut panel = wide(false);
    send(&mut panel, 100, DATA_READ, 0);
    assert_eq!(send(&mut panel, 99, STATUS_READ, 0), (BACK, 0), "it set the last time");
}

#[test]
fn doubtful_comes_last() {
    // Unsound, cut, bad, back, busy: each goes before.
    let read = log::write_transfer(50, DATA_READ, 0);
    let mut unsound = wide(false);
    unsound.sheet.shift = 16;
    assert_eq!(unsound.answer(&read), Answer { number: UNSOUND, byte: 0 });
    let mut panel = wide(false);
    (panel.last, panel.busy_end) = (50, 51);
    for (record, number) in [
        (&read[..13], CUT), (&log::write_transfer(50, 7, 0), BAD), (&log::write_transfer(49, DATA_READ, 0), BACK),
        (&read, IGNORED),
    ] {
        let before = panel.clone();
        assert_eq!(panel.answer(record), Answer { number, byte: 0 });
        assert_eq!(panel, before);
    }
    assert_eq!(send(&mut panel, 51, DATA_READ, 0), (DOUBTFUL, 0));
}

#[test]
fn struck_records_and_display_shifts_leave_it_alone() {
    for good in [false, true] {
        let mut panel = wide(good);
        (panel.busy_end, panel.last) = (100, 60);
        for (time, control, data, number) in [
            (60, DATA, 0x41, IGNORED), (60, INSTRUCTION, 0x80, IGNORED), (61, INSTRUCTION, 0x01, IGNORED),
            (62, DATA_READ, 0, IGNORED), (63, STATUS_READ, 0, STATUS), (62, DATA, 0x41, BACK),
            (62, INSTRUCTION, 0x80, BACK), (70, 4, 0x80, BAD), (100, INSTRUCTION, 0x00, NONE),
            (100, STATUS_READ, 0, STATUS), (100, INSTRUCTION, 0x18, TAKEN), (140, INSTRUCTION, 0x1F, TAKEN),
        ] {
            assert_eq!(send(&mut panel, time, control, data).0, number, "{data:02X}h at {time}");
            assert_eq!(panel.sheet.good, good, "{data:02X}h at {time}");
        }
        assert_eq!(panel.answer(&log::write_reset(139)).number, BACK);
        assert_eq!(panel.sheet.good, good, "a reset back in time");
        assert_eq!(panel.answer(&log::write_reset(180)).number, TAKEN);
        assert!(!panel.sheet.good);
    }
}

#[test]
fn two_halves_of_a_read() {
    for (good, first, nibble, second) in [(true, 0xA0, 7, (TAKEN, 0x70)), (false, 0x00, 0, (DOUBTFUL, 0x00))] {
        let mut panel = narrow(good);
        assert_eq!(send(&mut panel, 40, DATA_READ, 0xFF), (HELD, first));
        assert_eq!(panel.half, Some(Half { rs: true, rw: true, nibble: Some(nibble) }));
        assert_eq!((panel.sheet.good, panel.busy_end), (good, 0), "a half that is held leaves it alone");
        // Neither a record that is back nor one that is bad parts the two.
        assert_eq!(send(&mut panel, 39, DATA, 0x41).0, BACK);
        assert_eq!(send(&mut panel, 40, 4, 0x41).0, BAD);
        assert_eq!(send(&mut panel, 60, DATA_READ, 0xFF), second);
        assert!(at_display(&panel, 1) && panel.half.is_none() && panel.sheet.good);
        assert_eq!((panel.busy_end, panel.last), (100, 60));
    }
}

/// A panel that is handed in may have any half, and is sound; what the panel is
/// as the second half comes decides.
#[test]
fn a_read_half_that_is_handed_in() {
    for nibble in 0..16 {
        for (good, answer) in [(true, (TAKEN, nibble << 4)), (false, (DOUBTFUL, 0))] {
            let mut panel = narrow(good);
            panel.half = Some(Half { rs: true, rw: true, nibble: Some(nibble) });
            assert!(panel.is_sound());
            assert_eq!(send(&mut panel, 0, DATA_READ, 0xFF), answer);
            assert!(at_display(&panel, 1) && panel.half.is_none() && panel.sheet.good);
        }
    }
}

#[test]
fn pairs_that_do_not_come_to_be_leave_it_alone() {
    for good in [false, true] {
        // Torn while held, torn while ignored, ignored in both halves.
        for (busy_end, second, number) in [(0, DATA, TORN), (50, STATUS_READ, TORN), (50, DATA_READ, IGNORED)] {
            let mut panel = narrow(good);
            panel.busy_end = busy_end;
            send(&mut panel, 40, DATA_READ, 0);
            assert_eq!(send(&mut panel, 60, second, 0), (number, 0));
            assert_eq!((panel.sheet.good, panel.half), (good, None));
        }
        let mut panel = narrow(good);
        send(&mut panel, 40, DATA_READ, 0);
        assert_eq!(panel.answer(&log::write_reset(41)).number, TAKEN);
        assert_eq!(send(&mut panel, 10_041, DATA_READ, 0), (DOUBTFUL, 0), "dropped by a reset");
    }
}

#[test]
fn halves_of_writes_act_at_the_second() {
    let mut panel = narrow(true);
    assert_eq!(send(&mut panel, 0, DATA, 0x40), (HELD, 0));
    assert!(panel.sheet.good);
    assert_eq!(send(&mut panel, 1, DATA, 0x10), (TAKEN, 0));
    assert!(!panel.sheet.good);
    assert_eq!(send(&mut panel, 41, INSTRUCTION, 0x80), (HELD, 0));
    assert!(!panel.sheet.good);
    assert_eq!(send(&mut panel, 42, INSTRUCTION, 0x00), (TAKEN, 0));
    assert!(panel.sheet.good);
}

#[test]
fn nine_counts_in_their_order() {
    let answers = [TAKEN, DOUBTFUL, HELD, STATUS, IGNORED, TORN, BACK, BAD, NONE];
    assert_eq!(answers, [0, 11, 1, 2, 3, 4, 5, 6, 7]);
    assert_eq!(answers.map(count_of), [0, 1, 2, 3, 4, 5, 6, 7, 8]);
    let sent = [(0, DATA_READ), (40, DATA_READ), (80, DATA), (120, DATA_READ), (159, DATA_READ)];
    let log = sent.map(|(time, control)| log::write_transfer(time, control, 0)).concat();
    let report = run(&mut wide(false), &log);
    let numbers: Vec<u8> = report.answers.iter().map(|answer| answer.number).collect();
    assert_eq!(numbers, [DOUBTFUL, TAKEN, TAKEN, DOUBTFUL, IGNORED]);
    assert_eq!((report.counts, report.records), ([2, 2, 0, 0, 1, 0, 0, 0, 0], 5));
}
