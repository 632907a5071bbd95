//! Cases of the two-line chip, from a fresh panel of the usual times, worked out
//! by hand from the rules. Some are of both chips, side by side.

use super::{at_display, answered, case, forty_apart, fresh, numbers, painted, Case, DATA, DATA_READ, INSTRUCTION, STATUS};
use crate::arguments;
use crate::chips::Chip;
use crate::log;
use crate::panel::{Panel, Run};
use crate::picture::Painting;
use crate::prints;

pub fn all() -> Vec<Case> {
    let mut all = addresses();
    all.extend(shifts_and_settings());
    all.extend(resets_and_reads());
    all.extend(pictures());
    all.extend(prints());
    all
}

fn two(name: &'static str, log: Vec<u8>, holds: fn(&Panel, &Run, &[u8]) -> bool) -> Case {
    Case { chip: Chip::TWO_LINES, ..case(name, log, holds) }
}

fn addresses() -> Vec<Case> {
    let write = (DATA, 0x41);
    vec![
        two("2F: 8Fh, a write", forty_apart(&[(INSTRUCTION, 0x8F), write]), |panel, _, _| {
            at_display(&panel.sheet, 0x10) && panel.sheet.display[0x0F] == 0x41
        }),
        two("9Fh, a write", forty_apart(&[(INSTRUCTION, 0x9F), write]), |panel, _, _| {
            at_display(&panel.sheet, 0x00) && panel.sheet.display[0x1F] == 0x41
        }),
        two("2G: 04h, a write", forty_apart(&[(INSTRUCTION, 0x04), write]), |panel, _, _| {
            at_display(&panel.sheet, 0x1F) && panel.sheet.display[0x00] == 0x41
        }),
        two("04h, 90h, a write", forty_apart(&[(INSTRUCTION, 0x04), (INSTRUCTION, 0x90), write]), |panel, _, _| {
            at_display(&panel.sheet, 0x0F) && panel.sheet.display[0x10] == 0x41
        }),
        two("A5h", forty_apart(&[(INSTRUCTION, 0xA5)]), |panel, _, _| at_display(&panel.sheet, 0x05)),
        two("B5h", forty_apart(&[(INSTRUCTION, 0xB5)]), |panel, _, _| at_display(&panel.sheet, 0x15)),
        two("C0h", forty_apart(&[(INSTRUCTION, 0xC0), write]), |panel, _, _| {
            at_display(&panel.sheet, 0x01) && panel.sheet.display[0x00] == 0x41
        }),
        case("B5h on one line", forty_apart(&[(INSTRUCTION, 0xB5)]), |panel, _, _| at_display(&panel.sheet, 0x05)),
    ]
}

fn shifts_and_settings() -> Vec<Case> {
    let entry = [(INSTRUCTION, 0x90), (INSTRUCTION, 0x07), (DATA, 0x41)];
    let moved = [(INSTRUCTION, 0x90), (DATA, 0x41), (INSTRUCTION, 0x18), (INSTRUCTION, 0x14)];
    vec![
        two("2I: 90h, 07h, a write", forty_apart(&entry), |panel, _, _| {
            at_display(&panel.sheet, 0x11) && panel.sheet.shift == 1 && panel.sheet.display[0x10] == 0x41
        }),
        two("03h after moves", forty_apart(&[&moved[..], &[(INSTRUCTION, 0x03)]].concat()), |panel, run, _| {
            let mut home = fresh(Chip::TWO_LINES).sheet;
            home.store(0x10, 0x41);
            // It comes at 160, and is as long as Home.
            numbers(run) == [0; 5] && panel.sheet == home && panel.busy_end == 160 + 1_640
        }),
        two(
            "3Eh after moves",
            forty_apart(&[&[(INSTRUCTION, 0x0E)], &moved[..], &[(INSTRUCTION, 0x3E)]].concat()),
            |panel, _, _| {
                let mut without = panel.clone();
                without.sheet.function = 0;
                at_display(&panel.sheet, 0x12)
                    && (panel.sheet.shift, panel.sheet.function) == (1, 0x0E)
                    && painted(panel) == painted(&without)
            },
        ),
    ]
}

fn resets_and_reads() -> Vec<Case> {
    let both_lines = forty_apart(&[(DATA, 0x41), (INSTRUCTION, 0x90), (DATA, 0x42)]);
    // The address is set after the width, or the read would be doubtful.
    let narrow = [
        (INSTRUCTION, 0x20), (INSTRUCTION, 0x90), (INSTRUCTION, 0xB0), (STATUS, 0), (STATUS, 0), (DATA_READ, 0),
        (DATA_READ, 0), (STATUS, 0),
    ];
    vec![
        two("a reset of both lines", [both_lines, log::write_reset(120)].concat(), |panel, run, _| {
            numbers(run) == [0; 4] && *panel == Panel { last: 120, busy_end: 10_120, ..fresh(Chip::TWO_LINES) }
        }),
        two("status at 1Bh, width 8", forty_apart(&[(INSTRUCTION, 0x9B), (STATUS, 0)]), |_, run, _| {
            numbers(run) == [0, 2] && run.answers[1].byte == 0x1B
        }),
        two("status and data at 1Bh, width 4", forty_apart(&narrow), |panel, run, _| {
            let expected =
                [(0, 0), (1, 0), (0, 0), (1, 0x10), (2, 0xB0), (1, 0x20), (0, 0x00), (1, 0x10)];
            answered(run, &expected) && at_display(&panel.sheet, 0x1C)
        }),
    ]
}

/// Whether all bytes of a frame are 0 but these.
fn only(frame: &[u8], lit: &[(usize, u8)]) -> bool {
    let mut expected = vec![0; frame.len()];
    for &(at, byte) in lit {
        expected[at] = byte;
    }
    frame == expected
}

fn pictures() -> Vec<Case> {
    let pattern_address = forty_apart(&[(INSTRUCTION, 0x0E), (INSTRUCTION, 0x53)]);
    // The eight rows of pattern 1, shown by code 01h at 10h, one place to the left.
    let rows: Vec<(u8, u8)> = (0x11..=0x18).map(|row| (DATA, row)).collect();
    let shown = [(INSTRUCTION, 0x0C), (INSTRUCTION, 0x90), (DATA, 0x01), (INSTRUCTION, 0x18)];
    let pattern = forty_apart(&[&[(INSTRUCTION, 0x48)], &rows[..], &shown].concat());
    vec![
        two("2L: 0Eh", forty_apart(&[(INSTRUCTION, 0x0E)]), |panel, _, _| {
            let (painting, frame) = painted(panel);
            painting == Painting::Lit(5) && frame.len() == 160 && only(&frame, &[(70, 0xF8)])
        }),
        // Position 3 is the columns 15 to 19: the last dot of one byte and four of the next.
        two("0Eh, 53h", pattern_address.clone(), |panel, _, _| {
            let (painting, frame) = painted(panel);
            painting == Painting::Lit(5) && frame.len() == 160 && only(&frame, &[(151, 0x01), (152, 0xF0)])
        }),
        case("0Eh, 53h on one line", pattern_address, |panel, _, _| {
            let (painting, frame) = painted(panel);
            painting == Painting::Lit(5) && frame.len() == 80 && only(&frame, &[(71, 0x01), (72, 0xF0)])
        }),
        // Position 15 is the low five bits of a row's last byte.
        two("a pattern at 10h, 18h", pattern, |panel, _, _| {
            let rows: Vec<(usize, u8)> = (8..16).zip(0x11..=0x18).map(|(row, dots)| (10 * row + 9, dots)).collect();
            only(&painted(panel).1, &rows)
        }),
    ]
}

fn prints() -> Vec<Case> {
    let log = forty_apart(&[(DATA, 0x57), (INSTRUCTION, 0x9F), (DATA, 0x58), (INSTRUCTION, 0x91)]);
    vec![
        two("2M: an empty log", Vec::new(), |panel, run, _| {
            run.counts == [0; 9] && !run.cut && *panel == fresh(Chip::TWO_LINES)
        }),
        two("both lines, glazomir", log.clone(), |panel, _, log| {
            prints::glazomir(&fresh(panel.sheet.chip), log) == GLAZOMIR
        }),
        two("both lines, trace", log, |_, _, log| {
            let words = ["chip", "6635"].map(str::to_string);
            let lent = arguments::trace(&words).expect("a chip");
            let dots = "00".repeat(160);
            let print = format!("{TRACE}frame 0 lit 0 {dots}\nframe 1 lit 0 {dots}\ndiffer none\n");
            prints::trace(&lent, log) == print
        }),
    ]
}

const GLAZOMIR: &str = "\
records 4
taken 4
doubtful 0
held 0
status 0
ignored 0
torn 0
back 0
bad 0
none 0
cut 0
address 11
codes 57 20 20 20 20 20 20 20 20 20 20 20 20 20 20 20 20 20 20 20 20 20 20 20 20 20 20 20 20 20 20 58
";

const TRACE: &str = "\
0 00
0 00
0 00
0 00
records 4
cut 0
counts 4 0 0 0 0 0 0 0 0
sound 1
chip 35
display 57 20 20 20 20 20 20 20 20 20 20 20 20 20 20 20 20 20 20 20 20 20 20 20 20 20 20 20 20 20 20 58
pattern 00 00 00 00 00 00 00 00 00 00 00 00 00 00 00 00 00 00 00 00 00 00 00 00 00 00 00 00 00 00 00 00
counter display 11
shift 0
entry 1 0
screen 0 0 0
width 8 function 0
busy 160 last 120
half none
good 1
written 80000001
";
