//! The classes of the report. Its print does not depend on the chip, and so is
//! wanted of both.

use super::{owned, reads};

/// The codes at the ends of each instruction's range, as the report names them.
const CODES: [&str; 18] = [
    "code 00h nothing", "code 01h Clear", "code 02h Home", "code 03h Home", "code 04h Entry-mode",
    "code 07h Entry-mode", "code 08h Display-bits", "code 0Fh Display-bits", "code 10h Cursor-move",
    "code 17h Cursor-move", "code 18h Display-shift", "code 1Fh Display-shift", "code 20h Function-Set",
    "code 3Fh Function-Set", "code 40h Pattern-address", "code 7Fh Pattern-address",
    "code 80h Display-address", "code FFh Display-address",
];

const LINES: [&str; 31] = [
    "none instruction-write, whole", "none instruction-write, pair", "back instruction-write, whole",
    "back instruction-write, half", "back data-write, whole", "back data-write, half", "back status-read",
    "back data-read", "back reset", "bad: kind", "bad: kind 0", "bad: kind 3", "bad: kind 65535",
    "bad: length of kind 1", "bad: length of kind 2", "bad: length 2", "bad: length 64",
    "bad: length, late too", "bad: late-time of kind 1", "bad: late-time of kind 2",
    "bad: late-time, a stray bit too", "bad: stray-control", "data 00h -", "data 1Fh -", "data 20h space",
    "data 21h !", "data 7Eh ~", "data 7Fh -", "data FFh -", "a line before that of an earlier record",
    "a held half dropped by a reset has no line",
];

const TIMES: [&str; 4] = ["time 0", "time 2^48 - 1", "99 hours", "100 hours"];

const AGAIN: [&str; 27] = [
    "runs, and none written again", "several written again", "written again, m the length",
    "written again, m less than the length", "written again, m 1 of more", "written again, a run of 1",
    "written again, a run of 2", "written again, a run of 255", "written again, a run of 256",
    "written again, a shorter m does not divide", "written again at width 8", "written again at width 4",
    "ignored at width 8, taken at width 4", "ignored at width 4, taken at width 8",
    "written again, both widths in one line", "written again after a run that was not",
    "written again after a run too long", "too long by one", "too long by more",
    "too long, and then its bytes", "too long at the end of the log", "not again: bytes differ",
    "not again: the first byte differs alone", "not again: the last byte differs alone",
    "not again: m does not divide", "not again: an ignored write first", "not again: the log ends first",
];

const AMONG: [&str; 15] = [
    "reset", "status read", "instruction taken", "instruction ignored", "data read taken", "data read doubtful",
    "data read ignored", "bad", "back", "data write back", "torn", "data write torn",
    "torn by a data write", "none", "a half that a reset drops",
];

pub fn of_every_chip() -> Vec<String> {
    let writes_and_reads = ["instruction-write", "data-write", "data-read", "status-read"];
    let mut all = Vec::new();
    for what in &writes_and_reads[..3] {
        for how in ["whole", "pair", "half dropped by a reset", "half at the end", "half at a cut"] {
            all.push(format!("ignored {what}, {how}"));
        }
    }
    for first in writes_and_reads {
        for second in writes_and_reads.iter().filter(|&&second| second != first) {
            all.push(format!("held {first} torn-by-{second}"));
            if first != "status-read" {
                all.push(format!("ignored {first} torn-by-{second}"));
            }
        }
    }
    let lists: [&[&str]; 5] = [&CODES, &LINES, &TIMES, &AGAIN, &reads::OF_REPORT];
    all.extend(owned(&lists.concat()));
    all.extend(AMONG.map(|class| format!("among the writes: {class}")));
    all
}
