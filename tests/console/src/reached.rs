//! What random scripts have to reach: every answer that a command can get, every kind of bad line, turns of note.

use crate::report::Report;
use crate::second::Marks;

/// Commands, with all answers that each can get.
const ANSWERS: [(&str, &[&str]); 12] = [
    ("start", &["accepted", "22 nowhere"]),
    (
        "upload",
        &[
            "accepted", "3 entry", "3 record", "8 nowhere", "12 nowhere", "12 section", "17 nowhere", "22 nowhere",
            "22 section", "22 entry", "22 record", "34 entry", "34 record", "95 section", "95 entry",
        ],
    ),
    ("get", &["accepted", "2 nowhere", "22 nowhere"]),
    ("list", &["accepted"]),
    ("unload", &["accepted", "2 nowhere", "16 nowhere", "22 nowhere"]),
    ("revert", &["accepted", "2 nowhere", "16 nowhere", "22 nowhere", "33 nowhere"]),
    ("apply", &["accepted", "2 nowhere", "16 nowhere", "22 nowhere", "33 nowhere"]),
    ("replace", &["accepted", "2 nowhere", "16 nowhere", "22 nowhere", "33 nowhere"]),
    ("no action", &["2 nowhere", "22 nowhere"]),
    ("report", &["accepted", "22 nowhere"]),
    ("tick", &["accepted", "22 nowhere"]),
    ("work", &["accepted", "16 nowhere", "22 nowhere"]),
];

/// Kinds of bad lines, outside a payload and in one.
const BAD: [(&str, &[&str]); 2] = [
    (
        "bad line outside",
        &["Empty", "Long", "Gap", "Word", "Count", "Digits", "Large", "Odd", "Capital", "NoHex", "Early"],
    ),
    ("bad line in a payload", &["Empty", "Long", "Odd", "Capital", "NoHex"]),
];

/// Status and result as they are shown.
const SHOWN: (&str, &[&str]) = (
    "shown",
    &[
        "checked 0", "checked -11", "checked -16", "checked -22", "checked -33", "applied 0", "applied -11",
        "applied -16", "applied -22", "applied -33",
    ],
);

const TURNS: (&str, &[&str]) = (
    "turn",
    &[
        "a line of 4,096 bytes is read",
        "a name of 127 bytes is listed",
        "a name with a control byte is listed",
        "a payload of no byte",
        "a payload of 32,768 bytes",
        "a payload of 32,769 bytes",
        "a payload of more bytes",
        "a start with payloads loaded is accepted",
        "a start with payloads loaded is refused",
        "the input ends in a payload",
        "the input ends in a payload that is dropped",
        "the last line has no line feed",
    ],
);

/// Prints how often each was reached. That all were, and no answer that no rule gives, is one test for each table.
pub fn judge(marks: &Marks, report: &mut Report) {
    let tables = ANSWERS.into_iter().chain(BAD).chain([SHOWN, TURNS]);
    for (table, kinds) in tables {
        let front = format!("{table}: ");
        let times = |kind: &str| marks.0.get(&format!("{front}{kind}")).copied().unwrap_or(0);
        let counts: Vec<String> = kinds.iter().map(|kind| format!("{kind} {}", times(kind))).collect();
        println!("{front}{}", counts.join(", "));
        let reached = marks.0.keys().filter_map(|what| what.strip_prefix(&front));
        let unknown = reached.filter(|kind| !kinds.contains(kind)).map(|kind| format!("no rule gives: {kind}"));
        let missing = kinds.iter().filter(|kind| times(kind) == 0).map(|kind| format!("never reached: {kind}"));
        let faults: Vec<String> = missing.chain(unknown).collect();
        report.count(&format!("what scripts reach: {table}"), (!faults.is_empty()).then(|| faults.join("; ")));
    }
}
