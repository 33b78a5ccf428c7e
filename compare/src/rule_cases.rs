//! Cases of the two rules, as scripts: who is a reader ahead and which is the first, what a commit leaves under the
//! forward rule, its causes, tables under it whose queues hold somebody, its clause of a sound table, and openings.

use crate::header::ACTIONS;
use crate::queue_cases::Case;

/// A script on a table that is opened under rule 2.
macro_rules! forward {
    ($script:literal) => {
        concat!("open 2 = 0; ", $script)
    };
}

/// Those of docs/RULES.md, 13, by number.
const WORKED: &[Case] = &[
    (
        "46",
        forward!(
            "+0; +0; r 1 0 = read 0 1; r 2 0 = read 0 1; w 1 0 1; c 1 = failed 2 0; c 2 = committed 0; counters = 0 0"
        ),
    ),
    ("47", forward!("+0; +0; w 1 0 1; w 2 0 2; c 1 = committed 1; c 2 = committed 2; card 0 = 2")),
    ("48", forward!("+0; +1; +1; r 3 4 = read 0 2; w 2 4 1; c 2 = failed 3 4; c 3 = committed 0")),
    ("49", forward!("+0; +1; +1; w 2 4 1; c 2 = committed 1; r 3 4 = read 1 1; c 3 = committed 0")),
    (
        "50",
        forward!(
            "+0; +1; r 2 6 = read 0 2; +0; w 3 6 1; c 3 = failed 2 6; +1 = started 3; r 4 6 = refused 4;
             c 2 = committed 0; c 4 = refused 4; c 1 = refused 9; counters = 0 0"
        ),
    ),
    ("51", forward!("+0; +0; w 1 2 1; r 1 2 = read 1 0; w 2 2 2; c 2 = committed 1; c 1 = committed 2; card 2 = 1")),
    ("52", "+0; +0; +2; r 3 5 = read 0 2; w 1 5 1; c 1 = committed 1; c 3 = committed 0; c 2 = failed 1 5"),
    ("53", forward!("+0; +0; +2; r 3 5 = read 0 2; w 1 5 1; c 1 = failed 3 5; c 3 = committed 0; c 2 = committed 0")),
    (
        "54",
        forward!(
            "+0; +0; +0; r 3 7 = read 0 1; r 3 2 = read 0 1; r 2 9 = read 0 1; w 1 9 1; w 1 2 1; w 1 7 1;
             c 1 = failed 2 9"
        ),
    ),
    ("55", "+0; +0; +1; +2; r 4 5 = read 0 2; w 3 5 1; c 3 = committed 1; c 1 = committed 1; card 5 = 1"),
    ("56", forward!("+0; +0; +1; +2; r 4 5 = read 0 2; w 3 5 1; c 3 = committed 1; c 1 = failed 4 5")),
    (
        "57",
        forward!(
            "+0; +0; +0; a 1 = aborted 1 0; +0 = started 1; r 1 3 = read 0 1; r 2 3 = read 0 1; w 3 3 1;
             c 3 = failed 1 3"
        ),
    ),
    ("58", forward!("+0; +0; r 2 5 = read 0 1; a 2 = aborted 1 0; w 1 5 1; c 1 = committed 1")),
    ("59", forward!("+0; +0; r 2 24 = read 0 1 0; d 1 24 5; c 1 = failed 2 24")),
    ("60", forward!("+0; +0; r 1 5 = read 0 1; w 1 6 1; w 2 5 2; c 1 = committed 1; c 2 = committed 2")),
    ("61", forward!("+0; +0; w 2 5 2; r 2 5 = read 2 0; w 1 5 1; c 1 = committed 1; c 2 = committed 2; card 5 = 2")),
    ("62", forward!("+0; e 1 = refused 21; j 1 = refused 21; e 9 = refused 21; j 0 = refused 21; code 9 = refused 3")),
];

/// Who is a reader ahead.
const READERS: &[Case] = &[
    ("one whose number is lower", forward!("+0; +0; r 1 5 = read 0 1; w 2 5 1; c 2 = failed 1 5")),
    ("one far below a sibling", forward!("+0; +0; +2; +3; +4; r 5 5 = read 0 4; w 1 5 1; c 1 = failed 5 5")),
    ("one below a sibling of a subaction", forward!("+0; +1; +1; +3; r 4 5 = read 0 3; w 2 5 1; c 2 = failed 4 5")),
    (
        "a sibling that has read and has a live child",
        forward!("+0; +0; r 2 5 = read 0 1; +2; r 3 5 = read 0 2; w 1 5 1; c 1 = failed 2 5"),
    ),
    ("not its parent", forward!("+0; r 1 5 = read 0 1; +1; w 2 5 1; c 2 = committed 1; c 1 = committed 1")),
    (
        "nor one above its parent",
        forward!("+0; r 1 5 = read 0 1; +1; +2; w 3 5 1; c 3 = committed 1; c 2 = committed 2; c 1 = committed 1"),
    ),
    (
        "nor a sibling of its parent, until the parent commits",
        forward!("+0; +0; +1; r 2 5 = read 0 1; w 3 5 1; c 3 = committed 1; c 1 = failed 2 5"),
    ),
    (
        "nor one below a sibling of its parent",
        forward!("+0; +0; +1; +2; r 4 5 = read 0 2; w 3 5 1; c 3 = committed 1; a 2 = aborted 2 0; c 1 = committed 1"),
    ),
    ("nor a child that gave up", forward!("+0; +1; r 2 5 = read 0 2; a 2 = aborted 1 0; w 1 5 1; c 1 = committed 1")),
    (
        "nor a child that committed, though its read is the action's own",
        forward!("+0; +1; r 2 5 = read 0 2; c 2 = committed 0; times 1 5 = 0 0; w 1 5 1; c 1 = committed 1"),
    ),
    (
        "nor a sibling that committed",
        forward!("+0; +0; r 2 5 = read 0 1; c 2 = committed 0; w 1 5 1; c 1 = committed 1"),
    ),
    (
        "nor a sibling that failed",
        forward!(
            "+0; +0; +0; r 2 5 = read 0 1; w 2 6 1; r 3 6 = read 0 1; c 2 = failed 3 6; w 1 5 1; c 1 = committed 1"
        ),
    ),
    ("nor one that has read another account", forward!("+0; +0; r 2 6 = read 0 1; w 1 5 1; c 1 = committed 1")),
    (
        "nobody, where nothing is written",
        forward!("+0; +0; r 2 5 = read 0 1; r 1 5 = read 0 1; c 1 = committed 0; counters = 0 0"),
    ),
    (
        "the parent of a reader that committed",
        forward!("+0; +0; +2; r 3 5 = read 0 2; c 3 = committed 0; w 1 5 1; c 1 = failed 2 5"),
    ),
    (
        "not where the read stayed behind at the parent's card",
        forward!("+0; +0; w 2 5 2; +2; r 3 5 = read 2 1; c 3 = committed 0; w 1 5 1; c 1 = committed 1"),
    ),
    ("but as long as its reader is live", forward!("+0; +0; w 2 5 2; +2; r 3 5 = read 2 1; w 1 5 1; c 1 = failed 3 5")),
    (
        "one that has written the account since",
        forward!("+0; +0; r 2 5 = read 0 1; w 2 5 2; r 2 5 = read 2 0; w 1 5 1; c 1 = failed 2 5"),
    ),
    (
        "one that has read beside its own adds",
        forward!("+0; +0; d 2 24 3; r 2 24 = read 0 1 3; d 1 24 5; c 1 = failed 2 24"),
    ),
    ("one that meets an add of 0", forward!("+0; +0; r 2 31 = read 0 1 0; d 1 31 0; c 1 = failed 2 31")),
    (
        "not one that adds as well",
        forward!("+0; +0; d 1 24 5; d 2 24 7; c 1 = committed 1; c 2 = committed 2; amount 24 = 12"),
    ),
    (
        "one that meets a child's write",
        forward!("+0; +0; +1; w 3 5 1; c 3 = committed 1; r 2 5 = read 0 1; c 1 = failed 2 5"),
    ),
    (
        "one that meets a child's add",
        forward!("+0; +0; +1; d 3 24 1; c 3 = committed 1; r 2 24 = read 0 1 0; c 1 = failed 2 24"),
    ),
    (
        "one that has read what the last commit left",
        forward!(
            "+0; +0; +0; w 1 5 1; c 1 = committed 1; r 2 5 = read 0 1; times 2 5 = 1 0; w 3 5 2; c 3 = failed 2 5"
        ),
    ),
    ("whatever the times of its read", forward!("+0; +0; counters 7 9; times 2 5 7 9; w 1 5 1; c 1 = failed 2 5")),
    ("whatever the entry of the write set", forward!("+0; +0; r 2 5 = read 0 1; wrote 1 5 9; c 1 = failed 2 5")),
    (
        "not by the word beside a read entry of 0",
        forward!("+0; +0; sub-time 2 5 99; w 1 5 1; c 1 = committed 1; sub-time 2 5 = 99"),
    ),
    (
        "each of two, of whom the first gives way",
        forward!(
            "+0; +0; r 1 5 = read 0 1; w 1 6 1; r 2 6 = read 0 1; w 2 5 2; c 1 = failed 2 6; c 2 = committed 1;
             card 5 = 2; card 6 = 0"
        ),
    ),
    (
        "those that have read pass where the writer gave way",
        forward!(
            "+0; +0; +0; r 2 5 = read 0 1; r 3 5 = read 0 1; w 1 5 1; c 1 = failed 2 5; c 2 = committed 0;
             c 3 = committed 0; counters = 0 0"
        ),
    ),
];

/// Which of several is named.
const FIRST: &[Case] = &[
    (
        "the lowest account of the lowest number",
        forward!(
            "+0; +0; +0; r 2 9 = read 0 1; r 2 7 = read 0 1; r 3 2 = read 0 1; w 1 2 1; w 1 7 1; w 1 9 1;
             c 1 = failed 2 7"
        ),
    ),
    (
        "of the accounts that are written",
        forward!("+0; +0; r 2 3 = read 0 1; r 2 4 = read 0 1; w 1 2 1; w 1 4 1; w 1 5 1; c 1 = failed 2 4"),
    ),
    (
        "a card before an amount",
        forward!("+0; +0; r 2 31 = read 0 1 0; r 2 0 = read 0 1; d 1 31 1; w 1 0 1; c 1 = failed 2 0"),
    ),
    (
        "a child before its parent, by its number",
        forward!(
            "+0; +0; +0; r 3 5 = read 0 1; a 1 = aborted 1 0; +3 = started 1; r 1 5 = read 0 2; w 2 5 1;
             c 2 = failed 1 5"
        ),
    ),
    (
        "one far down before a sibling, by its number",
        forward!(
            "+0; +0; +0; +0; a 1 = aborted 1 0; +4 = started 1; r 1 5 = read 0 2; r 3 5 = read 0 1; w 2 5 1;
             c 2 = failed 1 5"
        ),
    ),
    (
        "the next one, when the first has gone",
        forward!(
            "+0; +0; +0; +0; r 3 5 = read 0 1; r 4 5 = read 0 1; a 3 = aborted 1 0; w 1 5 1; w 2 5 1; c 2 = failed 4 5;
             c 4 = committed 0; c 1 = committed 1"
        ),
    ),
];

/// What a commit leaves, and that the rule stays.
const LEFT: &[Case] = &[
    (
        "a commit that fails changes the state alone",
        forward!(
            "+0; +0; +1; d 3 24 5; w 3 6 1; c 3 = committed 1; r 2 6 = read 0 1; w 1 5 1; end 1 7; c 1 = failed 2 6;
             state 1 = aborted; state 2 = live; end 1 = 7; counters = 0 1; newest 0 = none; newest 1 = 6 1, 24 1;
             kept 0 24 = 0; kept 1 24 = 5; pending 1 24 = 5; own 1 24 = 0; card 5 = 0; card 6 = 0; amount 24 = 0"
        ),
    ),
    (
        "one that passes leaves what it does under rule 1",
        forward!(
            "+0; +0; d 1 24 5; w 1 5 7; c 1 = committed 1; end 1 = 1; counters = 1 0; newest 0 = 5 1, 24 1;
             kept 0 24 = 5; pending 1 24 = 5; card 5 = 7; amount 24 = 5; state 2 = live"
        ),
    ),
    (
        "so does a subaction's",
        forward!(
            "+0; +1; w 2 5 7; d 2 24 3; r 2 9 = read 0 2; c 2 = committed 1; counters = 0 1; newest 1 = 5 1, 24 1;
             look 1 5 = 7 0; pending 1 24 = 3; kept 1 24 = 3; times 1 9 = 0 0"
        ),
    ),
    (
        "records are needed as under rule 1",
        forward!(
            "+0; r 1 9 = read 0 1; +0; w 2 5 1; c 2 = committed 1; +0 = started 3; c 1 = committed 0; +0 = started 1;
             +0 = started 2"
        ),
    ),
    (
        "no event changes the rule",
        forward!(
            "rule = 2; +0; +0; r 1 9 = read 0 1; w 1 5 1; d 1 24 1; e 1 = refused 21; j 1 = refused 21; rule = 2;
             c 1 = committed 1; rule = 2; a 2 = aborted 1 0; rule = 2; r 2 0 = refused 5; rule = 2"
        ),
    ),
    ("nor rule 1", "rule = 1; +0; w 1 5 1; e 1; j 1 = ready 1; +0; c 1 = committed 0; +0; a 1 = aborted 1 0; rule = 1"),
    ("a clash is not asked", "+0; +0; r 1 5 = read 0 1; w 2 5 1; c 2 = committed 1; rule 2; c 1 = committed 0"),
    (
        "nor is a reader ahead under rule 1",
        forward!("+0; +0; r 2 5 = read 0 1; w 1 5 1; rule 1; c 1 = committed 1; c 2 = failed 1 5"),
    ),
    (
        "the tree is that of rule 1",
        forward!(
            "+0; +1; d 2 24 5; c 2 = committed 1; +0 = started 2; r 2 24 = read 0 1 0; c 1 = failed 2 24;
             tree = 0 1 aborted 24 0 5, 0 2 live"
        ),
    ),
];

const CAUSES: &[Case] = &[
    (
        "21 comes before 4, 5, 9 and 19",
        forward!(
            "e 1 = refused 21; j 18446744073709551615 = refused 21; +0; +1; e 1 = refused 21; j 1 = refused 21;
             a 1 = aborted 2 0; e 1 = refused 21; j 2 = refused 21; +0; counters 4000000000 0; e 1 = refused 21"
        ),
    ),
    ("2 comes before 21", forward!("+0; highest 65; e 1 = refused 2; j 1 = refused 2; highest 1; e 1 = refused 21")),
    ("3 comes before 21", forward!("code 0 = refused 3; code 9 = refused 3; code 255 = refused 3")),
    (
        "21 is no other event's",
        forward!("+0; r 1 0 = read 0 1; w 1 0 1; d 1 24 1; look 1 0 = 1 0; +0; a 2 = aborted 1 0; c 1 = committed 1"),
    ),
    (
        "9 comes before a reader ahead",
        forward!("+0; +0; r 2 5 = read 0 1; w 1 5 1; +1; c 1 = refused 9; a 3 = aborted 1 0; c 1 = failed 2 5"),
    ),
    (
        "19 comes before a reader ahead",
        forward!(
            "+0; +0; r 2 5 = read 0 1; w 1 5 1; counters 4000000000 0; c 1 = refused 19; state 1 = live;
             counters 3999999999 0; c 1 = failed 2 5"
        ),
    ),
    (
        "19 of a subaction's kind",
        forward!(
            "+0; +1; +1; r 3 5 = read 0 2; w 2 5 1; counters 0 4000000000; c 2 = refused 19; counters 4000000000 0;
             c 2 = failed 3 5; c 3 = committed 0; c 1 = refused 19"
        ),
    ),
    (
        "a reader ahead comes before 15",
        forward!(
            "amount 24 9223372036854775807; +0; +0; d 1 24 1; r 2 24 = read 0 1 9223372036854775807; c 1 = failed 2 24;
             amount 24 = 9223372036854775807"
        ),
    ),
    (
        "a reader of another account comes before 15",
        forward!(
            "amount 24 9223372036854775807; +0; +0; +0; d 1 24 1; w 1 5 1; r 2 5 = read 0 1; c 1 = failed 2 5;
             d 3 24 1; c 3 = refused 15; state 3 = live; counters = 0 0"
        ),
    ),
    (
        "and before 15 for a kept sum",
        forward!(
            "kept 0 24 9223372036854775807; +0; +0; +0; d 1 24 1; d 3 24 1; r 2 24 = read 0 1 0; c 1 = failed 2 24;
             a 2 = aborted 1 0; c 3 = refused 15; kept 0 24 = 9223372036854775807"
        ),
    ),
];

/// Tables under rule 2 whose queues hold somebody. A caller may lend them; no list leads there from a new one.
const QUEUED: &[Case] = &[
    (
        "nobody enters and nobody is judged",
        "+0; +0; e 1; rule 2; e 1 = refused 21; e 2 = refused 21; j 1 = refused 21; j 2 = refused 21; length = 1;
         entry 1 = 1 0 0; rule 1; j 1 = ready 1",
    ),
    (
        "16 and 18 are as they were",
        "+0; +0; e 1; rule 2; r 1 0 = refused 16; w 1 0 1 = refused 16; d 1 24 1 = refused 16; +1 = refused 16;
         c 1 = refused 16; look 1 0 = refused 16; c 2 = refused 18; state 2 = live",
    ),
    (
        "18 comes before a reader ahead",
        "+0; +0; +0; r 2 5 = read 0 1; w 3 5 1; e 1; rule 2; c 3 = refused 18; a 1 = aborted 1 0; c 3 = failed 2 5",
    ),
    (
        "a commit of the other kind does not wait",
        "+0; +0; +2; e 1; rule 2; w 3 5 1; c 3 = committed 1; c 2 = refused 18; length = 1; state 1 = live",
    ),
    ("18 of subactions", "+0; +1; +1; e 2; rule 2; w 3 5 1; c 3 = refused 18; a 2 = aborted 1 0; c 3 = committed 1"),
    (
        "one that waits is a reader ahead",
        "+0; +1; +0; r 2 5 = read 0 2; e 2; rule 2; w 3 5 1; c 3 = failed 2 5; state 2 = live; sub-length = 1",
    ),
    (
        "an abort takes out those who wait",
        "+0; +0; +0; e 1; e 2; e 3; rule 2; a 2 = aborted 1 0; length = 2; entry 1 = 1 0 0; entry 2 = 3 0 0",
    ),
    (
        "a ready head leaves at an abort and commits, though there is a reader ahead",
        "+0; +0; +0; r 2 5 = read 0 1; w 1 5 7; e 1; entry 1 1 0 1; rule 2; a 3 = aborted 1 1; state 1 = committed;
         card 5 = 7; counters = 1 0; newest 0 = 5 1; length = 0; state 2 = live",
    ),
    (
        "so it does whatever its verdict, and though there is a clash",
        "+0; +0; +0; r 1 0 = read 0 1; w 1 5 7; w 2 0 1; c 2 = committed 1; e 1; entry 1 1 7 1; rule 2;
         a 3 = aborted 1 1; state 1 = committed; counters = 2 0; card 5 = 7",
    ),
    (
        "a subaction's head, likewise",
        "+0; +1; +1; +0; r 3 5 = read 0 2; w 2 5 7; e 2; sub-entry 1 2 0 1; rule 2; a 4 = aborted 1 1;
         state 2 = committed; look 3 5 = 7 1; counters = 0 1; sub-length = 0",
    ),
    (
        "both heads, the topactions' first",
        "+0; +0; +2; +0; w 1 0 1; w 3 1 2; e 1; entry 1 1 0 1; e 3; sub-entry 1 3 0 1; rule 2; a 4 = aborted 1 2;
         state 1 = committed; state 3 = committed; counters = 1 1; card 0 = 1; length = 0; sub-length = 0",
    ),
    (
        "all that are ready, one after the other",
        "+0; +0; +0; +0; w 1 5 1; w 2 5 2; e 1; e 2; e 3; entry 1 1 0 1; entry 2 2 0 9; rule 2; a 4 = aborted 1 2;
         card 5 = 2; counters = 2 0; length = 1; entry 1 = 3 0 0",
    ),
    (
        "one whose sums are no amounts leaves as aborted",
        "amount 24 9223372036854775807; +0; +0; d 1 24 1; e 1; entry 1 1 0 1; rule 2; a 2 = aborted 1 1;
         state 1 = aborted; counters = 0 0; amount 24 = 9223372036854775807; length = 0",
    ),
    (
        "no other event lets a head leave",
        "+0; +0; +2; e 1; entry 1 1 0 1; rule 2; r 3 0 = read 0 2; w 3 1 1; d 3 24 1; +0; c 3 = committed 1;
         c 2 = refused 18; e 2 = refused 21; j 1 = refused 21; a 9 = refused 4; length = 1; state 1 = live",
    ),
    (
        "those who left do not count as readers any more",
        "+0; +0; +0; r 1 5 = read 0 1; e 1; entry 1 1 0 1; rule 2; w 2 5 1; c 2 = refused 18; a 3 = aborted 1 1;
         c 2 = committed 1",
    ),
];

/// Clause 7.17 broken alone.
const SOUND: &[Case] = &[
    (
        "rule 3 (7.17)",
        "+0; rule 3; r 1 0 = refused 2; c 1 = refused 2; e 1 = refused 2; j 1 = refused 2; a 1 = refused 2;
         +0 = refused 2; code 9 = refused 2; look 1 0 = refused 2; tree = refused 2; rule 1; e 1",
    ),
    ("rule 0 (7.17)", "+0; rule 0; r 1 0 = refused 2; tree = refused 2; rule 2; e 1 = refused 21; r 1 0 = read 0 1"),
    ("the greatest (7.17)", "rule 18446744073709551615; +0 = refused 2; rule 2; +0"),
    ("with the bits of rule 1 at its end (7.17)", "rule 4294967297; +0 = refused 2; rule 257; +0 = refused 2"),
    ("with the bits of rule 2 at its end (7.17)", "rule 4294967298; +0 = refused 2; rule 258; +0 = refused 2"),
    ("of a queue nothing is asked", "+0; +0; e 1; e 2; j 2 = ready 0; rule 2; tree = 0 1 live, 0 2 live; +0"),
];

const OPENINGS: &[Case] = &[
    ("under rule 1", "open 1 = 0; rule = 1; highest = 0; +0; e 1; j 1 = ready 1"),
    ("under rule 2", "open 2 = 0; rule = 2; highest = 0; +0; e 1 = refused 21"),
    ("under 0, which leaves a table under rule 1", "open 0 = 20; rule = 1; +0; e 1; j 1 = ready 1"),
    ("under 3", "open 3 = 20; rule = 1; +0; e 1; j 1 = ready 1"),
    ("under the greatest number", "open 18446744073709551615 = 20; rule = 1; +0"),
    ("under numbers that end in the bits of a rule", "open 257 = 20; open 4294967298 = 20; rule = 1; +0"),
    (
        "of a table that was used, whose stores stay",
        "+0; w 1 5 7; d 1 24 3; c 1 = committed 1; +0; e 1; open 2 = 0; rule = 2; highest = 0; counters = 0 0;
         length = 0; newest 0 = none; kept 0 24 = 0; entry 1 = 0 0 0; card 5 = 7; amount 24 = 3; +0 = started 1;
         c 1 = committed 0",
    ),
    ("of a table under rule 2, with no rule", forward!("+0; +1; open 3 = 20; rule = 1; highest = 0; +0; e 1")),
    ("of a table that was not sound", "+0; rule 9; highest 99; +0 = refused 2; open 2 = 0; rule = 2; +0 = started 1"),
];

/// All of them, each group with its name.
pub const GROUPS: &[(&str, &[Case])] = &[
    ("worked", WORKED),
    ("reader ahead", READERS),
    ("first reader ahead", FIRST),
    ("what a commit leaves", LEFT),
    ("cause under rule 2", CAUSES),
    ("queue under rule 2", QUEUED),
    ("sound table of a rule", SOUND),
    ("opening", OPENINGS),
];

/// Cases of many actions, whose scripts are too long to be written down.
pub fn long() -> Vec<(&'static str, String)> {
    let last = ACTIONS;
    let below: String = (2..last).map(|parent| format!("+{parent}; ")).collect();
    let reads = |numbers: &mut dyn Iterator<Item = usize>| -> String {
        numbers.map(|n| format!("r {n} 5 = read 0 1; ")).collect()
    };
    let (but_first, but_last) = (reads(&mut (2..=last).rev()), reads(&mut (1..last).rev()));
    vec![
        (
            "the last of all siblings has read",
            format!("open 2 = 0; {last} * +0; r {last} 31 = read 0 1 0; d 1 31 1; c 1 = failed {last} 31"),
        ),
        (
            "the lowest of all has read",
            format!(
                "open 2 = 0; +0; +0; {below}r {last} 5 = read 0 {}; w 1 5 1; c 1 = failed {last} 5;
                 c {last} = committed 0",
                last - 1
            ),
        ),
        ("all others have read", format!("open 2 = 0; {last} * +0; {but_first}w 1 5 1; c 1 = failed 2 5")),
        ("all before it have read", format!("open 2 = 0; {last} * +0; {but_last}w {last} 5 1; c {last} = failed 1 5")),
    ]
}
