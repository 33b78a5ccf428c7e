//! Cases of a queue, as scripts: the worked cases of docs/RULES.md, 13, that have to do with queues and counters, and
//! points of one queue, mostly the topactions', that a reader could have taken otherwise.

use crate::header::ACTIONS;

/// A name, and what happens.
pub type Case = (&'static str, &'static str);

/// Those of docs/RULES.md, by number.
const WORKED: &[Case] = &[
    ("6", "+0; w 1 3 1; +1; r 2 3 = read 1 1; w 2 3 2; a 2 = aborted 1 0; r 1 3 = read 1 0; look 1 3 = 1 0"),
    (
        "9",
        "+0; +1; r 2 6 = read 0 2; +0; w 3 6 1; c 3 = committed 1; +1; r 4 6 = read 0 2; c 2 = committed 0;
         c 4 = committed 0; c 1 = failed 1 6; counters = 1 0",
    ),
    ("10", "+0; +1; +2; a 1 = aborted 3 0; c 2 = refused 5"),
    (
        "18",
        "+0; d 1 24 100; +1; d 2 24 -30; r 2 24 = read 0 2 70; +2; r 3 24 = read 0 3 70; c 3 = committed 0;
         c 2 = committed 1; r 1 24 = read 0 1 70; c 1 = committed 1",
    ),
    (
        "19",
        "+0; +1; d 1 5 0 = refused 13; d 1 24 2000000 = refused 14; d 1 24 1 = refused 9; d 2 40 1 = refused 7;
         d 2 23 1 = refused 13; w 2 24 0 = refused 13; d 2 24 1000001 = refused 14; d 2 24 -1000001 = refused 14;
         d 2 24 1000000; d 2 31 -1000000; code 9 = refused 3; c 1 = refused 9",
    ),
    (
        "20",
        "+0; +1; r 2 3 = read 0 2; w 2 3 1; c 2 = committed 1; +0 = started 2; w 2 3 2; c 2 = committed 1;
         c 1 = failed 1 3; card 3 = 2",
    ),
    ("26", "+0; +0; w 1 5 7; w 2 5 8; e 1; e 2; j 2 = ready 0; j 1 = ready 2; counters = 2 0; card 5 = 8"),
    ("27", "+0; +0; r 2 0 = read 0 1; w 1 0 1; e 1; e 2; j 1 = ready 1; j 2 = failed 0; counters = 1 0"),
    ("28", "+0; +0; r 2 0 = read 0 1; w 1 0 1; e 1; e 2; a 1 = aborted 1 0; j 2 = failed 0; counters = 0 0"),
    ("29", "+0; +0; w 2 1 1; e 1; e 2; j 2 = ready 0; a 1 = aborted 1 1; counters = 1 0"),
    (
        "30",
        "+0; +0; e 1; r 1 0 = refused 16; +1 = refused 16; c 1 = refused 16; c 2 = refused 18; j 2 = refused 17;
         j 1 = ready 1; j 1 = refused 5; c 2 = committed 0",
    ),
    (
        "31",
        "+0; +0; +2; w 1 5 7; e 1; w 3 4 9; e 3; j 3 = ready 1; e 2; j 2 = ready 0; j 1 = ready 2; counters = 2 1;
         card 5 = 7; card 4 = 9",
    ),
    (
        "32",
        "+0; +1; w 2 0 1; c 2 = committed 1; +1 = started 2; w 2 0 2; c 2 = committed 2; +0 = started 2;
         r 2 1 = read 0 1; +0; w 3 1 3; c 3 = committed 1; c 2 = failed 1 1",
    ),
    (
        "33",
        "+0; w 1 9 1; c 1 = committed 1; +0 = started 1; +1; +1; r 3 0 = read 0 2; w 2 0 2; c 2 = committed 1;
         c 3 = failed 1 0",
    ),
    (
        "34",
        "+0; +1; +2; r 3 0 = read 0 3; +1; w 4 0 1; c 4 = committed 1; +0; w 5 1 2; c 5 = committed 1;
         c 3 = committed 0; c 2 = failed 1 0",
    ),
    (
        "35",
        "+0; +0; +0; +3; +3; w 2 1 1; w 5 2 1; e 1; e 2; e 4; e 5; j 2 = ready 0; j 5 = ready 0; a 4 = aborted 1 1;
         a 1 = aborted 1 1; counters = 1 1",
    ),
    ("36", "+0; +0; +2; e 1; c 3 = committed 0; c 2 = refused 18; counters = 0 0"),
    (
        "37",
        "+0; +1; +2; r 3 6 = read 0 3; +1; w 4 6 1; c 4 = committed 1; +2; r 5 6 = read 1 2; c 3 = committed 0;
         c 5 = committed 0; c 2 = failed 1 6; counters = 0 1",
    ),
];

const VERDICTS: &[Case] = &[
    (
        "a clash with what has committed",
        "+0; +0; r 1 0 = read 0 1; w 2 0 1; c 2 = committed 1; e 1; entry 1 = 1 1 0; j 1 = failed 0; state 1 = aborted",
    ),
    (
        "a read at the time of the end is no clash",
        "+0; +0; w 2 0 1; c 2 = committed 1; r 1 0 = read 0 1; e 1; entry 1 = 1 0 0; j 1 = ready 1",
    ),
    (
        "a sibling that waits counts though its own verdict is failed",
        "+0; +0; +0; w 1 0 1; r 2 0 = read 0 1; w 2 1 1; r 3 1 = read 0 1; e 1; e 2; e 3; entry 2 = 2 1 0;
         entry 3 = 3 1 0; j 2 = failed 0; j 3 = failed 0; j 1 = ready 1",
    ),
    (
        "a sibling that is ready counts as well",
        "+0; +0; +0; w 2 0 1; r 3 0 = read 0 1; e 1; e 2; j 2 = ready 0; e 3; j 1 = ready 2; j 3 = failed 0",
    ),
    (
        "one that waits under another parent does not count",
        "+0; +0; +1; +2; r 3 0 = read 0 2; w 4 0 1; e 4; e 3; sub-entry 2 = 3 0 0; j 3 = ready 0; j 4 = ready 2",
    ),
    ("one's own writes do not count", "+0; r 1 0 = read 0 1; w 1 0 1; e 1; entry 1 = 1 0 0; j 1 = ready 1"),
    (
        "what a sibling that waits has read does not count",
        "+0; +0; r 1 0 = read 0 1; w 2 0 1; e 1; e 2; entry 2 = 2 0 0; j 2 = ready 0; j 1 = ready 2",
    ),
    ("an add counts as a write", "+0; +0; d 1 24 0; r 2 24 = read 0 1 0; e 1; e 2; entry 2 = 2 1 0; j 2 = failed 0"),
    ("two that add do not meet", "+0; +0; d 1 24 5; d 2 24 7; e 1; e 2; j 1 = ready 1; j 2 = ready 1; amount 24 = 12"),
    (
        "a read after the writer has left",
        "+0; +0; w 1 0 9; e 1; j 1 = ready 1; r 2 0 = read 0 1; look 2 0 = 9 1; e 2; entry 1 = 2 0 0; j 2 = ready 1",
    ),
    (
        "a child's read that came up before the enter",
        "+0; +1; +0; r 2 0 = read 0 2; c 2 = committed 0; w 3 0 1; e 3; e 1; entry 2 = 1 1 0",
    ),
    (
        "a good verdict is not asked again where there is a clash by now",
        "+0; +0; r 1 0 = read 0 1; w 2 0 1; c 2 = committed 1; e 1; entry 1 1 0 0; j 1 = ready 1; state 1 = committed",
    ),
    (
        "a failed verdict is not asked again where there is none",
        "+0; e 1; entry 1 1 1 0; j 1 = failed 0; state 1 = aborted",
    ),
    ("a verdict that is neither 0 nor 1 is failed", "+0; e 1; entry 1 1 7 0; j 1 = failed 0; length = 0"),
    (
        "a verdict of the highest bit alone is failed",
        "+0; e 1; entry 1 1 9223372036854775808 0; j 1 = failed 0; state 1 = aborted",
    ),
];

const LEAVING: &[Case] = &[
    (
        "a judge's failed does not count its own, though it was the head",
        "+0; +0; +0; r 1 0 = read 0 1; w 3 0 1; c 3 = committed 1; e 1; e 2; j 2 = ready 0; j 1 = failed 1;
         state 1 = aborted; state 2 = committed; length = 0",
    ),
    (
        "one that failed is taken out wherever it stands",
        "+0; +0; +0; w 1 0 1; r 2 0 = read 0 1; e 1; e 2; e 3; j 2 = failed 0; length = 2; entry 1 = 1 0 0;
         entry 2 = 3 0 0; entry 3 = 3 0 0; j 3 = ready 0; j 1 = ready 2",
    ),
    (
        "one that leaves as aborted for its sums counts",
        "amount 24 9223372036854775807; +0; d 1 24 5; e 1; j 1 = ready 1; state 1 = aborted; counters = 0 0;
         amount 24 = 9223372036854775807; length = 0",
    ),
    (
        "the head's sums are no amounts, and the next one's are",
        "amount 24 9223372036854775807; +0; +0; d 1 24 5; d 2 24 -3; e 1; e 2; j 2 = ready 0; j 1 = ready 2;
         state 1 = aborted; state 2 = committed; amount 24 = 9223372036854775804; counters = 1 0",
    ),
    (
        "the head makes room for the next one's sums",
        "amount 24 9223372036854775807; +0; +0; d 1 24 3; d 2 24 -3; e 2; e 1; j 1 = ready 0; j 2 = ready 2;
         state 1 = committed; state 2 = committed; amount 24 = 9223372036854775807; counters = 2 0",
    ),
    (
        "one account of several is no amount, and nothing of the others is written",
        "amount 31 -9223372036854775808; +0; d 1 24 5; d 1 31 -1; w 1 0 7; e 1; j 1 = ready 1; state 1 = aborted;
         amount 24 = 0; amount 31 = -9223372036854775808; card 0 = 0; counters = 0 0",
    ),
    (
        "end times of those that leave, of which one alone wrote",
        "+0; +0; +0; w 2 0 1; e 1; e 2; e 3; j 3 = ready 0; j 2 = ready 0; j 1 = ready 3; counters = 1 0; end 1 = 0;
         end 2 = 1; end 3 = 0",
    ),
    (
        "subactions that leave join their parent in their order",
        "+0; +1; +1; w 2 3 1; w 3 3 2; e 2; e 3; j 3 = ready 0; j 2 = ready 2; look 1 3 = 2 0; counters = 0 2;
         c 1 = committed 1; card 3 = 2",
    ),
    (
        "those that leave close up one by one",
        "+0; +0; +0; e 1; e 2; e 3; j 3 = ready 0; j 2 = ready 0; j 1 = ready 3; length = 0; entry 1 = 3 0 1;
         entry 2 = 3 0 1; entry 3 = 3 0 1",
    ),
    (
        "a commit with an empty queue",
        "+0; +0; w 1 0 1; c 1 = committed 1; e 2; j 2 = ready 1; +0 = started 1; w 1 0 1; c 1 = committed 2",
    ),
];

const ABORTS: &[Case] = &[
    ("a child that waits", "+0; +1; e 2; a 1 = aborted 2 0; state 2 = aborted; sub-length = 0; c 1 = refused 5"),
    ("the action itself waits", "+0; +0; e 1; e 2; a 2 = aborted 1 0; length = 1; entry 1 = 1 0 0; j 1 = ready 1"),
    ("a ready one behind the head", "+0; +0; e 1; e 2; j 2 = ready 0; a 2 = aborted 1 0; length = 1; entry 1 = 1 0 0"),
    (
        "several that wait close up at once",
        "+0; +1; +1; +0; +4; +4; e 2; e 5; e 3; e 6; a 1 = aborted 3 0; sub-length = 2; sub-entry 1 = 5 0 0;
         sub-entry 2 = 6 0 0; sub-entry 3 = 3 0 0; sub-entry 4 = 6 0 0",
    ),
    (
        "the children of one that give way to two that are ready",
        "+0; +1; +1; +0; +4; +4; e 2; e 5; e 3; e 6; j 5 = ready 0; j 6 = ready 0; a 1 = aborted 3 2; sub-length = 0;
         state 5 = committed; state 6 = committed; sub-entry 1 = 6 0 1; sub-entry 2 = 6 0 1; sub-entry 3 = 3 0 0;
         sub-entry 4 = 6 0 1",
    ),
    ("one that does not wait, beside a queue", "+0; +0; e 1; a 2 = aborted 1 0; length = 1; state 1 = live"),
    (
        "one that leaves as aborted for its sums is not among the aborted",
        "amount 24 9223372036854775807; +0; +0; d 2 24 1; e 1; e 2; j 2 = ready 0; a 1 = aborted 1 1; state 2 = aborted;
         counters = 0 0",
    ),
];

const CAUSES: &[Case] = &[
    ("a start under one that waits", "+0; e 1; +1 = refused 16; +0"),
    ("6 comes before 16", "64 * +0; e 1; +1 = refused 6"),
    ("an enter of one that waits", "+0; e 1; e 1 = refused 16; length = 1"),
    ("a commit of one that waits is 16 and not 18", "+0; e 1; c 1 = refused 16"),
    (
        "a read, a write and an add of one that waits",
        "+0; e 1; r 1 0 = refused 16; w 1 0 1 = refused 16; d 1 24 1 = refused 16",
    ),
    ("7, 13 and 14 come before 16", "+0; e 1; r 1 32 = refused 7; w 1 24 1 = refused 13; d 1 24 1000001 = refused 14"),
    ("16 comes before 15", "amount 24 9223372036854775807; +0; d 1 24 1; e 1; r 1 24 = refused 16; c 1 = refused 16"),
    (
        "16 comes before 15, of an add",
        "+0; d 1 24 1; pending 1 24 9223372036854775807; d 1 24 1 = refused 15; e 1; d 1 24 1 = refused 16",
    ),
    ("a commit beside a queue", "+0; +0; e 1; c 2 = refused 18; state 2 = live; j 1 = ready 1; c 2 = committed 0"),
    ("a commit beside a queue of others' children", "+0; +1; +0; +3; e 4; c 2 = refused 18; state 2 = live"),
    ("9 comes before 18", "+0; +1; +0; e 3; c 1 = refused 9"),
    ("5 comes before 18", "+0; +0; c 1 = committed 0; e 2; c 1 = refused 5"),
    (
        "18 comes before a clash",
        "+0; +0; +0; r 1 0 = read 0 1; w 2 0 1; c 2 = committed 1; e 3; c 1 = refused 18; state 1 = live",
    ),
    (
        "18 comes before 15",
        "amount 24 9223372036854775807; +0; +0; d 1 24 1; e 2; c 1 = refused 18; a 2 = aborted 1 0; c 1 = refused 15",
    ),
    ("an enter beside a live child", "+0; +1; e 1 = refused 9; e 2; e 1 = refused 9"),
    (
        "an enter of nobody and of a finished one",
        "+0; e 0 = refused 4; e 2 = refused 4; a 1 = aborted 1 0; e 1 = refused 5",
    ),
    ("an enter has no cause 15", "amount 24 9223372036854775807; +0; d 1 24 1; e 1; length = 1"),
    ("a judge of a finished one", "+0; e 1; a 1 = aborted 1 0; j 1 = refused 5"),
    ("a judge of nobody", "+0; e 1; j 0 = refused 4; j 2 = refused 4"),
    ("a judge of a live one that does not wait", "+0; +0; e 1; j 2 = refused 17"),
    ("a judge beside a live child is 17 and not 9", "+0; +1; j 1 = refused 17"),
    ("a judge of a ready one", "+0; +0; e 1; e 2; j 2 = ready 0; j 2 = refused 17; length = 2"),
    ("a judge after the action has left", "+0; e 1; j 1 = ready 1; j 1 = refused 5"),
    (
        "others act beside a queue",
        "+0; +0; e 1; r 2 0 = read 0 1; w 2 0 1; d 2 24 1; +2; a 3 = aborted 1 0; e 2; length = 2",
    ),
    ("a look at one that waits", "+0; w 1 0 7; look 1 0 = 7 0; e 1; look 1 0 = refused 16; look 1 32 = refused 7"),
    (
        "16 comes before 15, of a look",
        "amount 24 9223372036854775807; +0; d 1 24 1; look 1 24 = refused 15; e 1; look 1 24 = refused 16",
    ),
    ("a look at one that has left", "+0; e 1; j 1 = ready 1; look 1 0 = refused 5"),
    ("codes above the last", "code 0 = refused 3; code 9 = refused 3; code 255 = refused 3"),
];

/// Tables that a caller may lend, and that events from a new table do not lead to.
const LENT: &[Case] = &[
    (
        "an abort of another lets a ready head leave",
        "+0; +0; w 1 0 1; e 1; entry 1 1 0 1; a 2 = aborted 1 1; state 1 = committed; card 0 = 1",
    ),
    (
        "a judge of another lets a ready head leave, and then its own",
        "+0; +0; e 1; e 2; entry 1 1 0 1; j 2 = ready 2; state 1 = committed; state 2 = committed",
    ),
    (
        "a judge's failed of another lets a ready head leave",
        "+0; +0; e 1; e 2; entry 1 1 0 1; entry 2 2 1 0; j 2 = failed 1; state 1 = committed; state 2 = aborted",
    ),
    (
        "no other event lets it leave",
        "+0; +0; e 1; entry 1 1 0 1; r 2 0 = read 0 1; w 2 1 1; d 2 24 1; +0; e 3; c 2 = refused 18; length = 2;
         state 1 = live",
    ),
    (
        "nor does an abort or a judge that is refused",
        "+0; +0; e 1; entry 1 1 0 1; a 3 = refused 4; a 0 = refused 4; j 2 = refused 17; j 1 = refused 17; length = 1",
    ),
    (
        "an abort of the ready head itself",
        "+0; +0; e 1; e 2; entry 1 1 0 1; entry 2 2 0 1; a 1 = aborted 1 1; state 2 = committed",
    ),
    (
        "a ready head leaves though its verdict is failed",
        "+0; +0; w 1 0 1; e 1; entry 1 1 7 1; a 2 = aborted 1 1; state 1 = committed; counters = 1 0",
    ),
    (
        "a ready head leaves though it has a clash",
        "+0; +0; r 1 0 = read 0 1; w 1 1 1; w 2 0 1; c 2 = committed 1; e 1; entry 1 1 1 1; +0; a 3 = aborted 1 1;
         state 1 = committed; counters = 2 0",
    ),
    ("an end time is put at the end, be it 0", "+0; end 1 5; e 1; j 1 = ready 1; end 1 = 0"),
    (
        "an end time stays where the sums are no amounts",
        "amount 24 9223372036854775807; +0; end 1 5; d 1 24 1; e 1; j 1 = ready 1; state 1 = aborted; end 1 = 5",
    ),
    (
        "any readiness but 0 is ready",
        "+0; +0; +0; e 1; e 2; entry 1 1 0 18446744073709551615; entry 2 2 0 2; j 1 = refused 17; a 3 = aborted 1 2",
    ),
    (
        "words of entries go along as they are",
        "+0; +0; +0; e 1; e 2; e 3; entry 2 2 18446744073709551615 0; entry 3 3 7 8; a 1 = aborted 1 0;
         entry 1 = 2 18446744073709551615 0; entry 2 = 3 7 8; entry 3 = 3 7 8; j 2 = failed 1; state 3 = committed",
    ),
    ("a judge makes the readiness 1 and leaves the verdict", "+0; +0; e 1; e 2; j 2 = ready 0; entry 2 = 2 0 1"),
    (
        "entries above the length are not looked at",
        "+0; +0; entry 1 1 0 1; entry 2 9 9 9; entry 64 1 1 1; r 1 0 = read 0 1; a 2 = aborted 1 0; state 1 = live;
         entry 1 = 1 0 1; entry 2 = 9 9 9; c 1 = committed 0",
    ),
    (
        "an enter puts all three words",
        "+0; entry 1 5 6 7; entry 2 5 6 7; e 1; entry 1 = 1 0 0; entry 2 = 5 6 7; length = 1",
    ),
    (
        "a start keeps the entries in its row",
        "entry 1 5 6 7; sub-entry 1 8 9 10; +0; entry 1 = 5 6 7; sub-entry 1 = 8 9 10; length = 0; sub-length = 0",
    ),
    (
        "a start keeps an entry that waits in its row",
        "+0; e 1; entry 1 1 7 0; entry 2 3 3 3; +0; entry 1 = 1 7 0; entry 2 = 3 3 3",
    ),
];

/// Clauses 7.11 to 7.13 of the topactions' queue, each broken alone, and what they leave free.
const SOUND: &[Case] = &[
    ("a length of 65 (7.11)", "length 65; +0 = refused 2; look 1 0 = refused 2"),
    ("the greatest length (7.11)", "length 18446744073709551615; +0 = refused 2"),
    ("an entry of number 0 (7.12)", "+0; e 1; entry 1 0 0 0; j 1 = refused 2; length 0; r 1 0 = read 0 1"),
    ("an entry behind a good one (7.12)", "+0; e 1; length 2; j 1 = refused 2; length 1; j 1 = ready 1"),
    ("an entry above the highest number (7.12)", "+0; e 1; entry 1 2 0 0; +0 = refused 2"),
    ("an entry far above the highest number (7.12)", "+0; e 1; entry 1 18446744073709551615 0 0; +0 = refused 2"),
    ("an entry of a committed action (7.12)", "+0; +0; c 1 = committed 0; e 2; entry 1 1 0 0; a 2 = refused 2"),
    ("an entry of an aborted action (7.12)", "+0; +0; a 1 = aborted 1 0; e 2; entry 1 1 0 0; a 2 = refused 2"),
    (
        "an entry of an action with a live child (7.12)",
        "+0; +1; entry 1 1 0 0; length 1; a 2 = refused 2; length 0; a 2 = aborted 1 0; length 1; j 1 = ready 1",
    ),
    (
        "an entry of an action with finished children",
        "+0; +1; +1; c 2 = committed 0; a 3 = aborted 1 0; entry 1 1 0 0; length 1; j 1 = ready 1",
    ),
    (
        "a number in two entries (7.13)",
        "+0; +0; e 1; e 2; entry 2 1 0 0; a 2 = refused 2; entry 2 2 0 0; a 2 = aborted 1 0",
    ),
    ("a number in two entries apart (7.13)", "+0; +0; +0; e 1; e 2; e 3; entry 3 1 1 1; j 1 = refused 2"),
    (
        "words 83 to 88 of the head are no entries",
        "entry 0 9 9 9; sub-entry 0 9 9 9; +0; e 1; j 1 = ready 1; entry 0 = 9 9 9; sub-entry 0 = 9 9 9",
    ),
];

/// All of them, each group with its name.
pub const GROUPS: &[(&str, &[Case])] = &[
    ("worked", WORKED),
    ("verdict", VERDICTS),
    ("leaving", LEAVING),
    ("abort", ABORTS),
    ("cause", CAUSES),
    ("lent table", LENT),
    ("sound table", SOUND),
];

/// Cases of the longest queues, whose scripts are too long to be written down.
pub fn longest() -> Vec<(&'static str, String)> {
    let each = |verb: &str, numbers: &mut dyn Iterator<Item = usize>, answer: &str| -> String {
        numbers.map(|n| format!("; {verb} {n}{answer}")).collect()
    };
    let all_wait = format!("{ACTIONS} * +0{}; length = {ACTIONS}", each("e", &mut (1..=ACTIONS), ""));
    let behind = each("j", &mut (2..=ACTIONS).rev(), " = ready 0");
    let aborted = each("a", &mut (1..ACTIONS), " = aborted 1 0");
    let subs = ACTIONS - 1;
    let subs_wait = format!("+0; {subs} * +1{}; sub-length = {subs}", each("e", &mut (2..=ACTIONS), ""));
    let subs_behind = each("j", &mut (3..=ACTIONS).rev(), " = ready 0");
    vec![
        ("all actions wait and leave together", format!("{all_wait}{behind}; j 1 = ready {ACTIONS}; length = 0")),
        ("all wait, and all but the last are aborted", format!("{all_wait}{aborted}; j {ACTIONS} = ready 1")),
        ("all wait, and the length is one more (7.11)", format!("{all_wait}; length {}; j 1 = refused 2", ACTIONS + 1)),
        ("all wait and are good, and a start is 6", format!("{all_wait}; +0 = refused 6; +{ACTIONS} = refused 6")),
        (
            "all children wait and leave together",
            format!("{subs_wait}{subs_behind}; j 2 = ready {subs}; sub-length = 0"),
        ),
        (
            "all children wait, and their parent is aborted",
            format!("{subs_wait}; a 1 = aborted {ACTIONS} 0; sub-length = 0"),
        ),
    ]
}
