//! Cases of numbers that are given again, as scripts: which are free, what a start leaves of the number's last holder,
//! parents above their children, kept sums, and counters at their most.

use crate::header::ACTIONS;
use crate::queue_cases::Case;

/// Those of docs/RULES.md, 13, by number.
const WORKED: &[Case] = &[
    (
        "15",
        "+0; +0; d 1 24 500; d 2 24 -200; c 1 = committed 1; c 2 = committed 2; +0 = started 1; r 1 24 = read 0 1 300;
         c 1 = committed 0; amount 24 = 300",
    ),
    (
        "21",
        "+0; w 1 3 1; +1; +2; r 3 3 = read 1 2; c 3 = committed 0; +1 = started 3; w 3 3 2; c 3 = committed 1;
         c 2 = failed 1 3",
    ),
    (
        "24",
        "+0; w 1 3 1; +1; r 2 3 = read 1 1; c 2 = committed 0; +0 = started 2; w 2 3 2; c 2 = committed 1;
         c 1 = committed 2; card 3 = 1",
    ),
    (
        "38",
        "+0 = started 1; a 1 = aborted 1 0; +0 = started 1; w 1 0 1; c 1 = committed 1; +0 = started 1; +0 = started 2;
         counters = 1 0",
    ),
    (
        "39",
        "+0 = started 1; r 1 5 = read 0 1; +0 = started 2; w 2 0 1; c 2 = committed 1; +0 = started 3;
         c 1 = committed 0; +0 = started 1; +0 = started 2",
    ),
    (
        "40",
        "+0; +0; +1; w 2 0 1; r 3 0 = read 0 2; c 2 = committed 1; +0 = started 4; c 3 = committed 0; c 1 = failed 1 0",
    ),
    ("41", "+0 = started 1; +0 = started 2; a 1 = aborted 1 0; +2 = started 1; +2 = started 3"),
    (
        "42",
        "+0; +0; w 1 0 1; e 1; e 2; j 1 = ready 1; +0 = started 1; w 1 0 2; e 1; j 2 = ready 1; j 1 = ready 1;
         counters = 2 0; card 0 = 2",
    ),
    ("43", "+0; +0; w 1 0 1; c 1 = committed 1; r 2 3 = read 0 1; +0 = started 1"),
];

const NEEDED: &[Case] = &[
    (
        "a sibling's read holds a record of a live parent",
        "+0; +1; +1; r 3 5 = read 0 2; w 2 0 1; c 2 = committed 1; +0 = started 4; c 3 = committed 0; +0 = started 2;
         +0 = started 3",
    ),
    (
        "so does a read two levels below it",
        "+0; +1; +1; +3; r 4 5 = read 0 3; w 2 0 1; c 2 = committed 1; +0 = started 5; a 4 = aborted 1 0;
         +0 = started 2",
    ),
    (
        "a read that came up holds it further",
        "+0; +1; +1; +3; r 4 5 = read 0 3; w 2 0 1; c 2 = committed 1; c 4 = committed 0; +0 = started 4;
         +0 = started 5; c 3 = committed 0; +0 = started 2",
    ),
    ("the parent's own read does not", "+0; r 1 5 = read 0 1; +1; w 2 0 1; c 2 = committed 1; +0 = started 2"),
    (
        "a read below another parent does not",
        "+0; +0; +1; +2; r 4 5 = read 0 2; w 3 0 1; c 3 = committed 1; +0 = started 3",
    ),
    (
        "a topaction's record goes by the topaction time",
        "+0; +0; w 1 0 1; c 1 = committed 1; counters 1 1; times 2 5 1 0; +0 = started 1",
    ),
    (
        "a topaction's record goes by the topaction time, whatever the other",
        "+0; +0; w 1 0 1; c 1 = committed 1; counters 1 1; times 2 5 0 1; +0 = started 3",
    ),
    (
        "a topaction's record goes by a subaction's topaction time",
        "+0; +0; +2; w 1 0 1; c 1 = committed 1; counters 1 1; times 3 5 0 1; +0 = started 4; times 3 5 1 0;
         +0 = started 1",
    ),
    (
        "a subaction's record goes by the subaction time",
        "+0; +1; +1; w 2 0 1; c 2 = committed 1; counters 1 1; times 3 5 0 1; +0 = started 2",
    ),
    (
        "a subaction's record goes by the subaction time, whatever the other",
        "+0; +1; +1; w 2 0 1; c 2 = committed 1; counters 1 1; times 3 5 1 0; +0 = started 4",
    ),
    ("one that wrote nothing is free", "+0; r 1 0 = read 0 1; +0; c 2 = committed 0; +0 = started 2"),
    ("one that was aborted is free", "+0; r 1 0 = read 0 1; +0; w 2 0 1; a 2 = aborted 1 0; +0 = started 2"),
    (
        "one that failed is free, and the record that failed it with it",
        "+0; +0; r 1 0 = read 0 1; w 1 1 1; w 2 0 1; c 2 = committed 1; +0 = started 3; c 1 = failed 1 0;
         +0 = started 1; +0 = started 2",
    ),
    (
        "one that only added is a record",
        "+0; r 1 5 = read 0 1; +0; d 2 24 0; c 2 = committed 1; +0 = started 3; a 1 = aborted 1 0; +0 = started 1;
         +0 = started 2",
    ),
    (
        "one that waits holds a record, until it leaves",
        "+0; +0; r 1 5 = read 0 1; w 2 0 1; c 2 = committed 1; e 1; +0 = started 3; j 1 = ready 1; +0 = started 1;
         +0 = started 2",
    ),
    (
        "the children of one that gave up hold nothing",
        "+0; +1; +1; r 3 5 = read 0 2; w 2 0 1; c 2 = committed 1; a 1 = aborted 2 0; +0 = started 1; +0 = started 2;
         +0 = started 3",
    ),
    (
        "a record of the store outlives the parent of its reader",
        "+0; +0; +1; r 3 5 = read 0 2; w 2 0 1; c 2 = committed 1; c 3 = committed 0; +0 = started 3; c 1 = committed 0;
         +0 = started 1; +0 = started 2",
    ),
    (
        "the lowest of several is given",
        "+0; +0; +0; +0; a 3 = aborted 1 0; a 2 = aborted 1 0; +0 = started 2; +0 = started 3; +0 = started 5",
    ),
    (
        "the highest number never falls",
        "+0; +0; a 2 = aborted 1 0; a 1 = aborted 1 0; highest = 2; c 2 = refused 5; c 3 = refused 4; +0 = started 1;
         highest = 2; r 2 0 = refused 5; +2 = refused 5; +3 = refused 4; +0 = started 2; highest = 2; +0 = started 3;
         highest = 3",
    ),
    ("all are live but one", "64 * +0; +0 = refused 6; a 9 = aborted 1 0; +0 = started 9; +0 = refused 6"),
    ("4 and 5 come before 6", "64 * +0; +65 = refused 4; a 64 = aborted 1 0; +64 = refused 5; +0; +0 = refused 6"),
];

/// What a start leaves of the number's last holder.
const GIVEN: &[Case] = &[
    (
        "nothing is left in its row",
        "+0; w 1 0 1; r 1 1 = read 0 1; d 1 24 5; end 1 9; sub-time 1 3 7; kept 1 31 8; a 1 = aborted 1 0;
         +0 = started 1; r 1 0 = read 0 1; own 1 24 = 0; pending 1 24 = 0; kept 1 31 = 0; times 1 1 = none;
         sub-time 1 1 = 0; sub-time 1 3 = 0; end 1 = 0; state 1 = live; parent 1 = 0; c 1 = committed 0",
    ),
    (
        "its finished children are nobody's",
        "+0; +1; w 2 0 1; c 2 = committed 1; +1 = started 2; w 2 0 1; c 2 = committed 2; a 1 = aborted 1 0;
         +0 = started 1; parent 1 = 0; parent 2 = 2; state 2 = committed; end 2 = 2; +1 = started 2; parent 2 = 1",
    ),
    (
        "so are those of one that committed",
        "+0; +1; c 2 = committed 0; c 1 = committed 0; +0 = started 1; parent 2 = 2",
    ),
    (
        "theirs stay theirs, as long as they are held",
        "+0; +1; +2; a 1 = aborted 3 0; +0 = started 1; parent 2 = 2; parent 3 = 2; +0 = started 2; parent 3 = 3",
    ),
    (
        "its records are not the next holder's",
        "+0; +1; +1; w 3 0 1; c 3 = committed 1; a 1 = aborted 2 0; +0 = started 1; parent 3 = 3; +1 = started 2;
         times 2 0 0 0; c 2 = committed 0",
    ),
    (
        "nor are they of one of the other kind",
        "+0; +0; +2; w 3 0 1; c 3 = committed 1; c 2 = committed 1; +1 = started 2; parent 3 = 3; +2 = started 3;
         parent 3 = 2; r 3 0 = read 0 3; c 3 = committed 0; c 2 = committed 0",
    ),
    ("rows above the highest number are not looked at", "parent 5 1; state 5 2; +0 = started 1; parent 5 = 1; +0; +0"),
    (
        "entries in its row stay",
        "+0; +0; e 1; e 2; j 1 = ready 1; entry 1 = 2 0 0; +0 = started 1; entry 1 = 2 0 0; entry 2 = 2 0 0;
         length = 1",
    ),
    (
        "a child whose number is below its parent's",
        "+0; +0; w 2 3 7; a 1 = aborted 1 0; +2 = started 1; r 1 3 = read 2 1; r 2 3 = refused 9; w 1 3 8;
         c 1 = committed 1; look 2 3 = 8 0; c 2 = committed 1; card 3 = 8",
    ),
    (
        "an abort of a parent above its children",
        "+0; +0; a 1 = aborted 1 0; +2 = started 1; +1 = started 3; e 3; a 2 = aborted 3 0; sub-length = 0;
         state 1 = aborted; state 3 = aborted",
    ),
    (
        "a number means its holder at the event",
        "+0; a 1 = aborted 1 0; r 1 0 = refused 5; look 1 0 = refused 5; +0 = started 1; r 1 0 = read 0 1;
         look 1 0 = 0 1",
    ),
    (
        "the next holder is judged for itself",
        "+0; +0; r 1 0 = read 0 1; w 2 0 1; c 2 = committed 1; c 1 = failed 1 0; +0 = started 1; r 1 0 = read 0 1;
         w 1 0 2; c 1 = committed 2; card 0 = 2",
    ),
];

/// Tables that a caller may lend, and that events from a new table do not lead to.
const LENT: &[Case] = &[
    (
        "a finished action is its own parent",
        "+0; +0; a 1 = aborted 1 0; parent 1 1; r 2 0 = read 0 1; c 2 = committed 0",
    ),
    (
        "a ring of two finished actions",
        "+0; +0; +0; a 1 = aborted 1 0; a 2 = aborted 1 0; parent 1 2; parent 2 1; a 3 = aborted 1 0;
         tree = 0 3 aborted; +0 = started 1; parent 2 = 2; tree = 0 1 live, 0 3 aborted",
    ),
    (
        "a ring of three finished actions, all records",
        "+0; +0; +0; +0; w 1 0 1; w 2 1 1; w 3 2 1; c 1 = committed 1; c 2 = committed 2; c 3 = committed 3; parent 1 2;
         parent 2 3; parent 3 1; counters 3 3; times 4 0 0 0; newest 0 0 0; c 4 = committed 0; +0 = started 1;
         parent 3 = 3; parent 2 = 3",
    ),
    (
        "one below a ring of finished actions",
        "+0; +0; +0; +0; a 1 = aborted 1 0; a 2 = aborted 1 0; a 3 = aborted 1 0; parent 1 2; parent 2 1; parent 3 1;
         d 4 24 1; c 4 = committed 1; tree = 0 4 committed 24 1 1, account 24 0 1 1; +0 = started 1; parent 3 = 3;
         parent 2 = 2",
    ),
    (
        "a record that is its own parent is not needed",
        "+0; +1; +1; w 2 0 1; c 2 = committed 1; times 3 5 0 0; parent 2 2; +0 = started 2",
    ),
    (
        "nor does it fail anybody",
        "+0; +1; +1; w 2 0 1; c 2 = committed 1; times 3 0 0 0; parent 2 2; newest 1 0 0; c 3 = committed 0",
    ),
    (
        "a finished parent's record is not needed, though one reads below it",
        "+0; +1; +1; +0; w 2 0 1; c 2 = committed 1; a 1 = aborted 2 0; r 4 5 = read 0 1; times 4 5 0 0; +4 = started 1;
         parent 2 = 2; +4 = started 2",
    ),
    (
        "all one below the other, from the highest number down",
        "+0; +0; +0; parent 1 2; parent 2 3; r 1 0 = read 0 3; w 1 0 4; c 1 = committed 1; c 2 = committed 2;
         look 3 0 = 4 0; a 3 = aborted 1 0; state 1 = committed",
    ),
    (
        "an end time that is a grandchild's too, after the start",
        "+0; +1; +2; w 3 0 1; c 3 = committed 1; c 2 = committed 2; end 3 2; a 1 = aborted 1 0; +0 = started 1;
         parent 2 = 2; parent 3 = 2; r 1 0 = read 0 1",
    ),
];

/// Clauses 7.2, 7.3, 7.5, 7.6, 7.9 and 7.14, each broken alone, and what they leave free.
const SOUND: &[Case] = &[
    ("a number above all (7.2)", "+0; highest 65; r 1 0 = refused 2; tree = refused 2; highest 1; r 1 0 = read 0 1"),
    ("the greatest number (7.2)", "highest 18446744073709551615; +0 = refused 2"),
    ("a topactions' counter (7.3)", "counters 4000000001 0; +0 = refused 2; counters 4000000000 0; +0"),
    ("a subactions' counter (7.3)", "counters 0 4000000001; +0 = refused 2; counters 0 4000000000; +0"),
    (
        "a topactions' counter beside its queue (7.3)",
        "+0; +0; e 1; counters 4000000000 0; r 2 0 = refused 2; counters 3999999999 0; r 2 0 = read 0 1",
    ),
    (
        "a subactions' counter beside its queue (7.3)",
        "+0; +1; e 2; counters 0 4000000000; +0 = refused 2; counters 0 3999999999; +0",
    ),
    (
        "a queue of the other kind is not counted",
        "+0; +1; e 2; counters 4000000000 0; +0; counters 4000000000 3999999999; +0",
    ),
    ("nor is it the other way", "+0; e 1; counters 0 4000000000; +0; counters 3999999999 4000000000; +0"),
    ("the greatest counter (7.3)", "counters 18446744073709551615 0; +0 = refused 2"),
    ("the greatest counter beside a queue (7.3)", "+0; e 1; counters 18446744073709551615 0; +0 = refused 2"),
    (
        "counters that nobody has raised",
        "counters 5 7; +0; r 1 0 = read 0 1; times 1 0 = 5 7; w 1 0 1; c 1 = committed 6",
    ),
    (
        "a finished action's parent above the highest number (7.5)",
        "+0; +0; a 2 = aborted 1 0; parent 2 3; +0 = refused 2; parent 2 18446744073709551615; +0 = refused 2;
         parent 2 2; +0 = started 2",
    ),
    (
        "a live action's parent above the highest number (7.5)",
        "+0; parent 1 2; +0 = refused 2; parent 1 65; +0 = refused 2",
    ),
    (
        "a finished parent of a live action (7.6)",
        "+0; +0; a 2 = aborted 1 0; parent 1 2; r 1 0 = refused 2; parent 1 0; r 1 0 = read 0 1",
    ),
    ("a live parent above its child", "+0; +0; parent 1 2; r 2 0 = refused 9; r 1 0 = read 0 2"),
    (
        "two end times of one parent (7.9)",
        "+0; +1; +1; w 2 0 1; w 3 0 1; c 2 = committed 1; c 3 = committed 2; end 3 1; r 1 0 = refused 2; parent 3 3;
         r 1 0 = read 1 0",
    ),
    (
        "two end times of one parent that is one of them",
        "+0; +0; +0; w 1 0 1; w 2 0 1; c 1 = committed 1; c 2 = committed 2; counters 2 2; end 2 1; r 3 0 = refused 2;
         parent 1 1; parent 2 1; r 3 0 = read 0 1",
    ),
    (
        "two end times of two that are their own parents",
        "+0; +1; +1; w 2 0 1; w 3 0 1; c 2 = committed 1; c 3 = committed 2; end 3 1; parent 2 2; parent 3 3;
         r 1 0 = read 1 0",
    ),
    (
        "two end times of one finished parent (7.9)",
        "+0; +1; +1; +0; w 2 0 1; w 3 0 1; c 2 = committed 1; c 3 = committed 2; a 1 = aborted 1 0; end 3 1;
         r 4 0 = refused 2; end 3 2; r 4 0 = read 0 1",
    ),
    (
        "a live action is its own parent (7.14)",
        "+0; parent 1 1; r 1 0 = refused 2; +0 = refused 2; parent 1 0; r 1 0 = read 0 1",
    ),
    (
        "a ring of two live actions (7.14)",
        "+0; +0; +0; parent 1 2; parent 2 1; r 3 0 = refused 2; parent 2 0; r 3 0 = read 0 1",
    ),
    (
        "a ring of three live actions, and one below it (7.14)",
        "+0; +0; +0; +0; parent 1 2; parent 2 3; parent 4 1; r 4 0 = read 0 4; parent 3 1; r 4 0 = refused 2;
         a 1 = refused 2; tree = refused 2",
    ),
    (
        "a ring that a committed action closes (7.6)",
        "+0; +0; parent 1 2; c 1 = committed 0; parent 2 1; r 2 0 = refused 2; parent 2 0; r 2 0 = read 0 1",
    ),
    ("any kept sums", "+0; kept 0 24 -9223372036854775808; kept 1 31 9223372036854775807; r 1 0 = read 0 1"),
];

const CAUSES: &[Case] = &[
    ("19 of a commit that wrote nothing", "+0; counters 4000000000 0; c 1 = refused 19; state 1 = live"),
    (
        "19 of a commit, and one below",
        "+0; +0; w 1 0 1; counters 3999999999 0; c 1 = committed 4000000000; counters = 4000000000 0; c 2 = refused 19",
    ),
    (
        "19 of a subaction's commit, and one below",
        "+0; +1; +1; w 2 0 1; counters 0 3999999999; c 2 = committed 4000000000; c 3 = refused 19;
         counters = 0 4000000000",
    ),
    (
        "19 comes before a clash",
        "+0; +0; r 1 0 = read 0 1; w 2 0 1; c 2 = committed 1; counters 4000000000 0; c 1 = refused 19; state 1 = live;
         counters 3999999999 0; c 1 = failed 1 0",
    ),
    (
        "19 of an enter",
        "+0; counters 4000000000 0; e 1 = refused 19; length = 0; counters 3999999999 0; e 1; length = 1",
    ),
    (
        "19 of an enter beside its queue",
        "+0; +0; e 1; counters 3999999999 0; e 2 = refused 19; j 1 = ready 1; e 2; j 2 = ready 1",
    ),
    ("19 of a subaction's enter", "+0; +1; +1; e 2; counters 0 3999999999; e 3 = refused 19; j 2 = ready 1; e 3"),
    (
        "the other kind's counter is not asked",
        "+0; counters 0 4000000000; w 1 0 1; c 1 = committed 1; +0; e 1; j 1 = ready 1",
    ),
    (
        "nor is the topactions' for a subaction",
        "+0; +1; counters 4000000000 0; w 2 0 1; c 2 = committed 1; c 1 = refused 19; +1; e 2; j 2 = ready 1",
    ),
    (
        "those who leave come up to the most",
        "+0; +0; w 1 0 1; w 2 0 1; e 1; e 2; counters 3999999998 0; j 2 = ready 0; j 1 = ready 2;
         counters = 4000000000 0",
    ),
    ("9 comes before 19", "+0; +1; counters 4000000000 0; c 1 = refused 9; e 1 = refused 9"),
    ("16 comes before 19", "+0; e 1; counters 3999999999 0; c 1 = refused 16; e 1 = refused 16"),
    ("18 comes before 19", "+0; +0; e 1; counters 3999999999 0; c 2 = refused 18"),
    (
        "19 comes before 15",
        "amount 24 9223372036854775807; +0; d 1 24 1; counters 4000000000 0; c 1 = refused 19; counters 0 0;
         c 1 = refused 15",
    ),
    (
        "no other event asks the counters",
        "+0; +0; counters 4000000000 4000000000; r 1 0 = read 0 1; w 1 0 1; d 1 24 1; +1; look 3 0 = 1 1;
         a 1 = aborted 2 0; +0 = started 1",
    ),
];

/// Kept sums, and cause 15 for them.
const KEPT: &[Case] = &[
    (
        "of the store",
        "+0; d 1 24 5; kept 1 24 = 0; own 1 24 = 5; c 1 = committed 1; kept 0 24 = 5; kept 1 24 = 0; +0 = started 1;
         d 1 24 -7; c 1 = committed 2; kept 0 24 = -2",
    ),
    (
        "of a parent, with what its children kept",
        "+0; +1; +2; d 3 24 5; c 3 = committed 1; kept 2 24 = 5; kept 1 24 = 0; d 2 24 2; c 2 = committed 2;
         kept 1 24 = 7; c 1 = committed 1; kept 0 24 = 7; own 1 24 = 0",
    ),
    (
        "a child that was dropped stays in it",
        "+0; +1; d 2 24 5; c 2 = committed 1; +1 = started 2; kept 1 24 = 5; d 2 24 7; c 2 = committed 2;
         kept 1 24 = 12",
    ),
    (
        "an aborted child is not in it",
        "+0; +1; d 2 24 5; a 2 = aborted 1 0; kept 1 24 = 0; c 1 = committed 0; kept 0 24 = 0",
    ),
    (
        "a child that failed is not in it",
        "+0; +1; +1; d 2 24 5; r 2 0 = read 0 2; w 3 0 1; c 3 = committed 1; c 2 = failed 1 0; kept 1 24 = 0",
    ),
    (
        "15 of the store's alone",
        "kept 0 24 9223372036854775807; +0; d 1 24 1; c 1 = refused 15; state 1 = live; amount 24 = 0;
         kept 0 24 9223372036854775806; c 1 = committed 1; kept 0 24 = 9223372036854775807; amount 24 = 1",
    ),
    (
        "15 of an account that is not in the write set",
        "+0; kept 1 31 -1; kept 0 31 -9223372036854775808; c 1 = refused 15; kept 0 31 0; c 1 = committed 0;
         kept 0 31 = -1; amount 31 = 0; counters = 0 0",
    ),
    (
        "15 of own adds that are not in the write set",
        "+0; +1; own 2 25 1; kept 1 25 9223372036854775807; c 2 = refused 15; kept 1 25 0; c 2 = committed 0;
         kept 1 25 = 1; pending 1 25 = 0",
    ),
    (
        "15 of a parent's alone",
        "+0; +1; d 2 24 -1; kept 1 24 -9223372036854775808; c 2 = refused 15; state 2 = live;
         kept 1 24 -9223372036854775807; c 2 = committed 1; kept 1 24 = -9223372036854775808; pending 1 24 = -1",
    ),
    (
        "a total that is no amount, in a sum that is",
        "+0; +1; own 2 24 9223372036854775807; kept 2 24 1; kept 1 24 -1; tree = refused 15; c 2 = committed 0;
         kept 1 24 = 9223372036854775807; tree = refused 15",
    ),
    (
        "a clash comes before it",
        "kept 0 24 9223372036854775807; +0; +0; d 1 24 1; r 1 0 = read 0 1; w 2 0 1; c 2 = committed 1;
         c 1 = failed 1 0",
    ),
    (
        "an enter is not asked, and the head leaves as aborted",
        "kept 0 24 9223372036854775807; +0; +0; d 1 24 1; w 1 0 1; e 1; e 2; j 2 = ready 0; j 1 = ready 2;
         state 1 = aborted; state 2 = committed; amount 24 = 0; card 0 = 0; kept 0 24 = 9223372036854775807;
         counters = 0 0",
    ),
    (
        "a subaction at the head, likewise, by an account that is not in its write set",
        "+0; +1; +0; kept 2 31 1; kept 1 31 9223372036854775807; w 2 0 1; e 2; sub-entry 1 2 0 1; a 3 = aborted 1 1;
         state 2 = aborted; kept 1 31 = 9223372036854775807; counters = 0 0",
    ),
    (
        "the head makes room for the next one's",
        "kept 0 24 9223372036854775807; +0; +0; d 1 24 3; d 2 24 -3; e 2; e 1; j 1 = ready 0; j 2 = ready 2;
         state 1 = committed; kept 0 24 = 9223372036854775807; amount 24 = 0",
    ),
];

/// What stands in the opening store of the trees of docs/RULES.md, 13.
macro_rules! opened {
    ($events:literal) => {
        concat!("amount 24 1000; amount 31 -5; ", $events)
    };
}

/// Those of docs/RULES.md by number, and others.
const TREES: &[Case] = &[
    ("1", opened!("tree = account 24 1000 0 1000, account 31 -5 0 -5")),
    (
        "2",
        opened!(
            "+0; +0; +0; d 1 24 500; d 2 25 9; +1; +1; +2; d 4 24 -200; d 4 31 7; c 4 = committed 1; d 5 24 40;
             a 5 = aborted 1 0; c 1 = committed 1; d 6 25 -2; c 6 = committed 2; c 3 = committed 0;
             tree = 0 1 committed 24 500 300 31 0 7, 1 4 committed 24 -200 -200 31 7 7, 1 5 aborted 24 40 40,
             0 2 live 25 9 7, 1 6 committed 25 -2 -2, 0 3 committed, account 24 1000 300 1300, account 31 -5 7 2"
        ),
    ),
    (
        "3",
        opened!(
            "+0; d 1 24 5; +1; d 2 24 7; +2; d 3 25 1; a 1 = aborted 3 0; c 2 = refused 5;
             tree = 0 1 aborted 24 5 5, 1 2 aborted 24 7 7, 2 3 aborted 25 1 1,
             account 24 1000 0 1000, account 31 -5 0 -5"
        ),
    ),
    ("4", "+0; +1; d 2 24 5; c 2 = committed 1; +1 = started 2; d 2 25 7; tree = 0 1 live 24 0 5, 1 2 live 25 7 7"),
    ("5", "+0; +1; +1; d 3 24 5; c 3 = committed 1; a 1 = aborted 2 0; +0 = started 1; tree = 0 1 live"),
    (
        "6",
        opened!(
            "+0; +0; d 1 24 5; c 1 = committed 1; a 2 = aborted 1 0; +0 = started 1; +1 = started 2; d 2 24 2;
             tree = 0 1 live, 1 2 live 24 2 2, account 24 1000 5 1005, account 31 -5 0 -5"
        ),
    ),
    (
        "a child's number below its parent's",
        "+0; +0; a 1 = aborted 1 0; +2 = started 1; +0 = started 3; +1 = started 4;
         tree = 0 2 live, 1 1 live, 2 4 live, 0 3 live",
    ),
    (
        "one who is free is shown until its number is given",
        "+0; d 1 24 5; c 1 = committed 1; tree = 0 1 committed 24 5 5, account 24 0 5 5; +0 = started 1;
         tree = 0 1 live, account 24 0 5 5",
    ),
    (
        "those below one who was dropped are not shown, nor below the next holder",
        "+0; +1; +2; d 3 24 5; c 3 = committed 1; a 1 = aborted 2 0; +0 = started 1; d 1 25 1; tree = 0 1 live 25 1 1",
    ),
    (
        "a total that is no amount, of one who is not shown",
        "+0; +0; a 1 = aborted 1 0; own 1 24 9223372036854775807; kept 1 24 1; tree = refused 15; parent 1 1;
         tree = 0 2 live",
    ),
    (
        "sums that nobody made",
        "+0; kept 0 24 -9223372036854775808; tree = 0 1 live, account 24 0 -9223372036854775808 0",
    ),
];

/// All of them, each group with its name.
pub const GROUPS: &[(&str, &[Case])] = &[
    ("worked", WORKED),
    ("needed", NEEDED),
    ("given again", GIVEN),
    ("lent table", LENT),
    ("sound table", SOUND),
    ("counters at their most", CAUSES),
    ("kept sums", KEPT),
    ("tree", TREES),
];

/// How many times case 45 starts an action.
const MANY: usize = 300;

/// Cases of many actions, whose scripts are too long to be written down.
pub fn long() -> Vec<(&'static str, String)> {
    let writer =
        |number: usize, end: usize| format!("+0 = started {number}; w {number} 0 1; c {number} = committed {end}; ");
    let needed: String = (2..=ACTIONS).map(|n| writer(n, n - 1)).collect();
    let again: String = (1..=MANY).map(|end| writer(1, end)).collect();
    let below = |n: usize| if n < ACTIONS { n + 1 } else { 0 };
    let falling: String = (1..=ACTIONS).map(|n| format!("parent {n} {}; ", below(n))).collect();
    let hung = format!("{ACTIONS} * +0; {falling}");
    let records = ACTIONS - 1;
    vec![
        (
            "44",
            format!(
                "+0; r 1 31 = read 0 1 0; {needed}+0 = refused 6; c 1 = committed 0; +0 = started 1; +0 = started 2;
                 counters = {records} 0"
            ),
        ),
        ("45", format!("{again}counters = {MANY} 0")),
        (
            "all hang one below the other, the highest above",
            format!("{hung}r 1 0 = read 0 {ACTIONS}; a {ACTIONS} = aborted {ACTIONS} 0"),
        ),
        ("all hang in a ring (7.14)", format!("{hung}parent {ACTIONS} 1; r 1 0 = refused 2; a {ACTIONS} = refused 2")),
        (
            "all but one hang in a ring of finished actions",
            format!(
                "{ACTIONS} * +0; {}parent {records} 1; +0 = started 1; r {ACTIONS} 0 = read 0 1",
                (1..ACTIONS).map(|n| format!("a {n} = aborted 1 0; parent {n} {}; ", n + 1)).collect::<String>()
            ),
        ),
    ]
}
