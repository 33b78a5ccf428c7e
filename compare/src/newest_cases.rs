//! Cases of the newest end times, as scripts: what a start and a commit make of them, the verdicts beside them, and the
//! two clauses of a sound table.

use crate::header::ACTIONS;
use crate::queue_cases::Case;

/// Those of docs/RULES.md, 13, by number. 2, 4 and 6 go on where 1, 3 and 5 end.
const WORKED: &[Case] = &[
    ("1", "+0; w 1 0 1; c 1 = committed 1; newest 0 = 0 1; newest 1 = none"),
    (
        "2",
        "+0; w 1 0 1; c 1 = committed 1; +0 = started 1; newest 0 = 0 1; r 1 0 = read 0 1; c 1 = committed 0;
         newest 0 = 0 1; newest 1 = none",
    ),
    ("3", "+0; +1; w 2 3 1; c 2 = committed 1; newest 1 = 3 1; newest 0 = none; newest 2 = none"),
    (
        "4",
        "+0; +1; w 2 3 1; c 2 = committed 1; c 1 = committed 1; newest 0 = 3 1; newest 1 = 3 1; +0 = started 1;
         newest 0 = 3 1; newest 1 = none",
    ),
    (
        "5",
        "+0; r 1 9 = read 0 1; +0; w 2 0 1; c 2 = committed 1; newest 0 = 0 1; +0; w 3 0 1; w 3 1 1; c 3 = committed 2;
         newest 0 = 0 2, 1 2; +0; r 4 0 = read 0 1; +0; w 5 1 1; c 5 = committed 3; newest 0 = 0 2, 1 3",
    ),
    (
        "6",
        "+0; r 1 9 = read 0 1; +0; w 2 0 1; c 2 = committed 1; +0; w 3 0 1; w 3 1 1; c 3 = committed 2; +0;
         r 4 0 = read 0 1; +0; w 5 1 1; c 5 = committed 3; r 4 1 = read 0 1; c 4 = committed 0; newest 0 = 0 2, 1 3;
         c 1 = committed 0; newest 0 = 0 2, 1 3",
    ),
    (
        "7",
        "+0; +1; r 2 6 = read 0 2; +0; w 3 6 1; newest 0 = none; c 3 = committed 1; newest 0 = 6 1; +1;
         r 4 6 = read 0 2; newest 0 = 6 1; c 2 = committed 0; newest 0 = 6 1; c 4 = committed 0; newest 0 = 6 1;
         newest 1 = none; c 1 = failed 1 6; newest 0 = 6 1",
    ),
];

/// What events make of them.
const KEPT: &[Case] = &[
    (
        "a commit notes every account of its write set",
        "+0; w 1 0 1; w 1 23 1; d 1 24 0; d 1 31 1; r 1 7 = read 0 1; c 1 = committed 1;
         newest 0 = 0 1, 23 1, 24 1, 31 1",
    ),
    (
        "the later of two stands, and the other's other accounts stay",
        "+0; +0; w 1 0 1; w 1 2 1; w 2 0 1; w 2 1 1; c 2 = committed 1; c 1 = committed 2; newest 0 = 0 2, 1 1, 2 2",
    ),
    (
        "a commit that wrote nothing notes nothing",
        "+0; +0; w 1 0 1; c 1 = committed 1; r 2 5 = read 0 1; +2 = started 1; c 1 = committed 0; newest 2 = none;
         c 2 = committed 0; newest 0 = 0 1",
    ),
    (
        "nor does one that fails",
        "+0; +0; r 1 0 = read 0 1; w 1 1 1; w 2 0 1; c 2 = committed 1; c 1 = failed 1 0; newest 0 = 0 1",
    ),
    ("nor does an abort", "+0; w 1 0 1; +1; w 2 0 1; a 1 = aborted 2 0; newest 0 = none; newest 1 = none"),
    (
        "nor does a commit that is refused",
        "amount 24 9223372036854775807; +0; d 1 24 1; w 1 0 1; c 1 = refused 15; newest 0 = none; state 1 = live",
    ),
    (
        "those who leave a queue note theirs, in their order",
        "+0; +0; w 1 0 1; w 1 2 1; w 2 0 2; w 2 1 2; e 1; e 2; j 2 = ready 0; newest 0 = none; j 1 = ready 2;
         newest 0 = 0 2, 1 2, 2 1",
    ),
    (
        "a subaction that leaves notes its own at its parent",
        "+0; +1; +0; w 2 5 1; e 2; sub-entry 1 2 0 1; a 3 = aborted 1 1; newest 1 = 5 1; newest 0 = none",
    ),
    (
        "one that leaves as aborted notes nothing",
        "amount 24 9223372036854775807; +0; +0; d 1 24 1; w 1 0 1; w 2 1 1; e 1; e 2; j 2 = ready 0; j 1 = ready 2;
         newest 0 = 1 1",
    ),
    (
        "a grandchild's come up when its parent commits, with that one's end time",
        "+0; +1; +2; w 3 7 1; c 3 = committed 1; newest 2 = 7 1; newest 1 = none; w 2 8 1; c 2 = committed 2;
         newest 2 = 7 1; newest 1 = 7 2, 8 2; newest 0 = none; c 1 = committed 1; newest 0 = 7 1, 8 1;
         newest 1 = 7 2, 8 2",
    ),
    (
        "each parent has its own",
        "+0; +0; +1; +2; w 3 0 1; w 4 0 1; c 4 = committed 1; c 3 = committed 2; newest 1 = 0 2; newest 2 = 0 1;
         newest 0 = none",
    ),
    (
        "a dropped child stays in them",
        "+0; +1; w 2 0 1; c 2 = committed 1; +1 = started 2; newest 1 = 0 1; w 2 1 1; c 2 = committed 2; +1 = started 2;
         newest 1 = 0 1, 1 2",
    ),
    (
        "a start leaves those of its parent, of the store and of others",
        "+0; +1; w 2 0 1; c 2 = committed 1; +0 = started 2; w 2 1 1; c 2 = committed 1; +1 = started 2;
         newest 0 = 1 1; newest 1 = 0 1; newest 2 = none; +0 = started 3; newest 0 = 1 1; newest 1 = 0 1",
    ),
    (
        "a start clears whatever stood there",
        "newest 1 0 9; newest 1 31 18446744073709551615; entry 1 1 2 3; +0; newest 1 = none; entry 1 = 1 2 3",
    ),
    (
        "a start clears those of one that gave up",
        "+0; +1; w 2 0 1; c 2 = committed 1; a 1 = aborted 1 0; newest 1 = 0 1; +0 = started 1; newest 1 = none;
         parent 2 = 2",
    ),
    (
        "a read, a write, an add, an enter and a judge leave them",
        "+0; counters 3 3; newest 0 0 3; newest 1 1 2; r 1 2 = read 0 1; w 1 3 1; d 1 24 1; newest 0 = 0 3;
         newest 1 = 1 2; e 1; newest 0 = 0 3; j 1 = ready 1; newest 0 = 0 3, 3 4, 24 4; newest 1 = 1 2",
    ),
    (
        "a commit notes its end time whatever stood there",
        "+0; +1; counters 7 5; newest 0 0 7; newest 0 1 6; newest 1 0 4; newest 1 2 5; w 2 0 1; c 2 = committed 6;
         newest 1 = 0 6, 2 5; newest 0 = 0 7, 1 6; c 1 = committed 8; newest 0 = 0 8, 1 6",
    ),
];

/// Verdicts, of which the newest end times must know.
const VERDICTS: &[Case] = &[
    (
        "the clash that is named is the first, not the newest",
        "+0; +0; +0; r 1 0 = read 0 1; w 2 0 1; w 3 0 1; c 3 = committed 1; c 2 = committed 2; newest 0 = 0 2;
         c 1 = failed 1 0",
    ),
    (
        "nor is it that of the first account that is stale",
        "+0; +0; +0; r 1 0 = read 0 1; r 1 1 = read 0 1; w 2 1 1; w 3 0 1; c 2 = committed 1; c 3 = committed 2;
         c 1 = failed 1 1",
    ),
    (
        "one stale read of several is enough",
        "+0; +0; d 2 31 0; c 2 = committed 1; times 1 31 0 0; r 1 0 = read 0 1; r 1 30 = read 0 1 0;
         c 1 = failed 1 31",
    ),
    (
        "an account that was written before the read, beside one written since",
        "+0; +0; +0; w 2 5 1; c 2 = committed 1; r 1 5 = read 0 1; w 3 6 1; c 3 = committed 2; newest 0 = 5 1, 6 2;
         c 1 = committed 0",
    ),
    (
        "later than the records, and the record's time is named",
        "+0; +0; r 1 0 = read 0 1; w 2 0 1; c 2 = committed 1; counters 7 0; newest 0 0 7; c 1 = failed 1 0",
    ),
    (
        "earlier than the last record, and the first one's time is named",
        "+0; +0; +0; r 1 0 = read 0 1; w 2 0 1; w 3 0 1; c 2 = committed 1; c 3 = committed 2; newest 0 0 1;
         c 1 = failed 1 0",
    ),
    ("without a record, and the read is as late", "+0; counters 5 0; newest 0 0 5; times 1 0 5 0; c 1 = committed 0"),
    (
        "a subaction is judged by its parent's, and not by the store's",
        "+0; +1; r 2 6 = read 0 2; +0; w 3 6 1; c 3 = committed 1; newest 0 = 6 1; newest 1 = none; c 2 = committed 0;
         c 1 = failed 1 6",
    ),
    (
        "a topaction is judged by the store's, and not by another's",
        "+0; +0; +1; r 2 0 = read 0 1; w 3 0 1; c 3 = committed 1; newest 1 = 0 1; c 2 = committed 0",
    ),
    (
        "an enter knows the clash",
        "+0; +0; r 1 0 = read 0 1; w 2 0 1; c 2 = committed 1; +0; w 3 1 1; c 3 = committed 2; e 1; entry 1 = 1 1 0;
         j 1 = failed 0",
    ),
    (
        "a subaction's enter knows the clash",
        "+0; +1; +1; r 2 0 = read 0 2; w 3 0 1; c 3 = committed 1; e 2; sub-entry 1 = 2 1 0; j 2 = failed 0",
    ),
    (
        "a child's stale read comes up and is known",
        "+0; +1; +1; +2; r 4 5 = read 0 3; w 3 5 1; c 3 = committed 1; c 4 = committed 0; newest 1 = 5 1;
         c 2 = failed 1 5",
    ),
    (
        "a child's stale read that stays behind is not known",
        "+0; +0; w 1 5 1; +1; r 3 5 = read 1 1; c 3 = committed 0; w 2 5 1; c 2 = committed 1; newest 0 = 5 1;
         c 1 = committed 2; newest 0 = 5 2",
    ),
];

/// Clause 7.15 broken alone, and what it leaves free.
const IN_TIME: &[Case] = &[
    ("the store's (7.15)", "newest 0 9 1; +0 = refused 2; newest 0 9 0; +0"),
    (
        "the store's, one above the counter (7.15)",
        "+0; w 1 0 1; c 1 = committed 1; newest 0 9 2; +0 = refused 2; tree = refused 2; look 1 0 = refused 2;
         newest 0 9 1; +0",
    ),
    ("the store's greatest (7.15)", "newest 0 31 18446744073709551615; +0 = refused 2; newest 0 31 0; +0"),
    (
        "the store's within the other counter (7.15)",
        "counters 0 5; newest 0 0 5; +0 = refused 2; counters 4 5; +0 = refused 2; counters 5 0; +0",
    ),
    ("a live action's (7.15)", "+0; newest 1 9 1; +0 = refused 2; a 1 = refused 2; newest 1 9 0; +0"),
    ("a live action's last (7.15)", "+0; +1; newest 2 31 1; +0 = refused 2; counters 0 1; +0"),
    (
        "a live action's within the other counter (7.15)",
        "+0; counters 5 4; newest 1 0 5; +0 = refused 2; newest 1 0 4; +0; +1; newest 3 0 5; +0 = refused 2;
         newest 3 0 4; +0",
    ),
    (
        "a committed action's (7.15)",
        "+0; +0; c 1 = committed 0; newest 1 0 1; r 2 0 = refused 2; counters 1 0; r 2 0 = refused 2; counters 0 1;
         r 2 0 = read 0 1",
    ),
    (
        "an aborted action's (7.15)",
        "+0; +1; +0; a 2 = aborted 1 0; newest 2 31 1; r 3 0 = refused 2; newest 2 31 0; r 3 0 = read 0 1",
    ),
    (
        "of one that is its own parent (7.15)",
        "+0; +0; a 1 = aborted 1 0; parent 1 1; newest 1 5 1; r 2 0 = refused 2; newest 1 5 0; r 2 0 = read 0 1",
    ),
    (
        "those above the highest number are not looked at",
        "newest 64 31 18446744073709551615; newest 3 0 9; +0; +0; r 2 0 = read 0 1; +0; newest 3 = none;
         newest 64 = 31 18446744073709551615",
    ),
];

/// Clause 7.16 broken alone.
const TRUE: &[Case] = &[
    (
        "of the store, too early for a grandchild, where the child has read nothing (7.16)",
        "+0; +1; r 2 5 = read 0 2; +0; w 3 5 1; c 3 = committed 1; newest 0 5 0; c 2 = refused 2; +0 = refused 2;
         tree = refused 2; newest 0 5 1; c 2 = committed 0; c 1 = failed 1 5",
    ),
    (
        "of the store, too early for a grandchild, where it is true of the child (7.16)",
        "+0; +1; r 2 5 = read 0 2; +0; w 3 5 1; c 3 = committed 1; times 1 5 1 0; newest 0 5 0; c 2 = refused 2;
         times 2 5 1 0; c 2 = committed 0; c 1 = committed 0",
    ),
    (
        "of the store, too late for a grandchild (7.16)",
        "+0; +1; r 2 5 = read 0 2; counters 1 0; newest 0 5 1; +0 = refused 2; newest 0 5 0; newest 0 6 1; +0",
    ),
    (
        "of the store, too late for a grandchild, where it is true of the child (7.16)",
        "+0; +1; counters 1 0; newest 0 5 1; times 1 5 1 0; times 2 5 0 0; c 2 = refused 2; times 2 5 1 0;
         c 2 = committed 0; c 1 = committed 0",
    ),
    (
        "of the store, too early for a child (7.16)",
        "+0; +0; r 1 5 = read 0 1; w 2 5 1; c 2 = committed 1; newest 0 5 0; c 1 = refused 2; newest 0 5 1;
         c 1 = failed 1 5",
    ),
    (
        "of the store, too late for a child (7.16)",
        "+0; r 1 5 = read 0 1; counters 1 0; newest 0 5 1; c 1 = refused 2; newest 0 5 0; c 1 = committed 0",
    ),
    (
        "of an action, too early for a child (7.16)",
        "+0; +1; +1; r 3 5 = read 0 2; w 2 5 1; c 2 = committed 1; newest 1 5 0; c 3 = refused 2; newest 1 5 1;
         c 3 = failed 1 5",
    ),
    (
        "of an action, too late for a child (7.16)",
        "+0; +1; r 2 5 = read 0 2; counters 0 1; newest 1 5 1; c 2 = refused 2; newest 1 5 0; newest 2 5 1;
         c 2 = committed 0",
    ),
    (
        "of an action, too early for a grandchild (7.16)",
        "+0; +1; +1; +3; r 4 5 = read 0 3; w 2 5 1; c 2 = committed 1; newest 1 5 0; c 4 = refused 2; newest 1 5 1;
         c 4 = committed 0; c 3 = failed 1 5",
    ),
    (
        "of an action, too late for a grandchild (7.16)",
        "+0; +1; +2; r 3 5 = read 0 3; counters 0 1; newest 1 5 1; c 3 = refused 2; newest 1 5 0; newest 2 5 1;
         c 3 = refused 2; newest 2 5 0; newest 3 5 1; c 3 = committed 0",
    ),
    (
        "the store's go by the topaction time (7.16)",
        "+0; +1; counters 1 1; newest 0 5 1; times 2 5 1 0; +0 = started 3; times 2 5 0 1; +0 = refused 2",
    ),
    (
        "an action's go by the subaction time (7.16)",
        "+0; +1; counters 1 1; newest 1 5 1; times 2 5 0 1; +0 = started 3; times 2 5 1 0; +0 = refused 2",
    ),
    (
        "a read one before it, and one at it (7.16)",
        "+0; counters 3 0; newest 0 5 2; times 1 5 1 0; +0 = refused 2; times 1 5 2 0; +0; times 1 5 3 0; +0",
    ),
    (
        "a record that ended at the read (7.16)",
        "+0; +0; w 2 5 1; c 2 = committed 1; r 1 5 = read 0 1; counters 2 0; newest 0 5 2; c 1 = refused 2;
         newest 0 5 1; c 1 = committed 0",
    ),
    (
        "false between the first of two records and the second (7.16)",
        "+0; +0; +0; +0; w 2 5 1; c 2 = committed 1; times 1 5 1 0; times 4 5 0 0; w 3 5 1; c 3 = committed 2;
         newest 0 5 1; c 1 = refused 2; newest 0 5 2; c 1 = failed 2 5; c 4 = failed 1 5",
    ),
    (
        "false for one of two readers (7.16)",
        "+0; +0; counters 2 0; newest 0 5 1; times 1 5 0 0; times 2 5 1 0; +0 = refused 2; times 1 5 1 0; +0",
    ),
    (
        "a child that gave up is no record (7.16)",
        "+0; +0; r 1 5 = read 0 1; w 2 5 1; a 2 = aborted 1 0; end 2 1; counters 1 0; newest 0 5 1; c 1 = refused 2;
         newest 0 5 0; c 1 = committed 0",
    ),
    (
        "nor is one that is live (7.16)",
        "+0; +0; r 1 5 = read 0 1; w 2 5 1; end 2 1; counters 1 0; newest 0 5 1; c 1 = refused 2; newest 0 5 0;
         c 1 = committed 0",
    ),
    (
        "nor is one that wrote another account (7.16)",
        "+0; +0; r 1 5 = read 0 1; w 2 6 1; c 2 = committed 1; newest 0 5 1; c 1 = refused 2; newest 0 5 0;
         c 1 = committed 0",
    ),
    (
        "nor is a child of another parent (7.16)",
        "+0; +0; +2; r 1 5 = read 0 1; w 3 5 1; c 3 = committed 1; counters 1 1; newest 0 5 1; c 1 = refused 2;
         newest 0 5 0; c 1 = committed 0",
    ),
    (
        "nor is one that is its own parent (7.16)",
        "+0; +1; +1; r 3 5 = read 0 2; w 2 5 1; c 2 = committed 1; parent 2 2; c 3 = refused 2; newest 1 5 0;
         c 3 = committed 0",
    ),
    (
        "nor is one above the highest number (7.16)",
        "+0; +0; +0; r 1 5 = read 0 1; w 3 5 1; c 3 = committed 1; highest 2; c 1 = refused 2; newest 0 5 0;
         c 1 = committed 0",
    ),
    (
        "an entry of the write set that is not 1 (7.16)",
        "+0; +0; r 1 5 = read 0 1; w 2 5 1; c 2 = committed 1; wrote 2 5 9; newest 0 5 0; c 1 = refused 2; newest 0 5 1;
         wrote 2 6 7; r 1 6 = read 0 1; times 1 6 0 0; c 1 = refused 2; newest 0 6 1; c 1 = failed 1 5",
    ),
    (
        "one that waits has read as well (7.16)",
        "+0; +0; r 1 5 = read 0 1; e 1; w 2 6 1; counters 1 0; newest 0 5 1; j 1 = refused 2; newest 0 5 0;
         j 1 = ready 1",
    ),
    (
        "one that has a live child has read as well (7.16)",
        "+0; r 1 5 = read 0 1; +1; counters 1 0; newest 0 5 1; r 2 0 = refused 2; newest 0 5 0; r 2 0 = read 0 2",
    ),
    (
        "of the last account (7.16)",
        "+0; +1; r 2 31 = read 0 2 0; counters 1 1; newest 0 31 1; c 2 = refused 2; newest 0 31 0; newest 1 31 1;
         c 2 = refused 2; newest 1 31 0; c 2 = committed 0",
    ),
    (
        "of a charge account (7.16)",
        "+0; +0; r 1 24 = read 0 1 0; d 2 24 0; c 2 = committed 1; newest 0 24 0; c 1 = refused 2; newest 0 24 1;
         c 1 = failed 1 24",
    ),
];

/// What clause 7.16 leaves free.
const FREE: &[Case] = &[
    (
        "of a finished parent, too early for its child",
        "+0; +1; +1; +0; r 3 5 = read 0 2; w 2 5 1; c 2 = committed 1; a 1 = aborted 2 0; newest 1 5 0;
         r 4 0 = read 0 1; c 4 = committed 0",
    ),
    (
        "of a finished parent, too late for its child",
        "+0; +1; +0; r 2 5 = read 0 2; a 1 = aborted 2 0; counters 0 1; newest 1 5 1; r 3 0 = read 0 1; newest 1 5 2;
         r 3 1 = refused 2",
    ),
    (
        "of a committed parent, too late for its child",
        "+0; +1; +0; r 2 5 = read 0 2; c 2 = committed 0; c 1 = committed 0; counters 0 1; newest 1 5 1;
         r 3 0 = read 0 1",
    ),
    (
        "too early for a finished reader alone",
        "+0; +0; +0; r 1 5 = read 0 1; a 1 = aborted 1 0; w 2 5 1; c 2 = committed 1; newest 0 5 0; r 3 0 = read 0 1",
    ),
    (
        "too late for a finished reader alone",
        "+0; +1; +0; r 2 5 = read 0 2; c 2 = committed 0; times 1 5 1 1; counters 1 1; newest 0 5 1; newest 1 5 1;
         r 3 0 = read 0 1; c 1 = committed 0",
    ),
    (
        "of an account that nobody live has read",
        "+0; +0; r 1 6 = read 0 1; w 2 5 1; c 2 = committed 1; newest 0 5 0; newest 0 7 1; r 1 0 = read 0 1;
         c 1 = committed 0",
    ),
    (
        "of an account that only the parent itself has read",
        "+0; r 1 5 = read 0 1; +1; w 2 5 1; c 2 = committed 1; newest 1 5 0; newest 1 6 1; r 1 6 = read 0 1;
         +1 = started 2; c 2 = committed 0; c 1 = committed 1",
    ),
    (
        "of an account that only somebody beside the parent has read",
        "+0; +0; r 2 5 = read 0 1; +1; w 3 5 1; c 3 = committed 1; newest 1 5 0; r 2 0 = read 0 1; newest 1 6 1;
         r 2 6 = read 0 1; c 2 = committed 0",
    ),
    (
        "later than every record, and all have read since",
        "+0; +0; w 2 5 1; c 2 = committed 1; counters 9 0; newest 0 5 8; times 1 5 8 0; +0 = started 2;
         c 1 = committed 0; newest 0 = 5 8",
    ),
    (
        "earlier than a record, and all have read since",
        "+0; +0; w 2 5 1; c 2 = committed 1; r 1 5 = read 0 1; newest 0 5 0; c 1 = committed 0; newest 0 = none",
    ),
    (
        "later than every record, and all have read before",
        "+0; +0; r 1 5 = read 0 1; w 2 5 1; c 2 = committed 1; counters 9 0; newest 0 5 9; +0 = started 3;
         c 1 = failed 1 5",
    ),
    (
        "earlier than a record, and all have read before",
        "+0; +0; r 1 5 = read 0 1; w 2 5 1; c 2 = committed 1; end 2 9; counters 9 0; newest 0 5 3; +0 = started 3;
         c 1 = failed 9 5",
    ),
    (
        "false if times of the other kind were asked",
        "+0; +1; counters 3 3; newest 0 5 2; newest 1 5 1; times 2 5 2 1; times 1 5 2 0; c 2 = committed 0;
         times 1 5 = 2 0; c 1 = committed 0",
    ),
];

/// All of them, each group with its name.
pub const GROUPS: &[(&str, &[Case])] = &[
    ("newest end times, worked", WORKED),
    ("newest end times", KEPT),
    ("known clash", VERDICTS),
    ("newest end times within the counters", IN_TIME),
    ("newest end times that are false", TRUE),
    ("newest end times that are left free", FREE),
];

/// Cases of many actions, whose scripts are too long to be written down.
pub fn long() -> Vec<(&'static str, String)> {
    let last = ACTIONS;
    let chain: String = (0..last).map(|parent| format!("+{parent}; ")).collect();
    let each: String = (1..last)
        .map(|n| format!("newest {n} 5 1; r {last} 0 = refused 2; newest {n} 5 0; newest {n} 6 1; "))
        .collect();
    let records = last - 1;
    let writers: String = (2..=last).map(|n| format!("w {n} 5 1; c {n} = committed {}; ", n - 1)).collect();
    vec![
        (
            "of each of those above the lowest of all, too late (7.16)",
            format!(
                "{chain}times {last} 5 0 0; counters 1 1; {each}newest 0 5 1; r {last} 0 = refused 2; newest 0 5 0;
                 newest {last} 5 1; r {last} 0 = read 0 {last}"
            ),
        ),
        (
            "beside as many records as there can be, too early for the last alone (7.16)",
            format!(
                "{last} * +0; r 1 6 = read 0 1; {writers}newest 0 = 5 {records}; times 1 5 {} 0; newest 0 5 {};
                 c 1 = refused 2; newest 0 5 {records}; c 1 = failed {records} 5",
                records - 1,
                records - 1
            ),
        ),
    ]
}
