//! Cases of the two kinds of action, as scripts: where their times, their queues and the clauses of a sound table have
//! to do with one another, and where not.

use crate::queue_cases::Case;

/// Counters 1 and 1, a topaction 2 with a child 4, and beside each a record: what cases of lent times begin with.
macro_rules! at_one_and_one {
    ($rest:literal) => {
        concat!("+0; +0; +2; +2; w 1 9 1; c 1 = committed 1; w 3 9 1; c 3 = committed 1; counters = 1 1; ", $rest)
    };
}

const TIMES: &[Case] = &[
    (
        "one end time in both kinds",
        "+0; +1; w 2 0 1; c 2 = committed 1; w 1 1 1; c 1 = committed 1; counters = 1 1; end 1 = 1; end 2 = 1",
    ),
    (
        "a commit that wrote nothing raises neither counter",
        "+0; +1; c 2 = committed 0; counters = 0 0; c 1 = committed 0; counters = 0 0",
    ),
    (
        "a read has both counters as its times, of either kind of action",
        "+0; +0; +0; +2; +2; +2; w 1 9 1; c 1 = committed 1; w 4 0 1; c 4 = committed 1; w 5 0 2; c 5 = committed 2;
         r 6 9 = read 0 2; times 6 9 = 1 2; r 3 9 = read 0 1; times 3 9 = 1 2",
    ),
    (
        "a read again keeps both times",
        "+0; r 1 0 = read 0 1; +0; +2; w 3 1 1; c 3 = committed 1; w 2 2 2; c 2 = committed 1; r 1 0 = read 0 1;
         times 1 0 = 0 0; r 1 5 = read 0 1; times 1 5 = 1 1",
    ),
    (
        "those who leave their queues raise their own counter",
        "+0; +0; +2; w 1 0 1; w 3 0 1; e 3; e 1; j 3 = ready 1; counters = 0 1; end 3 = 1; j 1 = ready 1;
         counters = 1 1; end 1 = 1",
    ),
    (
        "a topaction's clash goes by the topaction time",
        at_one_and_one!("times 2 9 1 0; a 4 = aborted 1 0; c 2 = committed 2"),
    ),
    (
        "a topaction's clash goes by the topaction time, whatever the other",
        at_one_and_one!("times 2 9 0 1; a 4 = aborted 1 0; c 2 = failed 1 9"),
    ),
    ("a subaction's clash goes by the subaction time", at_one_and_one!("times 4 9 0 1; c 4 = committed 0")),
    (
        "a subaction's clash goes by the subaction time, whatever the other",
        at_one_and_one!("times 4 9 1 0; c 4 = failed 1 9"),
    ),
    (
        "the verdict of an enter goes by the time of the kind",
        at_one_and_one!("times 4 9 0 1; e 4; sub-entry 1 = 4 0 0; j 4 = ready 1; times 2 9 0 1; e 2; entry 1 = 2 1 0"),
    ),
];

/// What a commit makes of its parent's reads.
const JOINS: &[Case] = &[
    (
        "the topaction time is the child's",
        at_one_and_one!("times 2 0 1 0; times 4 0 0 1; c 4 = committed 0; times 2 0 = 0 0"),
    ),
    (
        "the subaction time is the child's",
        at_one_and_one!("times 2 0 0 1; times 4 0 1 0; c 4 = committed 0; times 2 0 = 0 0"),
    ),
    ("both are the child's", at_one_and_one!("times 2 0 1 1; times 4 0 0 0; c 4 = committed 0; times 2 0 = 0 0")),
    ("neither is the child's", at_one_and_one!("times 2 0 0 0; times 4 0 1 1; c 4 = committed 0; times 2 0 = 0 0")),
    ("the parent has not read", at_one_and_one!("times 4 0 1 0; c 4 = committed 0; times 2 0 = 1 0")),
    ("the parent has not read, the other way", at_one_and_one!("times 4 0 0 1; c 4 = committed 0; times 2 0 = 0 1")),
    ("the child has not read", at_one_and_one!("times 2 0 1 0; c 4 = committed 0; times 2 0 = 1 0; times 4 0 = none")),
    (
        "where the parent has a card, both its times stay",
        "+0; +0; w 2 0 5; +2; +2; w 1 9 1; c 1 = committed 1; w 3 9 1; c 3 = committed 1; counters = 1 1; times 2 0 1 1;
         times 4 0 0 0; c 4 = committed 0; times 2 0 = 1 1",
    ),
    ("one who leaves a queue", at_one_and_one!("e 4; times 2 0 1 0; times 4 0 0 1; j 4 = ready 1; times 2 0 = 0 0")),
    (
        "the times of the read come up two levels, and not those of the commits",
        "+0; +1; +2; r 3 0 = read 0 3; +0; +4; w 5 1 1; c 5 = committed 1; w 4 2 1; c 4 = committed 1;
         c 3 = committed 0; times 2 0 = 0 0; c 2 = committed 0; times 1 0 = 0 0",
    ),
];

/// The words of subaction times where the account is not in the read set.
const UNREAD: &[Case] = &[
    ("one is not looked at and stays", "+0; sub-time 1 0 99; r 1 1 = read 0 1; times 1 0 = none; sub-time 1 0 = 99"),
    ("a read puts it", "+0; sub-time 1 0 99; r 1 0 = read 0 1; times 1 0 = 0 0; sub-time 1 0 = 0"),
    ("a read of the action's own card leaves it", "+0; w 1 0 1; sub-time 1 0 99; r 1 0 = read 1 0; sub-time 1 0 = 99"),
    ("a start clears them", "sub-time 1 0 99; sub-time 1 31 99; +0; sub-time 1 0 = 0; sub-time 1 31 = 0"),
    ("a join puts the parent's", "+0; sub-time 1 0 99; +1; r 2 0 = read 0 2; c 2 = committed 0; sub-time 1 0 = 0"),
    ("a join leaves the parent's", "+0; sub-time 1 0 99; +1; sub-time 2 0 98; c 2 = committed 0; sub-time 1 0 = 99"),
    ("a clash does not ask them", "+0; +0; sub-time 1 0 99; w 2 0 1; c 2 = committed 1; c 1 = committed 0"),
];

const QUEUES: &[Case] = &[
    (
        "each enters its own",
        "+0; +0; +2; e 1; e 3; entry 1 = 1 0 0; sub-entry 1 = 3 0 0; length = 1; sub-length = 1; a 3 = aborted 1 0; e 2;
         entry 2 = 2 0 0; length = 2; sub-length = 0",
    ),
    (
        "a subaction that waits counts for its sibling",
        "+0; +1; +1; w 2 0 1; r 3 0 = read 0 2; e 2; e 3; sub-entry 2 = 3 1 0; j 3 = failed 0; j 2 = ready 1",
    ),
    (
        "a topaction that waits counts for its sibling alone",
        "+0; +0; +2; w 1 0 1; r 3 0 = read 0 2; e 1; e 3; sub-entry 1 = 3 0 0; j 3 = ready 1; e 2; entry 2 = 2 1 0",
    ),
    (
        "a judge of a subaction leaves a topaction's ready head",
        "+0; +0; +2; e 1; entry 1 1 0 1; e 3; j 3 = ready 1; state 1 = live; length = 1; state 3 = committed",
    ),
    (
        "a judge of a topaction leaves a subaction's ready head",
        "+0; +0; +2; e 3; sub-entry 1 3 0 1; e 1; j 1 = ready 1; state 3 = live; sub-length = 1; state 1 = committed",
    ),
    (
        "a judge's failed leaves the other's ready head",
        "+0; +0; +2; e 1; entry 1 1 0 1; e 3; sub-entry 1 3 1 0; j 3 = failed 0; state 1 = live; length = 1",
    ),
    (
        "a judge's failed of a topaction leaves the other's ready head",
        "+0; +0; +2; e 3; sub-entry 1 3 0 1; e 1; entry 1 1 1 0; j 1 = failed 0; state 3 = live; sub-length = 1",
    ),
    (
        "an abort lets both heads leave",
        "+0; +0; +2; +0; w 1 0 1; w 3 1 2; e 1; entry 1 1 0 1; e 3; sub-entry 1 3 0 1; a 4 = aborted 1 2; length = 0;
         sub-length = 0; state 1 = committed; state 3 = committed; counters = 1 1; card 0 = 1; look 2 1 = 2 0",
    ),
    (
        "an abort lets all leave that are ready, of both",
        "+0; +0; +0; +0; +4; +4; +4; e 1; e 2; e 3; e 5; e 6; e 7; j 2 = ready 0; j 6 = ready 0; entry 1 1 0 1;
         sub-entry 1 5 0 1; +0; a 8 = aborted 1 4; length = 1; entry 1 = 3 0 0; sub-length = 1; sub-entry 1 = 7 0 0",
    ),
    (
        "an abort of a subaction lets a topaction leave",
        "+0; +0; +2; e 1; entry 1 1 0 1; a 3 = aborted 1 1; state 1 = committed; length = 0",
    ),
    (
        "an abort of a topaction lets a subaction leave",
        "+0; +0; +2; e 3; sub-entry 1 3 0 1; a 1 = aborted 1 1; state 3 = committed; sub-length = 0",
    ),
    (
        "an abort of a parent takes out its child, and the other queue's head leaves",
        "+0; +0; +2; e 1; e 3; entry 1 1 0 1; a 2 = aborted 2 1; state 1 = committed; length = 0; sub-length = 0",
    ),
    (
        "the sums of one who leaves are no amounts, and the other queue is tried",
        "amount 24 9223372036854775807; +0; +0; +2; +0; d 1 24 1; d 3 24 1; e 1; entry 1 1 0 1; e 3; sub-entry 1 3 0 1;
         a 4 = aborted 1 2; state 1 = aborted; state 3 = committed; counters = 0 1",
    ),
    (
        "an enter and a judge leave the other's words",
        "+0; +0; +2; sub-entry 1 5 6 7; e 1; sub-entry 1 = 5 6 7; j 1 = ready 1; sub-entry 1 = 5 6 7; sub-length = 0;
         entry 1 8 9 10; e 3; entry 1 = 8 9 10; j 3 = ready 1; entry 1 = 8 9 10; length = 0",
    ),
    (
        "entries above the length of the subactions' queue are not looked at",
        "+0; +1; sub-entry 1 2 0 1; sub-entry 2 9 9 9; r 2 0 = read 0 2; +0; a 3 = aborted 1 0; state 2 = live;
         c 2 = committed 0; sub-entry 1 = 2 0 1",
    ),
];

const CAUSES: &[Case] = &[
    (
        "16 of a subaction that waits",
        "+0; +1; e 2; r 2 0 = refused 16; w 2 0 1 = refused 16; d 2 24 1 = refused 16; c 2 = refused 16;
         e 2 = refused 16; +2 = refused 16; look 2 0 = refused 16; r 1 0 = refused 9",
    ),
    ("17 of a subaction while topactions wait", "+0; +0; +2; e 1; j 3 = refused 17; j 2 = refused 17; j 1 = ready 1"),
    ("17 of a topaction while subactions wait", "+0; +0; +2; e 3; j 1 = refused 17; j 2 = refused 17; j 3 = ready 1"),
    ("17 of a ready subaction", "+0; +1; +1; e 2; e 3; j 3 = ready 0; j 3 = refused 17; sub-length = 2"),
    (
        "a topaction commits while subactions wait",
        "+0; +1; +0; e 2; w 3 0 1; c 3 = committed 1; sub-length = 1; state 2 = live; counters = 1 0",
    ),
    (
        "a subaction commits while topactions wait",
        "+0; +0; +2; e 1; w 3 0 1; c 3 = committed 1; length = 1; state 1 = live; counters = 0 1",
    ),
    (
        "a commit tries no head",
        "+0; +0; +2; +2; e 1; entry 1 1 0 1; c 3 = committed 0; length = 1; a 4 = aborted 1 1; state 1 = committed",
    ),
    (
        "a topaction's commit tries no head",
        "+0; +1; +0; e 2; sub-entry 1 2 0 1; c 3 = committed 0; sub-length = 1; state 2 = live",
    ),
    (
        "a commit that fails while the other queue waits",
        "+0; +0; +2; +2; r 4 0 = read 0 2; w 3 0 1; e 1; c 3 = committed 1; c 4 = failed 1 0; length = 1",
    ),
    (
        "18 comes before a clash, of subactions",
        "+0; +1; +1; +1; r 2 0 = read 0 2; w 3 0 1; c 3 = committed 1; e 4; c 2 = refused 18; state 2 = live",
    ),
    (
        "15 comes while the other queue waits",
        "amount 24 9223372036854775807; +0; +1; +0; d 3 24 1; e 2; c 3 = refused 15; state 3 = live",
    ),
];

/// The clauses of each kind, each broken alone, and what they leave free.
const SOUND: &[Case] = &[
    ("a topaction's topaction time (7.7)", "+0; times 1 0 1 0; +0 = refused 2; times 1 0 0 0; +0"),
    ("a topaction's subaction time (7.7)", "+0; times 1 0 0 1; +0 = refused 2; times 1 0 0 0; +0"),
    ("a subaction's topaction time (7.7)", "+0; +1; times 2 0 1 0; +0 = refused 2; times 2 0 0 0; +0"),
    ("a subaction's subaction time (7.7)", "+0; +1; times 2 0 0 1; +0 = refused 2; times 2 0 0 0; +0"),
    (
        "a topaction time within the other counter (7.7)",
        "+0; +1; w 2 0 1; c 2 = committed 1; times 1 5 1 0; +0 = refused 2; times 1 5 0 1; +0; +1; times 3 5 1 0;
         +0 = refused 2; times 3 5 0 1; +0",
    ),
    (
        "a subaction time within the other counter (7.7)",
        "+0; w 1 0 1; c 1 = committed 1; +0; times 1 5 0 1; +0 = refused 2; times 1 5 1 0; +0; +1; times 3 5 0 1;
         +0 = refused 2; times 3 5 1 0; +0",
    ),
    (
        "times of a finished action are free",
        "+0; +0; +0; c 1 = committed 0; times 1 0 9 9; a 2 = aborted 1 0; times 2 0 9 9; r 3 0 = read 0 1",
    ),
    (
        "a topaction's end time (7.8)",
        "+0; w 1 0 1; c 1 = committed 1; end 1 2; +0 = refused 2; end 1 0; +0 = refused 2; end 1 1; +0",
    ),
    (
        "a subaction's end time (7.8)",
        "+0; +1; w 2 0 1; c 2 = committed 1; end 2 2; +0 = refused 2; end 2 0; +0 = refused 2; end 2 1; +0",
    ),
    (
        "a topaction's end time within the other counter (7.8)",
        "+0; +1; +1; w 2 0 1; c 2 = committed 1; w 3 0 1; c 3 = committed 2; c 1 = committed 1; end 1 2; +0 = refused 2;
         end 1 1; +0",
    ),
    (
        "a subaction's end time within the other counter (7.8)",
        "+0; +0; +0; +3; w 1 0 1; c 1 = committed 1; w 2 0 1; c 2 = committed 2; w 4 0 1; c 4 = committed 1; end 4 2;
         +0 = refused 2; end 4 1; +0",
    ),
    ("a length of 65 (7.11)", "sub-length 65; +0 = refused 2; look 1 0 = refused 2; sub-length 0; +0"),
    ("the greatest length (7.11)", "sub-length 18446744073709551615; +0 = refused 2"),
    ("an entry of number 0 (7.12)", "+0; +1; e 2; sub-entry 1 0 0 0; j 2 = refused 2; sub-length 0; r 2 0 = read 0 2"),
    ("an entry behind a good one (7.12)", "+0; +1; e 2; sub-length 2; j 2 = refused 2; sub-length 1; j 2 = ready 1"),
    ("an entry above the highest number (7.12)", "+0; +1; e 2; sub-entry 1 3 0 0; +0 = refused 2"),
    (
        "an entry far above the highest number (7.12)",
        "+0; +1; e 2; sub-entry 1 18446744073709551615 0 0; +0 = refused 2",
    ),
    ("an entry of a committed action (7.12)", "+0; +1; +1; c 2 = committed 0; e 3; sub-entry 1 2 0 0; a 3 = refused 2"),
    ("an entry of an aborted action (7.12)", "+0; +1; +1; a 2 = aborted 1 0; e 3; sub-entry 1 2 0 0; a 3 = refused 2"),
    (
        "an entry of an action with a live child (7.12)",
        "+0; +1; +2; e 3; sub-entry 1 2 0 0; a 3 = refused 2; sub-entry 1 3 0 0; j 3 = ready 1",
    ),
    (
        "a topaction in the subactions' queue (7.12)",
        "+0; sub-entry 1 1 0 0; sub-length 1; +0 = refused 2; j 1 = refused 2; sub-length 0; +0",
    ),
    (
        "a subaction in the topactions' queue (7.12)",
        "+0; +1; entry 1 2 0 0; length 1; +0 = refused 2; j 2 = refused 2; length 0; +0",
    ),
    (
        "a topaction behind a good subaction (7.12)",
        "+0; +1; +0; e 2; sub-entry 2 3 0 0; sub-length 2; j 2 = refused 2; sub-length 1; j 2 = ready 1",
    ),
    (
        "a subaction behind a good topaction (7.12)",
        "+0; +1; +0; e 3; entry 2 2 0 0; length 2; j 3 = refused 2; length 1; j 3 = ready 1",
    ),
    ("a topaction in both queues (7.12)", "+0; e 1; sub-entry 1 1 0 0; sub-length 1; j 1 = refused 2"),
    ("a subaction in both queues (7.12)", "+0; +1; e 2; entry 1 2 0 0; length 1; j 2 = refused 2"),
    (
        "a number in two entries (7.13)",
        "+0; +1; +1; e 2; e 3; sub-entry 2 2 0 0; a 3 = refused 2; sub-entry 2 3 0 0; a 3 = aborted 1 0",
    ),
    ("a number in two entries apart (7.13)", "+0; +1; +1; +1; e 2; e 3; e 4; sub-entry 3 2 1 1; j 2 = refused 2"),
];

/// All of them, each group with its name.
pub const GROUPS: &[(&str, &[Case])] = &[
    ("times", TIMES),
    ("join", JOINS),
    ("not read", UNREAD),
    ("two queues", QUEUES),
    ("cause of a kind", CAUSES),
    ("sound table of two kinds", SOUND),
];
