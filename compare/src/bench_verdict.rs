//! The verdict, measured: the same calls with a commit and with an abort, the difference of which is the verdict's,
//! beside a plain double search over as many structs as there are siblings.

use crate::action::{Action, State};
use crate::bench::{done, lend, new_world, of, repeated, rounds, row, Row, FREE_ACCOUNT, NO_ACCOUNT};
use crate::dayfile::event_bytes;
use crate::header::*;
use crate::library::{answer, Lent, LIVE, STATE};
use crate::model::{Answer, Event, Ledger, STORE};
use std::hint::black_box;

/// How many siblings the action has that is judged.
pub const FEW: u64 = 2;
pub const MANY: u64 = ACTIONS as u64 - 1;
/// How often a list goes through its cycle. The table is tested once for all of them.
const CYCLES: usize = 300;
/// An account that the first record has written.
const WRITTEN: u64 = 2;

// ---- the double search

/// What a child of the same parent is to it.
struct Sibling {
    is_record: bool,
    writes: [bool; ACCOUNTS],
    end: u64,
}

/// The read time of each account that was read.
type Reads = [Option<u64>; ACCOUNTS];

/// The first clash: siblings by rising end time, accounts by rising number, left at the first clash found. Never
/// inlined, so that a profile shows it apart, as it does the library's search.
#[inline(never)]
fn double_search(siblings: &[Sibling], reads: &Reads) -> Option<(u64, usize)> {
    for sibling in siblings.iter().filter(|s| s.is_record) {
        for (account, read) in reads.iter().enumerate() {
            if sibling.writes[account] && read.is_some_and(|time| time < sibling.end) {
                return Some((sibling.end, account));
            }
        }
    }
    None
}

/// The siblings of an action, by rising end time, and what it has read.
fn structs_beside(w: &Ledger, n: u64) -> (Vec<Sibling>, Reads) {
    let me = w.table.action(n);
    let sibling = |a: &Action| {
        let writes = a.writes.map(|entry| entry != 0);
        Sibling { is_record: a.is_writer(), writes, end: a.end.number() }
    };
    let others = w.table.held().filter(|a| a.number != n && a.parent == me.parent);
    let mut siblings: Vec<Sibling> = others.map(sibling).collect();
    siblings.sort_by_key(|s| s.end);
    (siblings, me.reads.map(|read| read.times().map(|times| times.number(me.kind()))))
}

fn search(times: usize, (siblings, reads): &(Vec<Sibling>, Reads)) {
    for _ in 0..times {
        black_box(double_search(black_box(siblings), black_box(reads)));
    }
}

// ---- rows

/// What is called, with a commit and with an abort, and of which verdict it tells.
struct Named {
    commit: String,
    abort: String,
    verdict: String,
}

/// Each with a commit and with an abort, and as many double searches as a call has verdicts.
struct Calls<'a> {
    library: [&'a mut dyn FnMut(); 2],
    second: [&'a mut dyn FnMut(); 2],
    search: &'a mut dyn FnMut(),
    verdicts: usize,
}

/// A row for the calls with a commit, one for those with an abort, and one for a verdict and a double search.
fn push_rows(rows: &mut Vec<Row>, named: &Named, siblings: u64, calls: Calls) {
    let ([commit, abort], [second_commit, second_abort]) = (calls.library, calls.second);
    let all = rounds(&mut [commit, second_commit, abort, second_abort, calls.search]);
    let verdicts = calls.verdicts as f64;
    let mut push = |what: &str, pair: &dyn Fn(&[f64; 5]) -> [f64; 2]| {
        let pairs: Vec<[f64; 2]> = all.iter().map(pair).collect();
        rows.push(row(&format!("{what}, siblings: {siblings}"), &pairs));
    };
    push(&named.commit, &|r| [r[0], r[1]]);
    push(&named.abort, &|r| [r[2], r[3]]);
    push(&named.verdict, &|r| [(r[0] - r[2]) / verdicts, r[4] / verdicts]);
}

// ---- cycles in one list

fn start() -> Event {
    of(EVENT_START, STORE, NO_ACCOUNT)
}

/// So many topactions that wrote and committed, numbered from `first` on, where all lower numbers are live.
fn commit_records(w: &mut Ledger, first: u64, count: u64) {
    (0..count).for_each(|_| done(w, &start()));
    for n in first..first + count {
        done(w, &of(EVENT_WRITE, n, n % FREE_ACCOUNT));
        done(w, &of(EVENT_COMMIT, n, NO_ACCOUNT));
    }
}

/// An action that has read first and does nothing more, so that all records which follow are needed.
fn pinned(records: u64) -> Ledger {
    let mut w = new_world();
    done(&mut w, &start());
    done(&mut w, &of(EVENT_READ, 1, FREE_ACCOUNT));
    commit_records(&mut w, 2, records);
    w
}

/// Events of which the last ends the action that is judged. The ledger is the same after them, but for counters and end
/// times.
struct Cycle {
    named: Named,
    ledger: Ledger,
    /// All but the last.
    events: Vec<Event>,
    judged: u64,
    /// The numbers that are given, the last one first.
    given: Vec<u64>,
    /// Whether this is what a commit gets.
    is_expected: fn(Answer) -> bool,
}

/// The action reads when every record has ended. Its siblings are the one that stays and the records.
fn without_clash(siblings: u64) -> Cycle {
    let judged = siblings + 1;
    let named = Named {
        commit: format!("{CYCLES} cycles of start, read and commit"),
        abort: format!("{CYCLES} cycles of start, read and abort"),
        verdict: "a verdict in these cycles, and a double search".to_string(),
    };
    let events = vec![start(), of(EVENT_READ, judged, WRITTEN)];
    let is_expected = |a| a == Answer::Committed(0);
    Cycle { named, ledger: pinned(siblings - 1), events, judged, given: vec![judged], is_expected }
}

/// A sibling writes what the action has read, and commits. The other siblings are records that nobody needs; they are
/// held as long as no number but these two is given.
fn with_clash(siblings: u64) -> Cycle {
    let (judged, writer) = (1, 2);
    let mut ledger = new_world();
    [judged, writer].iter().for_each(|_| done(&mut ledger, &start()));
    commit_records(&mut ledger, writer + 1, siblings - 1);
    [judged, writer].iter().for_each(|&n| done(&mut ledger, &of(EVENT_ABORT, n, NO_ACCOUNT)));
    let named = Named {
        commit: format!("{CYCLES} cycles with a commit that fails"),
        abort: format!("{CYCLES} cycles with an abort in its place"),
        verdict: "a verdict that is failed, and a double search".to_string(),
    };
    let events = vec![
        start(),
        of(EVENT_READ, judged, FREE_ACCOUNT),
        start(),
        of(EVENT_WRITE, writer, FREE_ACCOUNT),
        of(EVENT_COMMIT, writer, NO_ACCOUNT),
    ];
    let is_expected = |a| matches!(a, Answer::Failed(_, FREE_ACCOUNT));
    Cycle { named, ledger, events, judged, given: vec![writer, judged], is_expected }
}

impl Cycle {
    fn ending(&self, code: u64) -> Vec<Event> {
        [&self.events[..], &[of(code, self.judged, NO_ACCOUNT)]].concat()
    }

    /// Holds a list of it to what it should get, and to as many siblings beside the judged action.
    fn check(&self, siblings: u64, mut lent: Lent, list: &[u8]) {
        let mut words = vec![0; ANSWER_WORDS * (list.len() / EVENT_BYTES)];
        lent.run(list, &mut words);
        let answers = words.chunks(ANSWER_WORDS).map(|w| answer(w.try_into().expect("an answer's length")));
        let mut ends = answers.skip(self.events.len()).step_by(self.events.len() + 1);
        assert!(ends.all(self.is_expected), "a cycle is answered otherwise");
        assert_eq!(lent.three_numbers().0, siblings + 1, "another number of siblings");
    }

    /// The double search's structs where the action is judged.
    fn structs(&self, siblings: u64) -> (Vec<Sibling>, Reads) {
        let mut ledger = self.ledger.clone();
        self.events.iter().for_each(|e| done(&mut ledger, e));
        let structs = structs_beside(&ledger, self.judged);
        assert_eq!(structs.0.len() as u64, siblings, "another number of structs");
        structs
    }
}

/// The second engine's cycles. What they started is taken back each time, so that its list of actions doesn't grow.
fn run_second(ledger: &mut Ledger, events: &[Event], given: &[u64]) {
    let before: Vec<_> = given.iter().map(|&n| ledger.table.holder(n)).collect();
    for _ in 0..CYCLES {
        for e in events {
            black_box(ledger.sound_event(e));
        }
        before.iter().for_each(|&place| ledger.table.take_back(place));
    }
}

fn push_cycles(rows: &mut Vec<Row>, mut cycle: Cycle, siblings: u64) {
    let (commit, abort) = (cycle.ending(EVENT_COMMIT), cycle.ending(EVENT_ABORT));
    // once before all others, so that every number has been given
    commit.iter().for_each(|e| done(&mut cycle.ledger, e));
    let [commits, aborts] = [&commit, &abort].map(|list| event_bytes(list).repeat(CYCLES));
    let lent = lend(&cycle.ledger);
    cycle.check(siblings, lent.clone(), &commits);
    let (structs, given) = (cycle.structs(siblings), &cycle.given);
    let room = vec![0; ANSWER_WORDS * CYCLES * commit.len()];
    let ([mut a, mut b], [mut u, mut v]) = ([lent.clone(), lent], [room.clone(), room]);
    let [mut x, mut y] = [cycle.ledger.clone(), cycle.ledger.clone()];
    let calls = Calls {
        library: [&mut || _ = black_box(a.run(&commits, &mut u)), &mut || _ = black_box(b.run(&aborts, &mut v))],
        second: [&mut || run_second(&mut x, &commit, given), &mut || run_second(&mut y, &abort, given)],
        search: &mut || search(CYCLES, &structs),
        verdicts: CYCLES,
    };
    push_rows(rows, &cycle.named, siblings, calls);
}

// ---- single events

/// One event by the first action, which is made live again after it, by one store.
fn end_again(lent: &mut Lent, e: &Event) {
    black_box(lent.event(e));
    lent.table[ROW_WORDS + STATE] = LIVE;
}

fn end_again_in_second(ledger: &mut Ledger, e: &Event) {
    black_box(ledger.event(e));
    ledger.table.action_mut(1).state = State::Live;
}

/// A commit by one that has read before every record, and nothing that a record wrote.
fn push_early_reader(rows: &mut Vec<Row>, siblings: u64) {
    let ledger = pinned(siblings);
    let [commit, abort] = [EVENT_COMMIT, EVENT_ABORT].map(|code| of(code, 1, NO_ACCOUNT));
    assert_eq!(ledger.clone().event(&commit), Answer::Committed(0), "an early reader does not pass");
    let structs = structs_beside(&ledger, 1);
    assert_eq!(structs.0.len() as u64, siblings, "another number of structs");
    let named = Named {
        commit: "a commit by one that read before all records".to_string(),
        abort: "an abort by one that read before all records".to_string(),
        verdict: "a verdict on one that read before all records, and a double search".to_string(),
    };
    let ([mut a, mut b], [mut x, mut y]) = ([lend(&ledger), lend(&ledger)], [ledger.clone(), ledger]);
    let calls = Calls {
        library: [&mut || end_again(&mut a, &commit), &mut || end_again(&mut b, &abort)],
        second: [&mut || end_again_in_second(&mut x, &commit), &mut || end_again_in_second(&mut y, &abort)],
        search: &mut || search(1, &structs),
        verdicts: 1,
    };
    push_rows(rows, &named, siblings, calls);
}

// ---- parts

pub fn clear<const SIBLINGS: u64>(rows: &mut Vec<Row>) {
    push_cycles(rows, without_clash(SIBLINGS), SIBLINGS);
}

pub fn clash<const SIBLINGS: u64>(rows: &mut Vec<Row>) {
    push_cycles(rows, with_clash(SIBLINGS), SIBLINGS);
}

pub fn early<const SIBLINGS: u64>(rows: &mut Vec<Row>) {
    push_early_reader(rows, SIBLINGS);
    let what = format!("a read by one that read before all records, siblings: {SIBLINGS}");
    rows.push(repeated(&what, pinned(SIBLINGS), of(EVENT_READ, 1, FREE_ACCOUNT)));
}
