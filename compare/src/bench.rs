//! The library over its C ABI beside the second engine, in one run: rounds interleaved, medians.

use crate::action::State;
use crate::bench_short::short_days;
use crate::bench_verdict::{clash, clear, early, FEW, MANY};
use crate::cause;
use crate::dayfile::{event_bytes, run_day, MOST_EVENTS};
use crate::generate::{day_file, events, Ending, Shape, Style, Turnover};
use crate::header::*;
use crate::library::{encode, Lent, ENTRIES, LIVE, QUEUE_LENGTHS, READINESS, STATE};
use crate::model::{put_amount, Answer, Event, Ledger, FIRST_CHARGE, STORE};
use crate::random::Random;
use crate::rule::Rule;
use crate::table::Table;
use crate::times::Kind;
use std::collections::VecDeque;
use std::fmt::Write;
use std::hint::black_box;
use std::time::Instant;

pub const ROUNDS: usize = 15;
/// Calls before the first round, which tell how many a round takes: a few milliseconds of them, within bounds.
const TRIAL_CALLS: u32 = 20;
const ROUND_NANOSECONDS: f64 = 4e6;
const LEAST_CALLS: f64 = 20.0;
const MOST_CALLS: f64 = 200_000.0;
/// The seed of the days.
const SEED: u64 = 7;
/// What base store and cards hold.
const BASE_FILL: u8 = 1;
const CARD_FILL: u8 = 7;
/// What is added, in cents.
const ADDED_AMOUNT: i64 = 5;
/// An account that no sibling writes; they share those below it. All above it are charge accounts.
pub const FREE_ACCOUNT: u64 = CHARGE_ACCOUNT - 1;
const CHARGE_ACCOUNT: u64 = FIRST_CHARGE as u64;
/// How deep actions lie where that is measured.
const MOVES: [u64; 3] = [1, 10, ACTIONS as u64];
/// How many wait where that is measured, and in which queue.
const QUEUED: [u64; 2] = [1, ACTIONS as u64 - 1];
const WAITING: Kind = Kind::Top;
/// Where an event has no use for an account.
pub const NO_ACCOUNT: u64 = 0;
/// The busy day: how many actions are started, how many are live at a time, and each how many-th reads.
const BUSY_STARTS: u64 = 300;
const BUSY_LIVE: usize = 8;
const BUSY_READ_EVERY: u64 = 3;

pub struct Row {
    what: String,
    ours: f64,
    plain: f64,
    ratio: f64,
}

fn median(mut values: Vec<f64>) -> f64 {
    values.sort_by(f64::total_cmp);
    values[values.len() / 2]
}

/// Nanoseconds for one call of `f`, over a few milliseconds of calls.
fn time(times: u32, f: &mut dyn FnMut()) -> f64 {
    let start = Instant::now();
    for _ in 0..times {
        f();
    }
    start.elapsed().as_nanos() as f64 / times as f64
}

/// Nanoseconds for one call of each, by rounds: in every round all of them, one after the other.
pub fn rounds<const N: usize>(calls: &mut [&mut dyn FnMut(); N]) -> Vec<[f64; N]> {
    let once = calls.iter_mut().map(|call| time(TRIAL_CALLS, call)).fold(1.0, f64::max);
    let times = (ROUND_NANOSECONDS / once).clamp(LEAST_CALLS, MOST_CALLS) as u32;
    (0..ROUNDS).map(|_| std::array::from_fn(|i| time(times, calls[i]))).collect()
}

/// So many rounds of calls that are so slow that one is enough for a round.
pub fn slow_rounds<const N: usize>(count: usize, calls: &mut [&mut dyn FnMut(); N]) -> Vec<[f64; N]> {
    (0..count).map(|_| std::array::from_fn(|i| time(1, calls[i]))).collect()
}

/// The row of a call and of what it is held to, from their nanoseconds in each round.
pub fn row(what: &str, rounds: &[[f64; 2]]) -> Row {
    let of = |value: fn(&[f64; 2]) -> f64| median(rounds.iter().map(value).collect());
    Row { what: what.to_string(), ours: of(|r| r[0]), plain: of(|r| r[1]), ratio: of(|r| r[0] / r[1]) }
}

fn measure(what: &str, ours: &mut dyn FnMut(), plain: &mut dyn FnMut()) -> Row {
    row(what, &rounds(&mut [ours, plain]))
}

pub fn lend(w: &Ledger) -> Lent {
    let mut table = vec![0; TABLE_WORDS];
    encode(&w.table, &mut table);
    Lent { table, base: w.base.clone(), shadow: w.shadow.clone() }
}

pub fn new_world() -> Ledger {
    Ledger::new(Rule::Backward, vec![BASE_FILL; BASE_BYTES], vec![0; SHADOW_BYTES])
}

/// Over a base store of zeros, as the days have it.
fn empty_world() -> Ledger {
    Ledger::new(Rule::Backward, vec![0; BASE_BYTES], vec![0; SHADOW_BYTES])
}

pub fn of(code: u64, number: u64, account: u64) -> Event {
    Event { code, number, account, card: vec![CARD_FILL; CARD_BYTES] }
}

fn add(number: u64, account: u64) -> Event {
    let mut e = of(EVENT_ADD, number, account);
    put_amount(&mut e.card, ADDED_AMOUNT);
    e
}

/// An event of which we know that it is not refused.
pub fn done(w: &mut Ledger, e: &Event) {
    let answer = w.event(e);
    assert!(!matches!(answer, Answer::Refused(_)), "{e:?} is answered {answer:?}");
}

/// Random days, by name: without queues as they lie, and one with them.
const DAYS: [(&str, Style); 4] = [
    ("deep", Style { shape: Shape::Deep, ending: Ending::Commits, turnover: Turnover::Slow }),
    ("wide", Style { shape: Shape::Wide, ending: Ending::Commits, turnover: Turnover::Slow }),
    ("mixed", Style { shape: Shape::Mixed, ending: Ending::Commits, turnover: Turnover::Slow }),
    ("wide, with the queues", Style { shape: Shape::Wide, ending: Ending::Queue, turnover: Turnover::Slow }),
];

/// A day of as many events as a file may have, in which topactions follow each other, a few live at a time, each with a
/// write and some with a read. Numbers are given again all day.
fn busy_day() -> Vec<Event> {
    let (mut w, mut list, mut live) = (empty_world(), Vec::new(), VecDeque::new());
    let mut event = |e: Event| {
        let answer = w.event(&e);
        list.push(e);
        answer
    };
    for i in 0..BUSY_STARTS {
        let Answer::Started(number) = event(of(EVENT_START, STORE, NO_ACCOUNT)) else { panic!("no number is free") };
        if i % BUSY_READ_EVERY == 0 {
            event(of(EVENT_READ, number, i % FREE_ACCOUNT));
        }
        event(of(EVENT_WRITE, number, i % FREE_ACCOUNT));
        live.push_back(number);
        if live.len() > BUSY_LIVE {
            event(of(EVENT_COMMIT, live.pop_front().expect("some are live"), NO_ACCOUNT));
        }
    }
    for number in live {
        event(of(EVENT_COMMIT, number, NO_ACCOUNT));
    }
    assert_eq!(list.len(), MOST_EVENTS, "a busy day of another length");
    list
}

/// A whole day: file to listing, and its events alone.
fn days(rows: &mut Vec<Row>) {
    let random = |style| events(&mut Random::new(SEED), empty_world(), MOST_EVENTS, style, true);
    let busy = (format!("with {BUSY_STARTS} starts"), busy_day());
    let days = DAYS.into_iter().map(|(name, style)| (name.to_string(), random(style))).chain([busy]);
    for (name, list) in days {
        let file = day_file(&[], &list);
        let (mut lent, mut buffer) = (lend(&new_world()), Box::new([0; LISTING_BYTES]));
        rows.push(measure(
            &format!("a day of 1,000 events, {name}: file to listing"),
            &mut || {
                black_box(lent.day(&file, &mut buffer));
            },
            &mut || {
                black_box(run_day(&file, Rule::Backward, vec![0; SHADOW_BYTES]));
            },
        ));
        let bytes = event_bytes(&list);
        let (mut lent, mut words, mut ledger) = (lend(&new_world()), vec![0; ANSWER_WORDS * MOST_EVENTS], new_world());
        rows.push(measure(
            &format!("a day of 1,000 events, {name}: the events alone"),
            &mut || {
                lent.open(RULE_BACKWARD);
                black_box(lent.run(&bytes, &mut words));
            },
            &mut || {
                ledger.table = Table::new(Rule::Backward);
                black_box(list.iter().map(|e| ledger.sound_event(e)).last());
            },
        ));
    }
}

/// Siblings under the store; each but the first has written its account and committed.
fn siblings(count: u64) -> Ledger {
    let mut w = new_world();
    for _ in 0..count {
        done(&mut w, &of(EVENT_START, STORE, NO_ACCOUNT));
    }
    for n in 2..=count {
        done(&mut w, &of(EVENT_WRITE, n, n % FREE_ACCOUNT));
        done(&mut w, &of(EVENT_COMMIT, n, NO_ACCOUNT));
    }
    w
}

/// One below the other; the first alone has written account 0 and added to a charge account.
fn chain(actions: u64) -> Ledger {
    let mut w = new_world();
    done(&mut w, &of(EVENT_START, STORE, NO_ACCOUNT));
    done(&mut w, &of(EVENT_WRITE, 1, 0));
    done(&mut w, &add(1, CHARGE_ACCOUNT));
    for n in 1..actions {
        done(&mut w, &of(EVENT_START, n, NO_ACCOUNT));
    }
    w
}

/// One event again and again, where after the first time it changes nothing, or pending sum and own adds alone.
pub fn repeated(what: &str, mut ledger: Ledger, e: Event) -> Row {
    done(&mut ledger, &e);
    let mut lent = lend(&ledger);
    measure(
        what,
        &mut || {
            black_box(lent.event(&e));
        },
        &mut || {
            black_box(ledger.event(&e));
        },
    )
}

fn single_events(rows: &mut Vec<Row>) {
    for count in [2, ACTIONS as u64] {
        let write = of(EVENT_WRITE, 1, FREE_ACCOUNT);
        rows.push(repeated(&format!("a write, siblings: {}", count - 1), siblings(count), write));
    }
    for count in [2, ACTIONS as u64] {
        let add = add(1, CHARGE_ACCOUNT);
        rows.push(repeated(&format!("an add, siblings: {}", count - 1), siblings(count), add));
    }
}

fn charge_reads(rows: &mut Vec<Row>) {
    for moves in MOVES {
        let read = of(EVENT_READ, moves, CHARGE_ACCOUNT);
        rows.push(repeated(&format!("a read of a charge account, moves up: {moves}"), chain(moves), read));
    }
}

fn looks(rows: &mut Vec<Row>) {
    for moves in MOVES {
        let ledger = chain(moves);
        let lent = lend(&ledger);
        rows.push(measure(
            &format!("a look, moves up: {moves}"),
            &mut || {
                black_box(lent.look(moves, 0)).ok();
            },
            &mut || {
                black_box(ledger.look(moves, 0)).ok();
            },
        ));
    }
}

/// A commit that finds no clash. The action is made live again after each, by one store.
fn searches(rows: &mut Vec<Row>) {
    for count in [3, ACTIONS as u64] {
        let mut ledger = siblings(count);
        for k in 0..FREE_ACCOUNT {
            done(&mut ledger, &of(EVENT_READ, 1, k));
        }
        let mut lent = lend(&ledger);
        let commit = of(EVENT_COMMIT, 1, NO_ACCOUNT);
        rows.push(measure(
            &format!("a commit that searches, siblings: {}", count - 1),
            &mut || {
                black_box(lent.event(&commit));
                lent.table[ROW_WORDS + STATE] = LIVE;
            },
            &mut || {
                black_box(ledger.event(&commit));
                ledger.table.action_mut(1).state = State::Live;
            },
        ));
    }
}

/// Numbers 2 and up with the records of topactions, and the first action live. They are needed where it has read first.
fn records(needed: bool) -> Ledger {
    let mut w = new_world();
    for _ in 1..=ACTIONS {
        done(&mut w, &of(EVENT_START, STORE, NO_ACCOUNT));
    }
    if needed {
        done(&mut w, &of(EVENT_READ, 1, FREE_ACCOUNT));
    }
    for n in 2..=ACTIONS as u64 {
        done(&mut w, &of(EVENT_WRITE, n, n % FREE_ACCOUNT));
        done(&mut w, &of(EVENT_COMMIT, n, NO_ACCOUNT));
    }
    w
}

/// A start beside as many records as there can be. One that gives a number is taken back each time: the library by the
/// words of one row, the second engine by one place of its list.
fn starts(rows: &mut Vec<Row>) {
    let start = of(EVENT_START, STORE, NO_ACCOUNT);
    for (how, needed, answer) in
        [("all free", false, Answer::Started(2)), ("all needed", true, Answer::Refused(cause::NO_NUMBER))]
    {
        let mut ledger = records(needed);
        let (mut lent, record) = (lend(&ledger), ledger.table.holder(2));
        let row = lent.table[2 * ROW_WORDS..3 * ROW_WORDS].to_vec();
        assert_eq!(ledger.clone().event(&start), answer, "a start beside records that are {how}");
        rows.push(measure(
            &format!("a start, records held: {}, {how}", ACTIONS - 1),
            &mut || {
                black_box(lent.event(&start));
                lent.table[2 * ROW_WORDS..3 * ROW_WORDS].copy_from_slice(&row);
            },
            &mut || {
                black_box(ledger.event(&start));
                ledger.table.take_back(record);
            },
        ));
    }
}

/// A commit of action n. Each time the action is made live again; the counter goes on, as no end time may be above it.
fn commits_again(rows: &mut Vec<Row>, what: &str, mut ledger: Ledger, n: u64) {
    let mut lent = lend(&ledger);
    let commit = of(EVENT_COMMIT, n, NO_ACCOUNT);
    rows.push(measure(
        what,
        &mut || {
            black_box(lent.event(&commit));
            lent.table[n as usize * ROW_WORDS + STATE] = LIVE;
        },
        &mut || {
            black_box(ledger.event(&commit));
            ledger.table.action_mut(n).state = State::Live;
        },
    ));
    let last = [lent.event(&commit), ledger.event(&commit)];
    assert!(last.iter().all(|a| matches!(a, Answer::Committed(_))), "{what} does not pass again");
}

/// The event that enters the account in action n's write set.
fn entering(n: u64, account: u64) -> Event {
    if account < CHARGE_ACCOUNT {
        of(EVENT_WRITE, n, account)
    } else {
        add(n, account)
    }
}

/// So many actions one below the other, of which the last has these accounts in its write set.
fn writer(depth: u64, accounts: std::ops::Range<u64>) -> Ledger {
    let mut w = new_world();
    for parent in STORE..depth {
        done(&mut w, &of(EVENT_START, parent, NO_ACCOUNT));
    }
    for account in accounts {
        done(&mut w, &entering(depth, account));
    }
    w
}

fn commits(rows: &mut Vec<Row>) {
    let all = ACCOUNTS as u64;
    commits_again(rows, "a commit with eight charge accounts", writer(1, CHARGE_ACCOUNT..all), 1);
    commits_again(rows, "a commit with 32 accounts, to the store", writer(1, 0..all), 1);
    commits_again(rows, "a commit with 32 accounts, to its parent", writer(2, 0..all), 2);
}

/// Siblings under the store, of which each but the last has written and is queued. The last has read all but what they
/// have written.
fn queued(count: u64) -> Ledger {
    let mut w = new_world();
    for _ in 0..=count {
        done(&mut w, &of(EVENT_START, STORE, NO_ACCOUNT));
    }
    for k in 0..FREE_ACCOUNT {
        done(&mut w, &of(EVENT_READ, count + 1, k));
    }
    for n in 1..=count {
        done(&mut w, &of(EVENT_WRITE, n, FREE_ACCOUNT));
        done(&mut w, &of(EVENT_ENTER, n, NO_ACCOUNT));
    }
    w
}

/// An enter whose verdict is good. Each time the queue is made as short as it was, by one store.
fn enters(rows: &mut Vec<Row>) {
    for count in QUEUED {
        let mut ledger = queued(count);
        let mut lent = lend(&ledger);
        let enter = of(EVENT_ENTER, count + 1, NO_ACCOUNT);
        done(&mut ledger.clone(), &enter);
        rows.push(measure(
            &format!("an enter, queued: {count}"),
            &mut || {
                black_box(lent.event(&enter));
                lent.table[QUEUE_LENGTHS[WAITING as usize]] = count;
            },
            &mut || {
                black_box(ledger.event(&enter));
                ledger.table.queue_mut(WAITING).length = count;
            },
        ));
    }
}

/// A judge behind those that wait, at which nobody leaves. Each time its action is made unready again, by one store.
fn judges_behind(rows: &mut Vec<Row>) {
    for count in QUEUED {
        let mut ledger = queued(count);
        done(&mut ledger, &of(EVENT_ENTER, count + 1, NO_ACCOUNT));
        let mut lent = lend(&ledger);
        let judge = of(EVENT_JUDGE, count + 1, NO_ACCOUNT);
        done(&mut ledger.clone(), &judge);
        let at = count as usize;
        rows.push(measure(
            &format!("a judge, queued before it: {count}"),
            &mut || {
                black_box(lent.event(&judge));
                lent.table[ROW_WORDS * (at + 1) + ENTRIES[WAITING as usize] + READINESS] = 0;
            },
            &mut || {
                black_box(ledger.event(&judge));
                ledger.table.queue_mut(WAITING).places[at].readiness = 0;
            },
        ));
    }
}

/// A judge of the head, at which all leave, as the others are ready. Each time the whole table is put back.
fn judges_of_all(rows: &mut Vec<Row>) {
    for count in QUEUED {
        let mut ledger = queued(count);
        for n in 2..=count {
            done(&mut ledger, &of(EVENT_JUDGE, n, NO_ACCOUNT));
        }
        let (mut lent, table) = (lend(&ledger), ledger.table.clone());
        let words = lent.table.clone();
        let judge = of(EVENT_JUDGE, 1, NO_ACCOUNT);
        assert_eq!(ledger.clone().event(&judge), Answer::Ready(count), "not all have left");
        rows.push(measure(
            &format!("a judge that lets all leave, and the table put back, queued: {count}"),
            &mut || {
                black_box(lent.event(&judge));
                lent.table.copy_from_slice(&words);
            },
            &mut || {
                black_box(ledger.event(&judge));
                ledger.table.clone_from(&table);
            },
        ));
    }
}

/// An add to every charge account by an action.
fn add_to_all(w: &mut Ledger, number: u64) {
    for account in CHARGE_ACCOUNT..ACCOUNTS as u64 {
        done(w, &add(number, account));
    }
}

/// As many actions as a table has, one below the other, each with adds and committed.
fn deep_adders() -> Ledger {
    let mut w = new_world();
    for parent in STORE..ACTIONS as u64 {
        done(&mut w, &of(EVENT_START, parent, NO_ACCOUNT));
        add_to_all(&mut w, parent + 1);
    }
    for n in (1..=ACTIONS as u64).rev() {
        done(&mut w, &of(EVENT_COMMIT, n, NO_ACCOUNT));
    }
    w
}

/// A topaction and its children, each with adds and committed.
fn wide_adders() -> Ledger {
    let mut w = new_world();
    done(&mut w, &of(EVENT_START, STORE, NO_ACCOUNT));
    add_to_all(&mut w, 1);
    for _ in 2..=ACTIONS {
        done(&mut w, &of(EVENT_START, 1, NO_ACCOUNT));
    }
    for n in 2..=ACTIONS as u64 {
        add_to_all(&mut w, n);
        done(&mut w, &of(EVENT_COMMIT, n, NO_ACCOUNT));
    }
    done(&mut w, &of(EVENT_COMMIT, 1, NO_ACCOUNT));
    w
}

fn trees(rows: &mut Vec<Row>) {
    let wide = format!("a tree, {} children of one topaction", ACTIONS - 1);
    let deep = format!("a tree, {ACTIONS} actions one below the other");
    for (what, ledger) in [(deep, deep_adders()), (wide, wide_adders())] {
        let (lent, opening, mut report) = (lend(&ledger), new_world().base, Box::new([0; REPORT_WORDS]));
        assert!(ledger.tree(&opening).is_ok(), "{what} is refused");
        rows.push(measure(
            &what,
            &mut || {
                black_box(lent.tree(&opening, &mut report));
            },
            &mut || {
                black_box(ledger.tree(&opening)).ok();
            },
        ));
    }
}

fn growth(rows: &mut Vec<Row>) {
    for power in 0..=ACTIONS.ilog2() {
        let count = 1 << power;
        let read = of(EVENT_READ, 1, FREE_ACCOUNT);
        rows.push(repeated(&format!("a read, actions held: {count}"), siblings(count), read));
    }
}

fn table(rows: &[Row]) -> String {
    let mut text = String::from("| What | library, ns | plain Rust, ns | ratio |\n|---|---|---|---|\n");
    for r in rows {
        writeln!(text, "| {} | {:.0} | {:.0} | {:.2} |", r.what, r.ours, r.plain, r.ratio).expect("a string grows");
    }
    text
}

/// Puts the table between the two marks of a file.
fn write_between(path: &str, table: &str) -> Result<(), String> {
    let (open, close) = ("<!-- figures -->\n", "<!-- end of figures -->");
    let text = std::fs::read_to_string(path).map_err(|e| format!("{path}: {e}"))?;
    let from = text.find(open).ok_or(format!("{path} has no line {open}"))? + open.len();
    let to = text.find(close).ok_or(format!("{path} has no line {close}"))?;
    std::fs::write(path, format!("{}{table}{}", &text[..from], &text[to..])).map_err(|e| format!("{path}: {e}"))
}

/// A name, and what puts its rows.
type Part = (&'static str, fn(&mut Vec<Row>));

/// The parts of the table. Those whose names begin with a word can be asked for alone.
const PARTS: [Part; 19] = [
    ("days", days),
    ("events", single_events),
    ("reads", charge_reads),
    ("looks", looks),
    ("searches", searches),
    ("verdict-few-clear", clear::<FEW>),
    ("verdict-few-clash", clash::<FEW>),
    ("verdict-few-early", early::<FEW>),
    ("verdict-many-clear", clear::<MANY>),
    ("verdict-many-clash", clash::<MANY>),
    ("verdict-many-early", early::<MANY>),
    ("starts", starts),
    ("commits", commits),
    ("enters", enters),
    ("judges", judges_behind),
    ("judges", judges_of_all),
    ("trees", trees),
    ("growth", growth),
    ("short", short_days),
];

/// The parts whose names begin with the word, or all, printed; and put into a file where one is named.
pub fn bench(word: Option<&str>, file: Option<&str>) -> Result<(), String> {
    let mut rows = Vec::new();
    for (_, part) in PARTS.iter().filter(|(name, _)| name.starts_with(word.unwrap_or_default())) {
        part(&mut rows);
    }
    if rows.is_empty() {
        return Err(format!("bench has the parts {}", PARTS.map(|(name, _)| name).join(", ")));
    }
    let table = table(&rows);
    print!("{table}");
    if let Some(path) = file {
        write_between(path, &table)?;
    }
    Ok(())
}
