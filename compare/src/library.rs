//! The library over its C ABI, and the words of tables and reports as the second engine's structs: the one place that
//! translates.

use crate::action::{Action, Parent, Read, State};
use crate::cause;
use crate::header::*;
use crate::model::{Answer, Event, Figures, Shown, Version, CHARGE_ACCOUNTS};
use crate::newest::Newest;
use crate::queue::{Entry, Queue};
use crate::rule::Rule;
use crate::table::Table;
use crate::times::{EndTime, Kind, Times, KINDS};
use crate::tree::{Line, Tree};

/// Words of row 0, the head. Counters and lengths are of each kind, in the order of `KINDS`. The store's kept sums and
/// newest end times are where those of an action are in its row.
pub const HIGHEST: usize = 0;
pub const COUNTERS: [usize; KINDS.len()] = [1, 2];
pub const QUEUE_LENGTHS: [usize; KINDS.len()] = [3, 4];
pub const RULE: usize = 5;
pub const HEAD_WORDS: usize = 6;
/// Words of row n, action n. Each set, the subaction times of the reads and the newest end times have a word for every
/// account, from here on, and the pending sums, own adds and kept sums one for every charge account.
pub const PARENT: usize = 0;
pub const STATE: usize = 1;
pub const END: usize = 2;
pub const READS: usize = 3;
pub const WRITES: usize = READS + ACCOUNTS;
pub const PENDING: usize = WRITES + ACCOUNTS;
pub const OWN_ADDS: usize = PENDING + CHARGE_ACCOUNTS;
pub const SUB_TIMES: usize = ENTRIES[Kind::Sub as usize] + ENTRY_WORDS;
pub const KEPT: usize = SUB_TIMES + ACCOUNTS;
pub const NEWEST: usize = KEPT + CHARGE_ACCOUNTS;
/// Words of row i that are no part of action i: the entry at position i of each queue, from here on.
pub const ENTRIES: [usize; KINDS.len()] = [OWN_ADDS + CHARGE_ACCOUNTS, OWN_ADDS + CHARGE_ACCOUNTS + ENTRY_WORDS];
/// Words of an entry.
pub const NUMBER: usize = 0;
pub const VERDICT: usize = 1;
pub const READINESS: usize = 2;
pub const ENTRY_WORDS: usize = 3;
/// What the state's word says.
pub const LIVE: u64 = 1;
pub const COMMITTED: u64 = 2;
pub const ABORTED: u64 = 3;
/// Words of a report's line. The figures are two for every charge account, own adds and total.
pub const LINE_NUMBER: usize = 1;
pub const LINE_STATE: usize = 2;
pub const LINE_FIGURES: usize = 3;

const _: () = assert!(ROW_WORDS == NEWEST + ACCOUNTS, "a row ends with the newest end times");
const _: () = assert!(TABLE_WORDS == ROW_WORDS * (ACTIONS + 1), "a table is a head and a row for each action");
const _: () = assert!(LINE_WORDS == LINE_FIGURES + 2 * CHARGE_ACCOUNTS, "a report's line ends with the figures");
const _: () = assert!(BLOCK_AT == LINE_WORDS * ACTIONS, "a report has room for a line of each action");
const _: () = assert!(REPORT_WORDS == BLOCK_AT + BLOCK_WORDS * CHARGE_ACCOUNTS, "a report ends with the last block");
const _: () = assert!(SHORT_BYTES == SHORT_EVENTS * EVENT_BYTES, "a short day's buffer has room for the longest");

/// What stands where a refused look must not write.
const UNTOUCHED: u8 = 0xee;
/// What stands where a call puts a number, 0 where it has none.
const NO_NUMBER: u64 = u64::MAX;

extern "C" {
    fn mundzavch_open(table: *mut u64, words: usize, rule: u64) -> u64;
    fn mundzavch_highest(table: *const u64, words: usize) -> u64;
    fn mundzavch_top_counter(table: *const u64, words: usize) -> u64;
    fn mundzavch_sub_counter(table: *const u64, words: usize) -> u64;
    fn mundzavch_event(
        table: *mut u64,
        words: usize,
        base: *mut u8,
        base_length: usize,
        shadow: *mut u8,
        shadow_length: usize,
        code: u64,
        number: u64,
        account: u64,
        card: *const u8,
        card_length: usize,
        first: *mut u64,
        second: *mut u64,
        third: *mut u64,
    ) -> u64;
    fn mundzavch_cause(
        table: *const u64,
        words: usize,
        base: *const u8,
        base_length: usize,
        shadow: *const u8,
        shadow_length: usize,
        code: u64,
        number: u64,
        account: u64,
        card: *const u8,
        card_length: usize,
    ) -> u64;
    fn mundzavch_look(
        table: *const u64,
        words: usize,
        base: *const u8,
        base_length: usize,
        shadow: *const u8,
        shadow_length: usize,
        number: u64,
        account: u64,
        card: *mut u8,
        moves: *mut u64,
    ) -> u64;
    fn mundzavch_run(
        table: *mut u64,
        words: usize,
        base: *mut u8,
        base_length: usize,
        shadow: *mut u8,
        shadow_length: usize,
        events: *const u8,
        events_length: usize,
        answers: *mut u64,
        answers_words: usize,
    ) -> u64;
    fn mundzavch_day(
        file: *const u8,
        file_length: usize,
        table: *mut u64,
        words: usize,
        base: *mut u8,
        base_length: usize,
        shadow: *mut u8,
        shadow_length: usize,
        listing: *mut u8,
    ) -> usize;
    fn mundzavch_tree(
        table: *const u64,
        words: usize,
        base: *const u8,
        base_length: usize,
        shadow: *const u8,
        shadow_length: usize,
        opening: *const u8,
        opening_length: usize,
        report: *mut u64,
        lines: *mut u64,
    ) -> u64;
    fn mundzavch_day_tree(
        file: *const u8,
        file_length: usize,
        table: *mut u64,
        words: usize,
        base: *mut u8,
        base_length: usize,
        shadow: *mut u8,
        shadow_length: usize,
        opening: *mut u8,
        opening_length: usize,
        text: *mut u8,
    ) -> usize;
    fn mundzavch_short_day(k: u64, rule: u64, place: u64, list: *mut u8, refusal: *mut u64) -> u64;
}

/// A table's words and the two stores, as the library is lent them.
#[derive(Clone, PartialEq, Eq)]
pub struct Lent {
    pub table: Vec<u64>,
    pub base: Vec<u8>,
    pub shadow: Vec<u8>,
}

/// A call on the lent table and stores, each as its pointer and its length, between its other arguments. The pointers
/// come from vectors that live through the call.
macro_rules! on_parts {
    ($call:ident, $pointer:ident, $parts:ident, [$($front:expr),*], [$($back:expr),*]) => {
        unsafe {
            $call(
                $($front,)*
                $parts.table.$pointer(), $parts.table.len(),
                $parts.base.$pointer(), $parts.base.len(),
                $parts.shadow.$pointer(), $parts.shadow.len(),
                $($back),*
            )
        }
    };
}

impl Lent {
    pub fn event(&mut self, e: &Event) -> Answer {
        let [mut first, mut second, mut third] = [NO_NUMBER; ANSWER_WORDS - 1];
        let kind = on_parts!(
            mundzavch_event,
            as_mut_ptr,
            self,
            [],
            [e.code, e.number, e.account, e.card.as_ptr(), e.card.len(), &mut first, &mut second, &mut third]
        );
        answer([kind, first, second, third])
    }

    /// The cause that the event would have, none where it would not be refused.
    pub fn cause(&self, e: &Event) -> u64 {
        on_parts!(mundzavch_cause, as_ptr, self, [], [e.code, e.number, e.account, e.card.as_ptr(), e.card.len()])
    }

    pub fn look(&self, number: u64, account: u64) -> Result<Shown, u64> {
        let (mut card, mut moves) = ([UNTOUCHED; CARD_BYTES], NO_NUMBER);
        let cause = on_parts!(mundzavch_look, as_ptr, self, [], [number, account, card.as_mut_ptr(), &mut moves]);
        if cause == cause::NONE {
            return Ok(Shown { card, moves });
        }
        assert_eq!(card, [UNTOUCHED; CARD_BYTES], "a refused look wrote a card");
        assert_eq!(moves, 0, "a refused look has moves");
        Err(cause)
    }

    /// The cause, none where the list was run; its answers are then in the buffer's front.
    pub fn run(&mut self, events: &[u8], answers: &mut [u64]) -> u64 {
        let (out, room) = (answers.as_mut_ptr(), answers.len());
        on_parts!(mundzavch_run, as_mut_ptr, self, [], [events.as_ptr(), events.len(), out, room])
    }

    pub fn day<'a>(&mut self, file: &[u8], listing: &'a mut [u8; LISTING_BYTES]) -> &'a [u8] {
        let out = listing.as_mut_ptr();
        let length = on_parts!(mundzavch_day, as_mut_ptr, self, [file.as_ptr(), file.len()], [out]);
        &listing[..length]
    }

    /// The cause, none where there is a report, and how many lines stand in its front.
    pub fn tree(&self, opening: &[u8], report: &mut [u64; REPORT_WORDS]) -> (u64, u64) {
        let (out, mut lines) = (report.as_mut_ptr(), NO_NUMBER);
        let cause = on_parts!(mundzavch_tree, as_ptr, self, [], [opening.as_ptr(), opening.len(), out, &mut lines]);
        (cause, lines)
    }

    pub fn day_tree<'a>(&mut self, file: &[u8], opening: &mut [u8], text: &'a mut [u8; LISTING_BYTES]) -> &'a [u8] {
        let length = on_parts!(
            mundzavch_day_tree,
            as_mut_ptr,
            self,
            [file.as_ptr(), file.len()],
            [opening.as_mut_ptr(), opening.len(), text.as_mut_ptr()]
        );
        &text[..length]
    }

    /// The cause, none where it is a new table under the rule of this number.
    pub fn open(&mut self, rule: u64) -> u64 {
        unsafe { mundzavch_open(self.table.as_mut_ptr(), self.table.len(), rule) }
    }

    /// The highest number, and the counters.
    pub fn three_numbers(&self) -> (u64, Times) {
        let (table, words) = (self.table.as_ptr(), self.table.len());
        unsafe {
            let counters = Times::new(mundzavch_top_counter(table, words), mundzavch_sub_counter(table, words));
            (mundzavch_highest(table, words), counters)
        }
    }
}

/// What a call for a short day answers, its kind and its refusal. The buffer may go on behind the bytes that the call has
/// a claim to.
pub fn short_day(k: u64, rule: u64, place: u64, buffer: &mut [u8]) -> (u64, u64) {
    assert!(buffer.len() >= SHORT_BYTES, "a buffer with no room for a short day");
    let mut refusal = NO_NUMBER;
    let kind = unsafe { mundzavch_short_day(k, rule, place, buffer.as_mut_ptr(), &mut refusal) };
    (kind, refusal)
}

/// An answer from its words. Where it has fewer numbers than there is room for, zeros stand.
pub fn answer(words: [u64; ANSWER_WORDS]) -> Answer {
    let [kind, first, second, third] = words;
    let version = Version { holder: first, moves: second };
    let a = match kind {
        ANSWER_REFUSED => Answer::Refused(first),
        ANSWER_STARTED => Answer::Started(first),
        ANSWER_READ => Answer::Read(version),
        ANSWER_WRITTEN => Answer::Written,
        ANSWER_COMMITTED => Answer::Committed(first),
        ANSWER_FAILED => Answer::Failed(first, second),
        ANSWER_ABORTED => Answer::Aborted(first, second),
        ANSWER_ADDED => Answer::Added,
        ANSWER_READ_SUM => Answer::ReadSum(version, third as i64),
        ANSWER_ENTERED => Answer::Entered,
        ANSWER_READY => Answer::Ready(first),
        ANSWER_JUDGED_FAILED => Answer::JudgedFailed(first),
        _ => panic!("an answer of kind {kind}"),
    };
    assert_eq!(words, answer_words(a), "a number too many in an answer");
    a
}

pub fn answer_words(a: Answer) -> [u64; ANSWER_WORDS] {
    match a {
        Answer::Refused(c) => [ANSWER_REFUSED, c, 0, 0],
        Answer::Started(n) => [ANSWER_STARTED, n, 0, 0],
        Answer::Read(v) => [ANSWER_READ, v.holder, v.moves, 0],
        Answer::Written => [ANSWER_WRITTEN, 0, 0, 0],
        Answer::Committed(t) => [ANSWER_COMMITTED, t, 0, 0],
        Answer::Failed(t, k) => [ANSWER_FAILED, t, k, 0],
        Answer::Aborted(n, m) => [ANSWER_ABORTED, n, m, 0],
        Answer::Added => [ANSWER_ADDED, 0, 0, 0],
        Answer::ReadSum(v, sum) => [ANSWER_READ_SUM, v.holder, v.moves, sum as u64],
        Answer::Entered => [ANSWER_ENTERED, 0, 0, 0],
        Answer::Ready(m) => [ANSWER_READY, m, 0, 0],
        Answer::JudgedFailed(m) => [ANSWER_JUDGED_FAILED, m, 0, 0],
    }
}

/// The answers of a list, from all their words.
pub fn answers(words: &[u64]) -> Vec<Answer> {
    words.chunks(ANSWER_WORDS).map(|w| answer(w.try_into().expect("an answer's length"))).collect()
}

/// The rule that the head's word says: it is 1 less than the number.
fn rule(word: u64) -> Rule {
    Rule::of(word.wrapping_add(1))
}

pub fn rule_word(rule: Rule) -> u64 {
    rule.number().wrapping_sub(1)
}

fn state(word: u64) -> State {
    match word {
        LIVE => State::Live,
        COMMITTED => State::Committed,
        ABORTED => State::Aborted,
        other => State::Unknown(other),
    }
}

/// The state that a word says, by its name.
pub fn state_said(word: u64) -> &'static str {
    match word {
        LIVE => "live",
        COMMITTED => "committed",
        ABORTED => "aborted",
        _ => "of no state",
    }
}

fn state_word(s: State) -> u64 {
    match s {
        State::Live => LIVE,
        State::Committed => COMMITTED,
        State::Aborted => ABORTED,
        State::Unknown(other) => other,
    }
}

/// From the read entry, and from the word of the subaction time.
fn read(entry: u64, sub_time: u64) -> Read {
    match entry.checked_sub(1) {
        None => Read::Not(sub_time),
        Some(top_time) => Read::At(Times::new(top_time, sub_time)),
    }
}

fn read_words(read: Read) -> [u64; 2] {
    match read {
        Read::Not(word) => [0, word],
        Read::At(times) => [times.top.0 + 1, times.sub.0],
    }
}

fn figures(words: &[u64]) -> Figures {
    std::array::from_fn(|c| words[c] as i64)
}

fn put_figures(figures: &Figures, words: &mut [u64]) {
    for (word, &figure) in words.iter_mut().zip(figures) {
        *word = figure as u64;
    }
}

/// The newest end times of a row whose parent has children of this kind.
fn newest(row: &[u64], kind: Kind) -> Newest {
    Newest::new(kind, std::array::from_fn(|k| row[NEWEST + k]))
}

fn put_newest(newest: &Newest, row: &mut [u64]) {
    row[NEWEST..NEWEST + ACCOUNTS].copy_from_slice(newest.numbers());
}

/// The action of a row, in a table of so many rows.
fn action(row: &[u64], number: u64, rows: u64) -> Action {
    let mut a = Action::new(number, Parent::in_row(row[PARENT], number, rows));
    a.state = state(row[STATE]);
    a.end = EndTime::new(a.kind(), row[END]);
    for k in 0..ACCOUNTS {
        a.reads[k] = read(row[READS + k], row[SUB_TIMES + k]);
        a.writes[k] = row[WRITES + k];
    }
    a.pending = figures(&row[PENDING..]);
    a.own_adds = figures(&row[OWN_ADDS..]);
    a.kept = figures(&row[KEPT..]);
    a.newest = newest(row, Kind::Sub);
    a
}

/// The words of an entry, within its row.
pub fn entry_words(kind: Kind) -> std::ops::Range<usize> {
    ENTRIES[kind as usize]..ENTRIES[kind as usize] + ENTRY_WORDS
}

fn entry(words: &[u64]) -> Entry {
    Entry { number: words[NUMBER], verdict: words[VERDICT], readiness: words[READINESS] }
}

fn queue(words: &[u64], kind: Kind) -> Queue {
    let rows = words.chunks(ROW_WORDS).skip(1);
    let places = rows.map(|row| entry(&row[entry_words(kind)])).collect();
    Queue { length: words[QUEUE_LENGTHS[kind as usize]], places }
}

/// The structs that a table's words stand for; None for a table of another length. Rows above the highest number are
/// nobody's.
pub fn decode(words: &[u64]) -> Option<Table> {
    if words.len() != TABLE_WORDS {
        return None;
    }
    let highest = words[HIGHEST];
    let rows = highest.min(ACTIONS as u64);
    let actions = words.chunks(ROW_WORDS).zip(0..=rows).skip(1).map(|(row, n)| action(row, n, rows)).collect();
    let [top, sub] = COUNTERS.map(|at| words[at]);
    let queues = KINDS.map(|kind| queue(words, kind));
    let (kept, newest) = (figures(&words[KEPT..]), newest(words, Kind::Top));
    Some(Table::lent(rule(words[RULE]), highest, Times::new(top, sub), kept, newest, queues, actions))
}

fn put_action(a: &Action, parent: u64, row: &mut [u64]) {
    row[PARENT] = parent;
    row[STATE] = state_word(a.state);
    row[END] = a.end.number();
    for k in 0..ACCOUNTS {
        [row[READS + k], row[SUB_TIMES + k]] = read_words(a.reads[k]);
        row[WRITES + k] = a.writes[k];
    }
    put_figures(&a.pending, &mut row[PENDING..]);
    put_figures(&a.own_adds, &mut row[OWN_ADDS..]);
    put_figures(&a.kept, &mut row[KEPT..]);
    put_newest(&a.newest, row);
}

fn put_queue(queue: &Queue, kind: Kind, words: &mut [u64]) {
    words[QUEUE_LENGTHS[kind as usize]] = queue.length;
    for (row, w) in words.chunks_mut(ROW_WORDS).skip(1).zip(&queue.places) {
        row[entry_words(kind)].copy_from_slice(&[w.number, w.verdict, w.readiness]);
    }
}

/// The table written over words of the right length; the head's other words stay, and the actions' words of rows above
/// the highest number.
pub fn encode(t: &Table, words: &mut [u64]) {
    words[HIGHEST] = t.highest;
    words[RULE] = rule_word(t.rule);
    for kind in KINDS {
        words[COUNTERS[kind as usize]] = t.counters.number(kind);
        put_queue(t.queue(kind), kind, words);
    }
    put_figures(&t.kept, &mut words[KEPT..]);
    put_newest(&t.newest, words);
    for (row, a) in words.chunks_mut(ROW_WORDS).skip(1).zip(t.held()) {
        put_action(a, t.parent_number(a), row);
    }
}

fn line_words(line: &Line) -> Vec<u64> {
    let mut words = vec![line.depth, line.number, state_word(line.state)];
    for (&own, &total) in line.own_adds.iter().zip(&line.total) {
        words.extend([own as u64, total as u64]);
    }
    words
}

/// The tree written over a report's words; those between the lines and the last block stay.
pub fn encode_tree(tree: &Tree, report: &mut [u64; REPORT_WORDS]) {
    let (lines, block) = report.split_at_mut(BLOCK_AT);
    for (words, line) in lines.chunks_mut(LINE_WORDS).zip(&tree.lines) {
        words.copy_from_slice(&line_words(line));
    }
    for (words, b) in block.chunks_mut(BLOCK_WORDS).zip(&tree.block) {
        words.copy_from_slice(&[b.account, b.opening as u64, b.sum as u64, b.closing as u64]);
    }
}
