//! Damage to tables and stores.

use crate::damage_newest::{damage_newest, mend_newest};
use crate::damage_parents::damage_parent;
use crate::damage_queues::{damage_queues, length, make_queue};
use crate::generate::{any_base, busy_charge, extreme};
use crate::header::*;
use crate::library::{rule_word, Lent, ABORTED, COMMITTED, LIVE};
use crate::library::{COUNTERS, END, HEAD_WORDS, HIGHEST, KEPT, OWN_ADDS, PARENT};
use crate::library::{PENDING, READS, RULE, STATE, SUB_TIMES, WRITES};
use crate::model::{base_card, put_amount, CHARGE_ACCOUNTS, FIRST_CHARGE, MOST_COUNTED, STORE};
use crate::random::Random;
use crate::rule::Rule;
use crate::times::{Kind, KINDS};

/// An enum of damages, with the list of them all.
macro_rules! damages {
    ($($damage:ident),* $(,)?) => {
        /// A fault, or something that looks like one and that docs/RULES.md leaves free.
        #[derive(Clone, Copy)]
        pub enum Damage {
            $($damage),*
        }

        pub const DAMAGES: &[Damage] = &[$(Damage::$damage),*];
    };
}

damages! {
    BaseLength,
    ShadowLength,
    TableLength,
    Highest,
    HighestLower,
    Counter,
    CounterAtMost,
    UnusedHead,
    UnusedRow,
    NoState,
    ParentUnknown,
    ParentAbove,
    OwnParent,
    OtherParent,
    RingOfLive,
    RingOfFinished,
    OtherState,
    LateRead,
    LateReadWithinOther,
    ReadTimes,
    CrossedReads,
    UnreadTimes,
    EndTime,
    EndTimeWithinOther,
    WriteEntry,
    EndTimeTwice,
    PendingAstray,
    PendingAtEnds,
    OwnAddsAtEnds,
    KeptAtEnds,
    BaseAtEnds,
    QueueMade,
    QueueMadeReady,
    QueuesMadeReady,
    QueueLength,
    QueueLonger,
    QueueShorter,
    EntriesAbove,
    EntryWords,
    EntryNobody,
    EntryOther,
    EntryTwice,
    EntryOfOtherKind,
    NewestAboveCounter,
    NewestWithinOther,
    NewestEarly,
    NewestLate,
    NewestFree,
    NewestOfFinished,
    NewestAny,
    RuleUnknown,
    RuleOther,
}

use Damage::*;

/// Those that make a part's length wrong.
pub const LENGTHS: &[Damage] = &[BaseLength, ShadowLength, TableLength];

/// Lengths that are not those of the stores and of a table.
const BASE_LENGTHS: [usize; 6] = [0, 1, BASE_BYTES - CARD_BYTES, BASE_BYTES - 1, BASE_BYTES + 1, 2 * BASE_BYTES];
const SHADOW_LENGTHS: [usize; 6] = [0, 1, BASE_BYTES, SHADOW_BYTES - 1, SHADOW_BYTES + 1, SHADOW_BYTES + BASE_BYTES];
const TABLE_LENGTHS: [usize; 10] = [
    HIGHEST,
    COUNTERS[0],
    COUNTERS[1],
    COUNTERS[1] + 1,
    RULE,
    HEAD_WORDS,
    ROW_WORDS,
    TABLE_WORDS - 1,
    TABLE_WORDS + 1,
    TABLE_WORDS + ROW_WORDS,
];
/// Words of the head that nothing is kept in.
const UNUSED_HEAD: std::ops::Range<usize> = HEAD_WORDS..KEPT;
/// Words that say no rule: what would be rule 0, and what ends in the bits of a rule's.
const NO_RULES: [u64; 5] = [u64::MAX, 1 << 8, 1 << 32, 1 << 32 | 1, 1 << 63];
/// One opening store in so many has another length.
const OTHER_OPENING: u64 = 8;
/// One action in so many gets other own adds or kept sums: all, some or few of them.
const FIGURES_RARE: [u64; 3] = [1, 2, 8];
/// What a store is filled up with where it grows.
const FILL: u8 = 7;
/// After one damage in so many the newest end times are made to fit.
const MENDED: u64 = 2;

pub fn row(words: &mut [u64], n: u64) -> &mut [u64] {
    let from = ROW_WORDS * n as usize;
    &mut words[from..from + ROW_WORDS]
}

/// A number near a limit, or far beyond it.
pub fn beyond(r: &mut Random, limit: u64) -> u64 {
    if r.one_in(3) {
        r.next().max(limit)
    } else {
        limit.saturating_add(r.below(3))
    }
}

/// One of the numbers above a first one, up to and with a last one; None where there is none.
pub fn between(r: &mut Random, above: u64, last: u64) -> Option<u64> {
    (above < last).then(|| above + 1 + r.below(last - above))
}

pub fn damage(r: &mut Random, damage: Damage, lent: &mut Lent) {
    match damage {
        NewestAboveCounter | NewestWithinOther | NewestEarly | NewestLate | NewestFree | NewestOfFinished
        | NewestAny => damage_newest(r, damage, &mut lent.table),
        _ => {
            damage_other(r, damage, lent);
            if r.one_in(MENDED) {
                mend_newest(&mut lent.table);
            }
        }
    }
}

/// Damage to anything but the newest end times. They may be false after it.
fn damage_other(r: &mut Random, damage: Damage, lent: &mut Lent) {
    let words = &mut lent.table;
    match damage {
        BaseLength => lent.base.resize(*r.pick(&BASE_LENGTHS), FILL),
        ShadowLength => lent.shadow.resize(*r.pick(&SHADOW_LENGTHS), FILL),
        TableLength => words.resize(*r.pick(&TABLE_LENGTHS), 0),
        BaseAtEnds => damage_amounts(r, &mut lent.base),
        _ if words.len() != TABLE_WORDS => {}
        Highest => words[HIGHEST] = beyond(r, ACTIONS as u64 + 1),
        HighestLower => words[HIGHEST] = r.below(highest(words) + 1),
        Counter | CounterAtMost => damage_counter(r, damage, words),
        UnusedHead => words[UNUSED_HEAD.start + r.below(UNUSED_HEAD.len() as u64) as usize] = r.next(),
        UnusedRow => damage_unused_row(r, words),
        RuleUnknown | RuleOther => damage_rule(r, damage, words),
        QueueMade | QueueMadeReady | QueuesMadeReady | QueueLength | QueueLonger | QueueShorter | EntriesAbove
        | EntryWords | EntryNobody | EntryOther | EntryTwice | EntryOfOtherKind => damage_queues(r, damage, words),
        LateRead | LateReadWithinOther => damage_late_read(r, damage, words),
        ReadTimes => damage_read_times(r, words),
        CrossedReads => cross_reads(r, words),
        UnreadTimes => damage_unread_times(r, words),
        EndTime | EndTimeWithinOther => damage_end_time(r, damage, words),
        PendingAtEnds => damage_sums(r, words),
        OwnAddsAtEnds => damage_figures(r, words, OWN_ADDS),
        KeptAtEnds => damage_kept_sums(r, words),
        ParentUnknown | ParentAbove | OwnParent | OtherParent | RingOfLive | RingOfFinished => {
            damage_parent(r, damage, words)
        }
        _ => damage_action(r, damage, words),
    }
}

/// A word that says no rule, or the rule that the table is not under: that is sound, whatever the queues hold.
fn damage_rule(r: &mut Random, damage: Damage, words: &mut [u64]) {
    let [backward, forward] = [Rule::Backward, Rule::Forward].map(rule_word);
    words[RULE] = match damage {
        RuleUnknown if r.one_in(2) => beyond(r, forward + 1),
        RuleUnknown => *r.pick(&NO_RULES),
        _ if words[RULE] == backward => forward,
        _ => backward,
    };
}

/// Most base amounts put at an end of 64 bits, or near it.
fn damage_amounts(r: &mut Random, base: &mut [u8]) {
    if base.len() != BASE_BYTES {
        return;
    }
    for account in FIRST_CHARGE..ACCOUNTS {
        if !r.one_in(3) {
            put_amount(&mut base[base_card(account)], extreme(r));
        }
    }
}

/// The highest number, which says how many rows are actions; no more than there are, whatever the head says.
pub fn highest(words: &[u64]) -> u64 {
    words[HIGHEST].min(ACTIONS as u64)
}

pub fn field(words: &[u64], n: u64, at: usize) -> u64 {
    words[ROW_WORDS * n as usize + at]
}

pub fn kind_of(words: &[u64], n: u64) -> Kind {
    Kind::under(field(words, n, PARENT))
}

fn counter(words: &[u64], kind: Kind) -> u64 {
    words[COUNTERS[kind as usize]]
}

/// An action that fits, if there is one.
pub fn any_action(r: &mut Random, words: &[u64], fits: impl Fn(u64) -> bool) -> Option<u64> {
    let fitting: Vec<u64> = (1..=highest(words)).filter(|&n| fits(n)).collect();
    (!fitting.is_empty()).then(|| *r.pick(&fitting))
}

/// Whether an action may wait in its queue: it is live, and has no live child.
pub fn may_wait(words: &[u64], n: u64) -> bool {
    let is_live = |n: u64| field(words, n, STATE) == LIVE;
    is_live(n) && !(1..=highest(words)).any(|m| is_live(m) && field(words, m, PARENT) == n)
}

/// A counter raised, mostly of a kind of which somebody could end: by any number, or to about its most, where the
/// queue of its kind is often made or emptied first.
fn damage_counter(r: &mut Random, damage: Damage, words: &mut [u64]) {
    let any = *r.pick(&KINDS);
    let kind = any_action(r, words, |n| may_wait(words, n)).map_or(any, |n| kind_of(words, n));
    if matches!(damage, Counter) {
        let least = if r.one_in(2) { MOST_COUNTED } else { counter(words, kind) };
        words[COUNTERS[kind as usize]] = beyond(r, least.saturating_add(1));
        return;
    }
    match r.below(3) {
        0 => make_queue(r, words, kind),
        1 => *length(words, kind) = 0,
        _ => {}
    }
    let waiting = (*length(words, kind)).min(ACTIONS as u64);
    let too_many = MOST_COUNTED + 1 + r.below(waiting.max(1));
    let counted = *r.pick(&[MOST_COUNTED - 1, MOST_COUNTED, MOST_COUNTED, too_many]);
    words[COUNTERS[kind as usize]] = counted - waiting;
}

/// A time above the counter of its kind, or at it; where that is asked, one that is not above the other counter.
fn late_time(r: &mut Random, words: &[u64], within_other: bool) -> Option<(Kind, u64)> {
    if !within_other {
        let kind = *r.pick(&KINDS);
        return Some((kind, beyond(r, counter(words, kind))));
    }
    let [top, sub] = KINDS.map(|kind| counter(words, kind));
    let lower = if top < sub { Kind::Top } else { Kind::Sub };
    between(r, top.min(sub), top.max(sub)).map(|time| (lower, time))
}

/// A read of which one time is late, mostly by a live action; the other is 0 where there was no read before.
fn damage_late_read(r: &mut Random, damage: Damage, words: &mut [u64]) {
    let anyone = r.one_in(4);
    let Some((kind, time)) = late_time(r, words, matches!(damage, LateReadWithinOther)) else { return };
    let Some(n) = any_action(r, words, |n| anyone || field(words, n, STATE) == LIVE) else { return };
    let k = r.below(ACCOUNTS as u64) as usize;
    let row = row(words, n);
    if row[READS + k] == 0 {
        (row[READS + k], row[SUB_TIMES + k]) = (1, 0);
    }
    match kind {
        Kind::Top => row[READS + k] = time.saturating_add(1),
        Kind::Sub => row[SUB_TIMES + k] = time,
    }
}

/// An end time that is late or 0, mostly of an action that has committed.
fn damage_end_time(r: &mut Random, damage: Damage, words: &mut [u64]) {
    let (within_other, anyone) = (matches!(damage, EndTimeWithinOther), r.one_in(4));
    let Some((kind, late)) = late_time(r, words, within_other) else { return };
    let time = if within_other || r.one_in(2) { late } else { 0 };
    let fits = |n: u64| kind_of(words, n) == kind && (anyone || field(words, n, STATE) == COMMITTED);
    if let Some(n) = any_action(r, words, fits) {
        row(words, n)[END] = time;
    }
}

/// Reads of live actions at any times that the counters allow.
fn damage_read_times(r: &mut Random, words: &mut [u64]) {
    let [top, sub] = KINDS.map(|kind| counter(words, kind).saturating_add(1));
    for n in 1..=highest(words) {
        let row = row(words, n);
        for k in 0..ACCOUNTS {
            if row[STATE] == LIVE && r.one_in(4) {
                (row[READS + k], row[SUB_TIMES + k]) = (1 + r.below(top), r.below(sub));
            }
        }
    }
}

/// An account that a subaction and its parent have read, the one with the smaller topaction time and the other with the
/// smaller subaction time. Events do not lead there, as both counters rise. The parent may have a card.
fn cross_reads(r: &mut Random, words: &mut [u64]) {
    let [top, sub] = KINDS.map(|kind| counter(words, kind));
    let has_parent = |n: u64| (STORE + 1..=highest(words)).contains(&field(words, n, PARENT));
    let Some(n) = any_action(r, words, |n| has_parent(n) && may_wait(words, n)) else { return };
    let parent = field(words, n, PARENT);
    let written: Vec<usize> = (0..ACCOUNTS).filter(|&k| field(words, parent, WRITES + k) != 0).collect();
    let any = r.below(ACCOUNTS as u64) as usize;
    let k = if written.is_empty() || r.one_in(2) { any } else { *r.pick(&written) };
    let mut reads = [(0, sub), (top, 0)];
    if r.one_in(2) {
        reads.reverse();
    }
    for (n, (top_time, sub_time)) in [n, parent].into_iter().zip(reads) {
        let row = row(words, n);
        (row[READS + k], row[SUB_TIMES + k]) = (top_time.saturating_add(1), sub_time);
    }
}

/// Anything where the subaction times of accounts that are not in the read set would stand.
fn damage_unread_times(r: &mut Random, words: &mut [u64]) {
    for n in 1..=highest(words) {
        let row = row(words, n);
        for k in 0..ACCOUNTS {
            if row[READS + k] == 0 && r.one_in(2) {
                row[SUB_TIMES + k] = beyond(r, 0);
            }
        }
    }
}

/// Most pending sums put at an end of 64 bits, or near it: of live actions, and of others where they have added.
fn damage_sums(r: &mut Random, words: &mut [u64]) {
    for n in 1..=highest(words) {
        let row = row(words, n);
        for c in 0..CHARGE_ACCOUNTS {
            let entry = WRITES + FIRST_CHARGE + c;
            if (row[STATE] == LIVE || row[entry] != 0) && !r.one_in(3) {
                row[entry] = row[entry].max(1);
                row[PENDING + c] = extreme(r) as u64;
            }
        }
    }
}

/// Own adds or kept sums of actions in any state put at an end of 64 bits, near it, or near 0. One account alone or all
/// of them: with all, hardly a table is left in which every total is an amount.
fn damage_figures(r: &mut Random, words: &mut [u64], first: usize) {
    let one = busy_charge(r);
    let charges = if r.one_in(2) { 0..CHARGE_ACCOUNTS } else { one..one + 1 };
    let rare = *r.pick(&FIGURES_RARE);
    for n in 1..=highest(words) {
        for c in charges.clone() {
            if r.one_in(rare) {
                row(words, n)[first + c] = any_figure(r) as u64;
            }
        }
    }
}

/// Kept sums of the store and of actions, sometimes with heads of queues that are ready to leave.
fn damage_kept_sums(r: &mut Random, words: &mut [u64]) {
    if !r.one_in(3) {
        damage_figures(r, words, KEPT);
    }
    if !r.one_in(3) {
        words[KEPT..KEPT + CHARGE_ACCOUNTS].fill_with(|| any_figure(r) as u64);
    }
    if r.one_in(2) {
        damage_queues(r, QueuesMadeReady, words);
    }
}

fn any_figure(r: &mut Random) -> i64 {
    match r.below(4) {
        0 => *r.pick(&[-1, 0, 1]),
        1 => extreme(r),
        _ => *r.pick(&[i64::MAX, i64::MIN]),
    }
}

/// An opening store of any content, mostly of its length.
pub fn any_opening(r: &mut Random) -> Vec<u8> {
    let mut opening = any_base(r);
    if r.one_in(OTHER_OPENING) {
        opening.resize(*r.pick(&BASE_LENGTHS), FILL);
    }
    opening
}

fn damage_unused_row(r: &mut Random, words: &mut [u64]) {
    let above = highest(words) + 1 + r.below(3);
    if above <= ACTIONS as u64 {
        row(words, above).fill_with(|| r.next());
    }
}

/// Any action: its state, an entry of its write set, a pending sum, or another's end time.
fn damage_action(r: &mut Random, damage: Damage, words: &mut [u64]) {
    let highest = highest(words);
    if highest == 0 {
        return;
    }
    let n = 1 + r.below(highest);
    let k = r.below(ACCOUNTS as u64) as usize;
    match damage {
        NoState => row(words, n)[STATE] = *r.pick(&[0, ABORTED + 1, ABORTED + 2, u64::MAX]),
        OtherState => row(words, n)[STATE] = *r.pick(&[LIVE, COMMITTED, ABORTED]),
        WriteEntry => row(words, n)[WRITES + k] = 2 + r.below(9),
        PendingAstray => {
            let c = r.below(CHARGE_ACCOUNTS as u64) as usize;
            row(words, n)[WRITES + FIRST_CHARGE + c] = 0;
            row(words, n)[PENDING + c] = *r.pick(&[1, i64::MAX, i64::MIN, -1]) as u64;
        }
        _ => {
            let other = 1 + r.below(highest);
            let end = row(words, other)[END];
            row(words, n)[END] = end;
        }
    }
}
