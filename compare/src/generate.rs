//! Input for both engines: lists of events that get far, and day files, whole or damaged.

use crate::before::Joins;
use crate::dayfile::{counted_events, entry_at, MOST_EVENTS};
use crate::header::*;
use crate::model::{base_card, put_amount, Event, Ledger};
use crate::model::{CHARGE_ACCOUNTS, FIRST_CHARGE, MOST_ADDED, STORE};
use crate::queue::Entry;
use crate::random::Random;
use crate::rule::Rule;

/// What a part of an event that means nothing mostly is below: a little beyond what has a meaning.
const CODES: u64 = EVENT_JUDGE + 3;
const NUMBERS: u64 = ACTIONS as u64 + 6;
const ANY_ACCOUNTS: u64 = ACCOUNTS as u64 + 8;
const CARD_LENGTHS: u64 = 2 * CARD_BYTES as u64 + 6;
/// As many values as a byte has.
const BYTE_VALUES: u64 = 256;
/// Accounts of each kind that most events are about, so that actions meet.
const BUSY_ACCOUNTS: u64 = 3;
const BUSY_CHARGE_ACCOUNTS: u64 = 2;
/// One write or add in so many is to an account of the other kind.
const OTHER_KIND: u64 = 24;
/// What most adds lie within.
const SMALL: i64 = 100;
/// How far from an end of 64 bits an amount near it may be: a few adds reach it.
const NEAR: u64 = 2 * MOST_ADDED as u64;
/// One event in so many is by any live action, with live children or queued.
const ANYONE: u64 = 12;
/// One end in so many is a commit though a queue comes first, and one commit in so many by any leaf.
const OVERTAKES: u64 = 10;
/// One end in so many is an enter or a judge though the table has no queues.
const QUEUES_ANYWAY: u64 = 12;
/// One event in so many uses what hardly a table but a lent one has.
const RARE: u64 = 2;
/// One event in so many is by the one that stays, and so may end it; and one is a start though no number is free.
const STAYER: u64 = 300;
const HOPELESS: u64 = 24;
/// A day mostly has fewer events than this.
const SHORT_DAY: u64 = 120;
/// The ways in which a day file is damaged.
const FILE_DAMAGES: u64 = 9;

/// How a list's actions lie: mostly one below the other, mostly side by side, or any way.
#[derive(Clone, Copy, PartialEq, Eq)]
pub enum Shape {
    Deep,
    Wide,
    Mixed,
}

/// How they mostly end: by commits, through their queues, or by commits where nobody of their kind waits.
#[derive(Clone, Copy, PartialEq, Eq)]
pub enum Ending {
    Commits,
    Queue,
    Either,
}

impl Ending {
    /// With so many that wait to be judged, a judge is as likely as one more enter. Where it is 0, nobody enters.
    fn patience(self) -> u64 {
        match self {
            Ending::Commits => 0,
            Ending::Queue => 6,
            Ending::Either => 2,
        }
    }
}

/// How they follow each other: slowly, with many live side by side; fast, a few at a time, so that numbers are given
/// again and again; or fast beside one that has read and stays, so that records are needed.
#[derive(Clone, Copy, PartialEq, Eq)]
pub enum Turnover {
    Slow,
    Fast,
    Held,
}

impl Turnover {
    /// As many live ones are enough: then nobody starts.
    fn enough(self) -> usize {
        match self {
            Turnover::Slow => ACTIONS,
            Turnover::Fast | Turnover::Held => 6,
        }
    }

    /// Otherwise one event in so many is a start.
    fn start_in(self) -> u64 {
        match self {
            Turnover::Slow => 5,
            Turnover::Fast | Turnover::Held => 2,
        }
    }
}

#[derive(Clone, Copy)]
pub struct Style {
    pub shape: Shape,
    pub ending: Ending,
    pub turnover: Turnover,
}

pub fn bytes(r: &mut Random, n: usize) -> Vec<u8> {
    let mut out = Vec::with_capacity(n + 8);
    while out.len() < n {
        out.extend(r.next().to_le_bytes());
    }
    out.truncate(n);
    out
}

/// An amount at an end of 64 bits, or near it.
pub fn extreme(r: &mut Random) -> i64 {
    let away = if r.one_in(2) { r.below(3) } else { r.below(NEAR) } as i64;
    if r.one_in(2) {
        i64::MAX - away
    } else {
        i64::MIN + away
    }
}

/// A base store of any content; many of its amounts are near an end.
pub fn any_base(r: &mut Random) -> Vec<u8> {
    let mut base = bytes(r, BASE_BYTES);
    for account in FIRST_CHARGE..ACCOUNTS {
        let amount = match r.below(4) {
            0 => r.next() as i64,
            1 => within(r, SMALL),
            _ => extreme(r),
        };
        put_amount(&mut base[base_card(account)], amount);
    }
    base
}

pub fn within(r: &mut Random, most: i64) -> i64 {
    r.below(2 * most as u64 + 1) as i64 - most
}

/// What is added: mostly allowed, often at a limit.
fn added(r: &mut Random) -> i64 {
    match r.below(16) {
        0 => r.next() as i64,
        1 => *r.pick(&[MOST_ADDED + 1, -MOST_ADDED - 1]),
        2 | 3 => *r.pick(&[MOST_ADDED, -MOST_ADDED]),
        4 | 5 => 0,
        6 | 7 => within(r, MOST_ADDED),
        _ => within(r, SMALL),
    }
}

/// Who may do something where a table stands.
struct Stage {
    /// In the order of their starts.
    live: Vec<u64>,
    /// Live and not queued.
    free: Vec<u64>,
    /// Free and without a live child.
    leaves: Vec<u64>,
    /// Leaves of a kind of which nobody is queued.
    committers: Vec<u64>,
    queued: Vec<u64>,
    /// Queued and not ready.
    unjudged: Vec<u64>,
    has_ready_head: bool,
    /// Whether its rule lets anybody enter a queue.
    has_queues: bool,
    /// Events, by code and number, that hardly a table but a lent one has: commits whose reads beside their parent's
    /// show how a join takes times, whose kept sum alone is no amount, or whose clash the rule does not ask, and ends
    /// of a kind whose counter is at its most.
    rare: Vec<(u64, u64)>,
}

impl Stage {
    fn of(w: &Ledger) -> Stage {
        let t = &w.table;
        let live: Vec<u64> = t.ever().iter().filter(|a| a.is_live()).map(|a| a.number).collect();
        let free: Vec<u64> = live.iter().copied().filter(|&n| !t.is_queued(n)).collect();
        let leaves: Vec<u64> = free.iter().copied().filter(|&n| !t.has_live_child(n)).collect();
        let may_commit = |n: &u64| t.queue(t.action(*n).kind()).length == 0;
        let committers: Vec<u64> = leaves.iter().copied().filter(may_commit).collect();
        let ends = |code| move |n: &u64| (code, *n);
        let has_queues = t.rule == Rule::Backward;
        let is_unasked = |n: u64| !has_queues && t.knows_clash(n);
        let tells = |n: u64| Joins::of(t, n).is_telling() || w.only_kept_sum_fails(t.action(n)) || is_unasked(n);
        let mut rare: Vec<(u64, u64)> = committers.iter().filter(|n| tells(**n)).map(ends(EVENT_COMMIT)).collect();
        let counted_out = |n: &&u64| t.is_counted_out(t.action(**n).kind());
        rare.extend(committers.iter().filter(counted_out).map(ends(EVENT_COMMIT)));
        rare.extend(leaves.iter().filter(|_| has_queues).filter(counted_out).map(ends(EVENT_ENTER)));
        let entries: Vec<&Entry> = t.queues.iter().flat_map(|queue| queue.waiting()).collect();
        let queued = entries.iter().map(|w| w.number).collect();
        let unjudged = entries.iter().filter(|w| !w.is_ready()).map(|w| w.number).collect();
        let has_ready_head = t.queues.iter().any(|queue| queue.ready_head().is_some());
        Stage { live, free, leaves, committers, queued, unjudged, has_ready_head, has_queues, rare }
    }

    /// Takes out one of the leaves, where there are others.
    fn leave_out(&mut self, n: u64) {
        if self.leaves.len() > 1 {
            self.leaves.retain(|&m| m != n);
            self.committers.retain(|&m| m != n);
        }
    }
}

/// One of the first list that isn't empty.
fn pick_first(r: &mut Random, lists: &[&[u64]]) -> u64 {
    lists.iter().find(|list| !list.is_empty()).map_or(STORE, |list| *r.pick(list))
}

/// An event that means nothing: any code, number, account and card, inside bytes where that is asked.
fn wild(r: &mut Random, in_bytes: bool) -> Event {
    let mut any = |usual: u64| match r.below(4) {
        0 if !in_bytes => r.next(),
        0 => r.below(BYTE_VALUES),
        _ => r.below(usual),
    };
    let (code, number, account) = (any(CODES), any(NUMBERS), any(ANY_ACCOUNTS));
    let length = if in_bytes || !r.one_in(3) { CARD_BYTES } else { r.below(CARD_LENGTHS) as usize };
    Event { code, number, account, card: bytes(r, length) }
}

/// An account for an event of this code, mostly of the kind that it asks.
fn account(r: &mut Random, code: u64) -> u64 {
    let is_charge = match code {
        EVENT_ADD => !r.one_in(OTHER_KIND),
        EVENT_WRITE => r.one_in(OTHER_KIND),
        _ => r.one_in(2),
    };
    let (first, all, busy) = if is_charge {
        (FIRST_CHARGE, CHARGE_ACCOUNTS, BUSY_CHARGE_ACCOUNTS)
    } else {
        (0, FIRST_CHARGE, BUSY_ACCOUNTS)
    };
    let among = if r.one_in(4) { all as u64 } else { busy };
    first as u64 + r.below(among)
}

/// One of the charge accounts that most events are about, counted from 0.
pub fn busy_charge(r: &mut Random) -> usize {
    r.below(BUSY_CHARGE_ACCOUNTS) as usize
}

fn start(r: &mut Random, live: &[u64], shape: Shape) -> u64 {
    let under = match shape {
        Shape::Deep => !r.one_in(10),
        Shape::Wide => r.one_in(10),
        Shape::Mixed => r.one_in(2),
    };
    match live.last() {
        Some(&last) if under && shape == Shape::Deep => last,
        Some(_) if under => *r.pick(live),
        _ => STORE,
    }
}

/// An event that mostly is not refused where the engine stands.
pub fn event(r: &mut Random, w: &Ledger, style: Style, in_bytes: bool) -> Event {
    if r.one_in(24) {
        return wild(r, in_bytes);
    }
    let mut e = likely(r, w, style);
    if r.one_in(24) {
        spoil(r, &mut e, in_bytes);
    }
    e
}

/// Whether the next event is a start.
fn starts(r: &mut Random, w: &Ledger, stage: &Stage, turnover: Turnover) -> bool {
    if stage.live.is_empty() {
        return true;
    }
    if w.table.free_number().is_none() {
        return r.one_in(HOPELESS);
    }
    stage.live.len() < turnover.enough() && r.one_in(turnover.start_in())
}

/// One part of an event made wrong, or one that it may not use made odd.
fn spoil(r: &mut Random, e: &mut Event, in_bytes: bool) {
    match r.below(3) {
        0 => e.account = ACCOUNTS as u64 + r.below(BYTE_VALUES - ACCOUNTS as u64),
        1 if !in_bytes => e.card.resize(*r.pick(&[0, 1, CARD_BYTES - 1, CARD_BYTES + 1, 2 * CARD_BYTES]), 0),
        _ => e.number = r.below(ACTIONS as u64 + 2),
    }
}

fn likely(r: &mut Random, w: &Ledger, style: Style) -> Event {
    let mut stage = Stage::of(w);
    let mut card = bytes(r, CARD_BYTES);
    if !stage.rare.is_empty() && r.one_in(RARE) {
        let (code, number) = *r.pick(&stage.rare);
        return Event { code, number, account: 0, card };
    }
    if starts(r, w, &stage, style.turnover) {
        let parents = if r.one_in(ANYONE) { &stage.live } else { &stage.free };
        return Event { code: EVENT_START, number: start(r, parents, style.shape), account: 0, card };
    }
    if style.turnover == Turnover::Held && !r.one_in(STAYER) {
        let number = stage.live[0];
        if !w.table.action(number).has_read_any() && stage.leaves.contains(&number) {
            return Event { code: EVENT_READ, number, account: account(r, EVENT_READ), card };
        }
        stage.leave_out(number);
    }
    let code = code(r, &stage, style);
    let number = actor(r, &stage, code);
    if code == EVENT_ADD {
        put_amount(&mut card, added(r));
    }
    Event { code, number, account: account(r, code), card }
}

fn code(r: &mut Random, stage: &Stage, style: Style) -> u64 {
    if stage.has_ready_head && r.one_in(RARE) {
        return if stage.has_queues { *r.pick(&[EVENT_ABORT, EVENT_JUDGE]) } else { EVENT_ABORT };
    }
    if stage.leaves.is_empty() && !r.one_in(4) {
        return EVENT_JUDGE;
    }
    let reads = if style.turnover == Turnover::Slow { 4 } else { 2 };
    match r.below(reads + 11) {
        0..4 => EVENT_WRITE,
        4..7 => EVENT_ADD,
        7..10 => end(r, stage, style.ending),
        10 if r.one_in(3) => EVENT_ABORT,
        10 => EVENT_WRITE,
        _ => EVENT_READ,
    }
}

/// How an action tries to end, or helps another to.
fn end(r: &mut Random, stage: &Stage, ending: Ending) -> u64 {
    if !stage.has_queues {
        return if r.one_in(QUEUES_ANYWAY) { *r.pick(&[EVENT_ENTER, EVENT_JUDGE]) } else { EVENT_COMMIT };
    }
    let (waits, patience) = (stage.unjudged.len() as u64, ending.patience());
    let commits = match ending {
        Ending::Commits if !stage.committers.is_empty() => true,
        Ending::Either if !stage.committers.is_empty() => r.one_in(2),
        _ => r.one_in(OVERTAKES),
    };
    if commits {
        EVENT_COMMIT
    } else if patience == 0 || r.below(waits + patience) < waits {
        EVENT_JUDGE
    } else {
        EVENT_ENTER
    }
}

fn actor(r: &mut Random, stage: &Stage, code: u64) -> u64 {
    if r.one_in(ANYONE) {
        return *r.pick(&stage.live);
    }
    match code {
        EVENT_JUDGE => pick_first(r, &[&stage.unjudged, &stage.queued, &stage.live]),
        EVENT_COMMIT if stage.committers.len() < stage.leaves.len() && !r.one_in(OVERTAKES) => {
            pick_first(r, &[&stage.committers, &stage.leaves])
        }
        EVENT_ABORT if r.one_in(2) => pick_first(r, &[&stage.queued, &stage.leaves, &stage.live]),
        EVENT_ABORT if r.one_in(2) => *r.pick(&stage.live),
        _ => pick_first(r, &[&stage.leaves, &stage.live]),
    }
}

/// A list for a new ledger.
pub fn events(r: &mut Random, mut ledger: Ledger, count: usize, style: Style, in_bytes: bool) -> Vec<Event> {
    let mut out = Vec::with_capacity(count);
    for _ in 0..count {
        let e = event(r, &ledger, style, in_bytes);
        ledger.sound_event(&e);
        out.push(e);
    }
    out
}

pub fn style(r: &mut Random) -> Style {
    let shape = *r.pick(&[Shape::Deep, Shape::Wide, Shape::Mixed]);
    let ending = *r.pick(&[Ending::Commits, Ending::Queue, Ending::Either]);
    Style { shape, ending, turnover: *r.pick(&[Turnover::Slow, Turnover::Fast, Turnover::Held]) }
}

// ---- day files

pub fn day_file(opening: &[(u8, Vec<u8>)], events: &[Event]) -> Vec<u8> {
    let mut file = vec![opening.len() as u8];
    for (account, card) in opening {
        file.push(*account);
        file.extend(card);
    }
    file.extend(counted_events(events));
    file
}

pub fn any_day(r: &mut Random) -> Vec<u8> {
    let (cards, mut base, mut opening) = (any_base(r), vec![0; BASE_BYTES], Vec::new());
    let dense = 1 + r.below(8);
    for k in 0..ACCOUNTS {
        if r.one_in(dense) {
            let card = &cards[base_card(k)];
            base[base_card(k)].copy_from_slice(card);
            opening.push((k as u8, card.to_vec()));
        }
    }
    let count = if r.one_in(20) { MOST_EVENTS } else { r.below(SHORT_DAY) as usize };
    let (style, new) = (style(r), Ledger::new(Rule::Backward, base, vec![0; SHADOW_BYTES]));
    let events = events(r, new, count, style, true);
    let file = day_file(&opening, &events);
    if r.one_in(2) {
        damaged_file(r, file)
    } else {
        file
    }
}

fn damaged_file(r: &mut Random, mut file: Vec<u8>) -> Vec<u8> {
    let count_at = entry_at(file[0].into());
    let length = file.len() as u64;
    match r.below(FILE_DAMAGES) {
        0 => file.truncate(r.below(length) as usize),
        1 => {
            let more = 1 + r.below(40) as usize;
            file.extend(bytes(r, more));
        }
        2 => file[0] = r.next() as u8,
        3 => file[count_at + r.below(2) as usize] = r.next() as u8,
        4 => file.swap(count_at, count_at + 1),
        5 if file[0] > 0 => {
            let i = r.below(file[0] as u64) as usize;
            file[entry_at(i)] = r.below(2 * ACCOUNTS as u64) as u8;
        }
        6 if file[0] > 1 => {
            let i = r.below(file[0] as u64 - 1) as usize;
            file[entry_at(i + 1)] = file[entry_at(i)];
        }
        7 => {
            let i = r.below(length) as usize;
            file[i] = r.next() as u8;
        }
        _ => {
            let length = r.below(200) as usize;
            file = bytes(r, length);
        }
    }
    file
}
