//! The second engine: the rules of docs/RULES.md, with actions as structs, all of them kept. It shares no code and no
//! shape with the library; sizes and codes it takes from the C header, as any caller does.

use crate::action::{Action, Parent, Read, State};
use crate::cause;
use crate::header::*;
use crate::queue::Entry;
use crate::rule::Rule;
use crate::table::Table;
use crate::times::{EndTime, Kind};

const _: () = assert!(BASE_BYTES == ACCOUNTS * CARD_BYTES, "the base store has a card for each account");
const _: () = assert!(SHADOW_BYTES == ACTIONS * BASE_BYTES, "the shadow store has as much for each action");

/// The parent of a topaction.
pub const STORE: u64 = 0;

/// The charge accounts are this one and all above it.
pub const FIRST_CHARGE: usize = 24;
pub const CHARGE_ACCOUNTS: usize = ACCOUNTS - FIRST_CHARGE;
/// The most that one add may add or take away.
pub const MOST_ADDED: i64 = 1_000_000;
/// An amount stands in the front of a charge account's card.
pub const AMOUNT_BYTES: usize = 8;

/// Counter and queue of a kind come to this at most.
pub const MOST_COUNTED: u64 = 4_000_000_000;

pub type Card = [u8; CARD_BYTES];

/// A figure for each charge account.
pub type Figures = [i64; CHARGE_ACCOUNTS];
pub const NO_FIGURES: Figures = [0; CHARGE_ACCOUNTS];

/// Which of the charge accounts it is, from 0; None for another account.
pub fn charge_of(account: usize) -> Option<usize> {
    account.checked_sub(FIRST_CHARGE)
}

/// The amount in the front of a card.
pub fn amount_in(card: &[u8]) -> i64 {
    i64::from_le_bytes(*card.first_chunk().expect("a card has room for an amount"))
}

pub fn put_amount(card: &mut [u8], amount: i64) {
    card[..AMOUNT_BYTES].copy_from_slice(&amount.to_le_bytes());
}

/// An exact sum as an amount, where it is one.
pub fn as_amount(sum: i128) -> Result<i64, u64> {
    sum.try_into().map_err(|_| cause::SUM)
}

/// The nearest version of an account: the action or the store that has it, and how many moves up lead there.
#[derive(Clone, Copy, PartialEq, Eq, Debug)]
pub struct Version {
    pub holder: u64,
    pub moves: u64,
}

#[derive(Clone, PartialEq, Eq, Debug)]
pub struct Event {
    pub code: u64,
    pub number: u64,
    pub account: u64,
    pub card: Vec<u8>,
}

#[derive(Clone, Copy, PartialEq, Eq, Debug)]
pub enum Answer {
    Refused(u64),
    Started(u64),
    /// The nearest version.
    Read(Version),
    Written,
    /// The end time's number.
    Committed(u64),
    /// Under rule 1 the first clash: its end time's number, its account. Under rule 2 the first reader ahead: its
    /// number, its account.
    Failed(u64, u64),
    /// How many became aborted, and how many then left the two queues.
    Aborted(u64, u64),
    Added,
    /// The nearest version of a charge account, and the sum there.
    ReadSum(Version, i64),
    Entered,
    /// How many then left its queue.
    Ready(u64),
    /// Of a judge: how many then left its queue.
    JudgedFailed(u64),
}

impl Answer {
    /// The cause with which it is refused, none where it is not.
    pub fn cause(self) -> u64 {
        match self {
            Answer::Refused(cause) => cause,
            _ => cause::NONE,
        }
    }
}

/// An action that left a queue from its head; one that did not commit was aborted for its sums.
#[derive(Clone, Copy, PartialEq, Eq, Debug)]
pub struct Leaver {
    pub number: u64,
    pub committed: bool,
}

/// An event's answer, and who left a queue at it, in this order. No answer says who.
pub struct Outcome {
    pub answer: Answer,
    pub left: Vec<Leaver>,
}

impl Outcome {
    fn of(answer: Answer) -> Outcome {
        Outcome { answer, left: Vec::new() }
    }
}

/// What a look shows: a card, and how many moves up it was found.
#[derive(Clone, Copy, PartialEq, Eq, Debug)]
pub struct Shown {
    pub card: Card,
    pub moves: u64,
}

/// A table and its two stores (RULES 1.8).
#[derive(Clone, PartialEq, Eq, Debug)]
pub struct Ledger {
    pub table: Table,
    pub base: Vec<u8>,
    pub shadow: Vec<u8>,
}

/// Where the base store has an account's card.
pub fn base_card(account: usize) -> std::ops::Range<usize> {
    CARD_BYTES * account..CARD_BYTES * (account + 1)
}

/// Where the shadow store has action n's card for an account.
fn shadow_card(n: u64, account: usize) -> std::ops::Range<usize> {
    let from = BASE_BYTES * (n as usize - 1) + CARD_BYTES * account;
    from..from + CARD_BYTES
}

/// Pending sum or base amount that a commit leaves of each charge account; none where the action has not added to it.
type Settled = [Option<i64>; CHARGE_ACCOUNTS];

/// What a commit leaves at the parent, or in the store.
struct Sums {
    settled: Settled,
    kept: Figures,
}

impl Ledger {
    pub fn new(rule: Rule, base: Vec<u8>, shadow: Vec<u8>) -> Ledger {
        Ledger { table: Table::new(rule), base, shadow }
    }

    /// Causes 1 and 2, which any call has.
    pub fn stores_cause(&self) -> Option<u64> {
        if self.base.len() != BASE_BYTES || self.shadow.len() != SHADOW_BYTES {
            return Some(cause::STORE_LENGTH);
        }
        (!self.table.is_sound()).then_some(cause::UNSOUND)
    }

    /// The causes 3, 21, 4 to 8, 13, 14, 9 and 16 to 19, in this order: all that are left but 15, which is asked where
    /// a sum is made.
    pub fn event_cause(&self, e: &Event) -> Option<u64> {
        let t = &self.table;
        if !(EVENT_START..=EVENT_JUDGE).contains(&e.code) {
            return Some(cause::CODE);
        }
        if t.rule == Rule::Forward && matches!(e.code, EVENT_ENTER | EVENT_JUDGE) {
            return Some(cause::NO_QUEUES);
        }
        let starts = e.code == EVENT_START;
        if e.number > t.highest || (e.number == STORE && !starts) {
            return Some(cause::NUMBER);
        }
        if e.number != STORE && !t.action(e.number).is_live() {
            return Some(cause::NOT_LIVE);
        }
        if starts && t.free_number().is_none() {
            return Some(cause::NO_NUMBER);
        }
        let beside = || self.child_cause(e).or_else(|| self.queue_cause(e)).or_else(|| self.counter_cause(e));
        account_cause(e).or_else(beside)
    }

    /// Cause 9.
    fn child_cause(&self, e: &Event) -> Option<u64> {
        let asks = !matches!(e.code, EVENT_START | EVENT_ABORT | EVENT_JUDGE);
        (asks && self.table.has_live_child(e.number)).then_some(cause::CHILD_LIVE)
    }

    /// The causes 16, 17 and 18. The first asks both queues, the others that of the action's kind.
    fn queue_cause(&self, e: &Event) -> Option<u64> {
        let (t, n) = (&self.table, e.number);
        match e.code {
            EVENT_ABORT => None,
            EVENT_JUDGE => t.queue_of(n).entry(n).is_none_or(Entry::is_ready).then_some(cause::NOTHING_TO_JUDGE),
            _ if t.is_queued(n) => Some(cause::QUEUED),
            EVENT_COMMIT => (t.queue_of(n).length != 0).then_some(cause::QUEUE_FIRST),
            _ => None,
        }
    }

    /// Cause 19.
    fn counter_cause(&self, e: &Event) -> Option<u64> {
        if !matches!(e.code, EVENT_COMMIT | EVENT_ENTER) {
            return None;
        }
        self.table.is_counted_out(self.table.action(e.number).kind()).then_some(cause::COUNTED_OUT)
    }

    /// One event on any table and stores.
    pub fn event(&mut self, e: &Event) -> Answer {
        self.outcome(e).answer
    }

    /// One event on a sound table over stores that fit.
    pub fn sound_event(&mut self, e: &Event) -> Answer {
        self.sound_outcome(e).answer
    }

    /// What one event does to any table and stores.
    pub fn outcome(&mut self, e: &Event) -> Outcome {
        match self.stores_cause() {
            Some(cause) => Outcome::of(Answer::Refused(cause)),
            None => self.sound_outcome(e),
        }
    }

    fn sound_outcome(&mut self, e: &Event) -> Outcome {
        if let Some(cause) = self.event_cause(e) {
            return Outcome::of(Answer::Refused(cause));
        }
        match e.code {
            EVENT_ABORT => self.abort(e.number),
            EVENT_JUDGE => self.judge(e.number),
            _ => Outcome::of(self.beside_head(e).unwrap_or_else(Answer::Refused)),
        }
    }

    /// An event that does not try a queue's head.
    fn beside_head(&mut self, e: &Event) -> Result<Answer, u64> {
        match e.code {
            EVENT_START => Ok(self.start(e.number)),
            EVENT_READ => self.read(e.number, e.account as usize),
            EVENT_WRITE => Ok(self.write(e.number, e.account as usize, &e.card)),
            EVENT_COMMIT => self.commit(e.number),
            EVENT_ADD => self.add(e.number, e.account as usize - FIRST_CHARGE, amount_in(&e.card)),
            _ => Ok(self.enter(e.number)),
        }
    }

    fn start(&mut self, parent: u64) -> Answer {
        let number = self.table.free_number().expect("a number is free");
        self.table.give(number, self.table.parent_named(parent));
        Answer::Started(number)
    }

    /// The sum of a charge account as an action sees it; none for another account.
    fn sum_seen(&self, n: u64, account: usize) -> Result<Option<i64>, u64> {
        let Some(charge) = charge_of(account) else { return Ok(None) };
        let base = i128::from(amount_in(&self.base[base_card(account)]));
        as_amount(base + self.table.pending_above(n, charge)).map(Some)
    }

    fn read(&mut self, n: u64, account: usize) -> Result<Answer, u64> {
        let sum = self.sum_seen(n, account)?;
        let now = self.table.counters;
        let me = self.table.action_mut(n);
        if !me.has_card(account) && !me.has_read(account) {
            me.reads[account] = Read::At(now);
        }
        let version = self.table.nearest(n, account);
        Ok(sum.map_or(Answer::Read(version), |sum| Answer::ReadSum(version, sum)))
    }

    fn add(&mut self, n: u64, charge: usize, amount: i64) -> Result<Answer, u64> {
        let me = self.table.action_mut(n);
        let grown = |sum: i64| as_amount(i128::from(sum) + i128::from(amount));
        let (pending, own) = (grown(me.pending[charge])?, grown(me.own_adds[charge])?);
        me.pending[charge] = pending;
        me.own_adds[charge] = own;
        me.writes[FIRST_CHARGE + charge] = 1;
        Ok(Answer::Added)
    }

    fn write(&mut self, n: u64, account: usize, card: &[u8]) -> Answer {
        self.shadow[shadow_card(n, account)].copy_from_slice(card);
        self.table.action_mut(n).writes[account] = 1;
        Answer::Written
    }

    fn commit(&mut self, n: u64) -> Result<Answer, u64> {
        if let Some((first, account)) = self.table.found_against(n) {
            self.table.action_mut(n).state = State::Aborted;
            return Ok(Answer::Failed(first, account));
        }
        let sums = self.sums_left(self.table.action(n))?;
        Ok(Answer::Committed(self.pass(n, &sums).number()))
    }

    /// A commit that passes and leaves these sums; its end time.
    fn pass(&mut self, n: u64, sums: &Sums) -> EndTime {
        let (kind, wrote) = (self.table.action(n).kind(), self.table.action(n).wrote_something());
        let end = if wrote { self.table.counters.raise(kind) } else { EndTime::new(kind, 0) };
        let me = self.table.action_mut(n);
        me.state = State::Committed;
        me.end = end;
        let me = me.clone();
        match me.parent {
            Parent::Action(place) => self.join(self.table.at(place).number, &me, sums),
            _ => self.settle(&me, sums),
        }
        end
    }

    /// What an action's commit leaves, where all of it are amounts.
    fn sums_left(&self, me: &Action) -> Result<Sums, u64> {
        Ok(Sums { settled: self.settled_by(me)?, kept: self.kept_by(me)? })
    }

    /// Whether its sums are no amounts.
    pub fn sums_fail(&self, me: &Action) -> bool {
        self.sums_left(me).is_err()
    }

    /// Whether a kept sum is all that keeps its sums from being amounts.
    pub fn only_kept_sum_fails(&self, me: &Action) -> bool {
        self.settled_by(me).is_ok() && self.kept_by(me).is_err()
    }

    fn settled_by(&self, me: &Action) -> Result<Settled, u64> {
        let parent = me.parent.place().map(|place| self.table.at(place));
        let mut settled = [None; CHARGE_ACCOUNTS];
        for c in (0..CHARGE_ACCOUNTS).filter(|&c| me.has_charged(c)) {
            let above =
                parent.map_or_else(|| amount_in(&self.base[base_card(FIRST_CHARGE + c)]), |parent| parent.pending[c]);
            settled[c] = Some(as_amount(i128::from(above) + i128::from(me.pending[c]))?);
        }
        Ok(settled)
    }

    fn kept_by(&self, me: &Action) -> Result<Figures, u64> {
        let mut kept = me.parent.place().map_or(self.table.kept, |place| self.table.at(place).kept);
        for (sum, total) in kept.iter_mut().zip(me.total()) {
            *sum = as_amount(i128::from(*sum) + total)?;
        }
        Ok(kept)
    }

    /// A topaction's cards and sums become the store's, and its end time is noted there.
    fn settle(&mut self, me: &Action, sums: &Sums) {
        for k in (0..ACCOUNTS).filter(|&k| me.has_card(k)) {
            self.base[base_card(k)].copy_from_slice(&self.shadow[shadow_card(me.number, k)]);
        }
        for (c, sum) in sums.settled.iter().enumerate() {
            let Some(sum) = *sum else { continue };
            put_amount(&mut self.base[base_card(FIRST_CHARGE + c)], sum);
        }
        self.table.kept = sums.kept;
        self.table.newest.note(me);
    }

    /// A subaction's cards, sums and sets become its parent's, and its end time is noted there.
    fn join(&mut self, parent: u64, me: &Action, sums: &Sums) {
        for k in (0..ACCOUNTS).filter(|&k| me.has_card(k)) {
            self.shadow.copy_within(shadow_card(me.number, k), shadow_card(parent, k).start);
        }
        let parent = self.table.action_mut(parent);
        for (pending, sum) in parent.pending.iter_mut().zip(sums.settled) {
            *pending = sum.unwrap_or(*pending);
        }
        parent.kept = sums.kept;
        parent.newest.note(me);
        join_sets(parent, me);
    }

    fn enter(&mut self, n: u64) -> Answer {
        let failed = self.table.fails_at_enter(n);
        self.table.queue_of_mut(n).put_behind(n, failed);
        Answer::Entered
    }

    /// Goes by the verdict that the entry has, whatever has come about since it was put there.
    fn judge(&mut self, n: u64) -> Outcome {
        let kind = self.table.action(n).kind();
        let queue = self.table.queue_mut(kind);
        let failed = queue.entry(n).is_some_and(Entry::has_failed);
        if failed {
            queue.take_out(|m| m == n);
            self.table.action_mut(n).state = State::Aborted;
        } else {
            queue.make_ready(n);
        }
        let left = self.try_head(kind);
        let count = left.len() as u64;
        let answer = if failed { Answer::JudgedFailed(count) } else { Answer::Ready(count) };
        Outcome { answer, left }
    }

    /// Lets the head of a queue leave while it is ready, one after the other. Of each only its sums are asked.
    fn try_head(&mut self, kind: Kind) -> Vec<Leaver> {
        let mut left = Vec::new();
        while let Some(number) = self.table.queue(kind).ready_head() {
            self.table.queue_mut(kind).take_out(|m| m == number);
            let sums = self.sums_left(self.table.action(number));
            match &sums {
                Ok(sums) => {
                    self.pass(number, sums);
                }
                Err(_) => self.table.action_mut(number).state = State::Aborted,
            }
            left.push(Leaver { number, committed: sums.is_ok() });
        }
        left
    }

    fn abort(&mut self, n: u64) -> Outcome {
        let (t, top) = (&self.table, self.table.parent_named(n));
        let falls = |a: &&Action| a.number == n || t.is_below(a, top);
        let fallen: Vec<u64> = t.live().filter(falls).map(|a| a.number).collect();
        for &m in &fallen {
            self.table.action_mut(m).state = State::Aborted;
        }
        for queue in &mut self.table.queues {
            queue.take_out(|m| fallen.contains(&m));
        }
        let mut left = self.try_head(Kind::Top);
        left.extend(self.try_head(Kind::Sub));
        Outcome { answer: Answer::Aborted(fallen.len() as u64, left.len() as u64), left }
    }

    /// The card at the nearest version, or why it can't be had.
    pub fn look(&self, n: u64, account: u64) -> Result<Shown, u64> {
        let read = Event { code: EVENT_READ, number: n, account, card: Vec::new() };
        if let Some(cause) = self.stores_cause().or_else(|| self.event_cause(&read)) {
            return Err(cause);
        }
        let k = account as usize;
        self.sum_seen(n, k)?;
        let Version { holder, moves } = self.table.nearest(n, k);
        let part = match holder {
            STORE => &self.base[base_card(k)],
            m => &self.shadow[shadow_card(m, k)],
        };
        Ok(Shown { card: part.try_into().expect("a card's length"), moves })
    }
}

/// The causes 7, 8, 13 and 14, of an event that is about an account.
fn account_cause(e: &Event) -> Option<u64> {
    let adds = e.code == EVENT_ADD;
    let has_card = adds || e.code == EVENT_WRITE;
    if !has_card && e.code != EVENT_READ {
        return None;
    }
    if e.account >= ACCOUNTS as u64 {
        return Some(cause::ACCOUNT);
    }
    if !has_card {
        return None;
    }
    if e.card.len() != CARD_BYTES {
        return Some(cause::CARD_LENGTH);
    }
    if adds != charge_of(e.account as usize).is_some() {
        return Some(cause::KIND_OF_ACCOUNT);
    }
    let is_small = (-MOST_ADDED..=MOST_ADDED).contains(&amount_in(&e.card));
    (adds && !is_small).then_some(cause::AMOUNT)
}

/// The union of both sets; of two read times the smaller, for each kind apart. Where the parent has a card of its own
/// already, its child's read stays behind.
fn join_sets(parent: &mut Action, child: &Action) {
    for k in 0..ACCOUNTS {
        if !parent.has_card(k) {
            parent.reads[k] = match (parent.reads[k], child.reads[k]) {
                (own, Read::Not(_)) => own,
                (Read::Not(_), childs) => childs,
                (Read::At(own), Read::At(childs)) => Read::At(own.smaller(childs)),
            };
        }
        if child.writes[k] != 0 {
            parent.writes[k] = 1;
        }
    }
}
