//! The serial run of R (docs/RULES.md, 6), from the events, the answers they got, who committed by leaving a queue at
//! each, and the opening base store alone. Actions are told apart by their starts, as numbers are given again.

use crate::header::ACCOUNTS;
use crate::model::{amount_in, base_card, charge_of, put_amount, Answer, Card, Event};
use crate::model::{CHARGE_ACCOUNTS, FIRST_CHARGE, STORE};
use std::collections::{HashMap, HashSet};

/// What it is fed beside the opening store. Of each event there is an answer, and a list of those that committed by
/// leaving a queue at it, in the order in which they left.
#[derive(Clone, Copy)]
pub struct Fed<'a> {
    pub events: &'a [Event],
    pub answers: &'a [Answer],
    pub left: &'a [Vec<u64>],
}

impl<'a> Fed<'a> {
    fn told(self) -> impl Iterator<Item = (&'a Event, Answer)> {
        self.events.iter().zip(self.answers.iter().copied())
    }

    /// The actions that committed at an event, in the order of their commits (6.2).
    fn commits_at(&self, event: usize) -> &'a [u64] {
        match self.answers[event] {
            Answer::Committed(_) => std::slice::from_ref(&self.events[event].number),
            Answer::Ready(_) | Answer::Aborted(..) | Answer::JudgedFailed(_) => &self.left[event],
            _ => &[],
        }
    }
}

/// An action, by its start: the first start's is 1. The store stands before them all.
type Start = usize;
const NO_START: Start = 0;

/// The starts so far.
#[derive(Default)]
struct Starts {
    /// The last one that gave a number.
    latest: HashMap<u64, Start>,
    /// The parent of each, the first start's first.
    parents: Vec<Start>,
}

impl Starts {
    /// Whom a number means now.
    fn named(&self, number: u64) -> Start {
        match number {
            STORE => NO_START,
            _ => self.latest[&number],
        }
    }

    fn parent(&self, start: Start) -> Start {
        self.parents[start - 1]
    }

    /// Takes note of an event that may be a start.
    fn note(&mut self, e: &Event, a: Answer) {
        if let Answer::Started(number) = a {
            self.parents.push(self.named(e.number));
            self.latest.insert(number, self.parents.len());
        }
    }
}

enum Step {
    Read { event: usize, account: usize },
    Write { account: usize, card: Card },
    Add { charge: usize, amount: i64 },
    Child { start: Start },
}

/// What a read is given: a card, and of a charge account an amount.
#[derive(Clone, Copy, PartialEq, Eq, Debug)]
pub struct Given {
    pub card: Card,
    pub amount: Option<i128>,
}

/// What each read of an action in R is given, by the place of its event, and the base store at the end.
pub struct Serial {
    pub reads: HashMap<usize, Given>,
    pub base: Vec<u8>,
}

/// The cards and the pending sums of an action under way.
struct Own {
    cards: [Option<Card>; ACCOUNTS],
    sums: [i128; CHARGE_ACCOUNTS],
}

struct Run {
    blocks: HashMap<Start, Vec<Step>>,
    /// The actions under way, the topaction first.
    under_way: Vec<Own>,
    out: Serial,
}

pub fn serial_run(fed: Fed, opening: &[u8]) -> Serial {
    let blocks = collect(fed);
    let out = Serial { reads: HashMap::new(), base: opening.to_vec() };
    let mut run = Run { blocks, under_way: Vec::new(), out };
    for top in run.blocks.remove(&NO_START).unwrap_or_default() {
        if let Step::Child { start } = top {
            run.block(start);
        }
    }
    run.out
}

/// Each action's block; the store's has the topactions that committed, in the order of their commits.
fn collect(fed: Fed) -> HashMap<Start, Vec<Step>> {
    let mut blocks: HashMap<Start, Vec<Step>> = HashMap::new();
    let mut starts = Starts::default();
    for (event, (e, a)) in fed.told().enumerate() {
        starts.note(e, a);
        if let Some(step) = own_step(event, e, a) {
            blocks.entry(starts.named(e.number)).or_default().push(step);
        }
        for &number in fed.commits_at(event) {
            let start = starts.named(number);
            blocks.entry(starts.parent(start)).or_default().push(Step::Child { start });
        }
    }
    blocks
}

/// What an action did itself at an event.
fn own_step(event: usize, e: &Event, a: Answer) -> Option<Step> {
    let account = e.account as usize;
    match a {
        Answer::Read(_) | Answer::ReadSum(..) => Some(Step::Read { event, account }),
        Answer::Written => {
            let card = e.card.as_slice().try_into().expect("a card's length");
            Some(Step::Write { account, card })
        }
        Answer::Added => Some(Step::Add { charge: account - FIRST_CHARGE, amount: amount_in(&e.card) }),
        _ => None,
    }
}

impl Run {
    fn block(&mut self, action: Start) {
        self.under_way.push(Own { cards: [None; ACCOUNTS], sums: [0; CHARGE_ACCOUNTS] });
        for step in self.blocks.remove(&action).unwrap_or_default() {
            match step {
                Step::Read { event, account } => {
                    let given = Given { card: self.card(account), amount: self.amount(account) };
                    self.out.reads.insert(event, given);
                }
                Step::Write { account, card } => self.own().cards[account] = Some(card),
                Step::Add { charge, amount } => self.own().sums[charge] += i128::from(amount),
                Step::Child { start } => self.block(start),
            }
        }
        self.end();
    }

    fn own(&mut self) -> &mut Own {
        self.under_way.last_mut().expect("an action under way")
    }

    fn card(&self, account: usize) -> Card {
        let own = self.under_way.iter().rev().find_map(|own| own.cards[account]);
        let base = &self.out.base[base_card(account)];
        own.unwrap_or_else(|| base.try_into().expect("a card's length"))
    }

    fn amount(&self, account: usize) -> Option<i128> {
        let charge = charge_of(account)?;
        let base = i128::from(amount_in(&self.out.base[base_card(account)]));
        Some(base + self.under_way.iter().map(|own| own.sums[charge]).sum::<i128>())
    }

    fn end(&mut self) {
        let own = self.under_way.pop().expect("an action under way");
        match self.under_way.last_mut() {
            Some(parent) => parent.take_over(&own),
            None => settle(&mut self.out.base, &own),
        }
    }
}

impl Own {
    fn take_over(&mut self, child: &Own) {
        for (mine, card) in self.cards.iter_mut().zip(&child.cards) {
            *mine = card.or(*mine);
        }
        for (mine, sum) in self.sums.iter_mut().zip(&child.sums) {
            *mine += sum;
        }
    }
}

/// The end of a topaction.
fn settle(base: &mut [u8], own: &Own) {
    for (account, card) in own.cards.iter().enumerate() {
        let Some(card) = card else { continue };
        base[base_card(account)].copy_from_slice(card);
    }
    for (charge, sum) in own.sums.iter().enumerate() {
        let card = &mut base[base_card(FIRST_CHARGE + charge)];
        let amount = i128::from(amount_in(card)) + sum;
        put_amount(card, amount.try_into().expect("what commits leaves amounts"));
    }
}

/// All that actions in R have added to each charge account (docs/RULES.md, 6.7). It takes R by its words (6.3), and not
/// by blocks.
pub fn added_in_r(fed: Fed) -> [i128; CHARGE_ACCOUNTS] {
    let (mut starts, mut committed, mut adds) = (Starts::default(), HashSet::new(), Vec::new());
    for (event, (e, a)) in fed.told().enumerate() {
        starts.note(e, a);
        if a == Answer::Added {
            adds.push((starts.named(e.number), e));
        }
        committed.extend(fed.commits_at(event).iter().map(|&number| starts.named(number)));
    }
    let is_in_r = |mut action: Start| {
        while committed.contains(&action) {
            action = starts.parent(action);
        }
        action == NO_START
    };
    let mut added = [0; CHARGE_ACCOUNTS];
    for (_, e) in adds.into_iter().filter(|(action, _)| is_in_r(*action)) {
        added[e.account as usize - FIRST_CHARGE] += i128::from(amount_in(&e.card));
    }
    added
}
