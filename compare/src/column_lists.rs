//! Lists of charges for the column: of every length, whole or cut, good or with bad charges at any place.

use crate::column::{Charge, CHARGE_BYTES, MOST_CENTS, MOST_CHARGES};
use crate::generate::{bytes, within};
use crate::header::ACCOUNTS;
use crate::model::{CHARGE_ACCOUNTS, FIRST_CHARGE};
use crate::random::Random;

/// As many charges as no pipe holds at once: its reader may have ended before they are all written.
const FAR_TOO_MANY: usize = 8 * MOST_CHARGES;
/// A list has exactly as many charges as one of these, or fewer than one of those.
const EXACTLY: [usize; 6] = [0, 1, MOST_CHARGES - 1, MOST_CHARGES, MOST_CHARGES + 1, FAR_TOO_MANY];
const FEWER_THAN: [u64; 2] = [10, 200];
/// How many accounts a list's charges are to, and how many amounts they share.
const SHARED_ACCOUNTS: [usize; 4] = [1, 2, CHARGE_ACCOUNTS, CHARGE_ACCOUNTS];
const SHARED_AMOUNTS: [usize; 4] = [1, 3, 30, MOST_CHARGES];
/// What the amounts of a list lie within.
const WITHIN: [i64; 5] = [1, 10, 1_000, 50_000, MOST_CENTS];
/// Amounts that stand out: nothing, a cent, round ones, and those at a limit or next to it.
const NOTABLE: [i64; 9] = [0, 1, -1, 10, 100, MOST_CENTS - 1, 1 - MOST_CENTS, MOST_CENTS, -MOST_CENTS];
/// One amount in so many is one of them.
const NOTABLE_IN: u64 = 6;
/// Amounts that are too large, and accounts that are no charge accounts.
const TOO_LARGE: [i64; 4] = [MOST_CENTS + 1, -MOST_CENTS - 1, i64::MIN, i64::MAX];
const NO_CHARGE_ACCOUNT: [u8; 4] = [0, FIRST_CHARGE as u8 - 1, ACCOUNTS as u8, u8::MAX];
/// One list in so many takes back in its second half what it has in its first, one has bad charges, and one is cut or
/// has bytes too many.
const TAKES_BACK: u64 = 5;
const BAD: u64 = 3;
const ODD: u64 = 8;
/// As many charges of a list are bad at most.
const MOST_BAD: u64 = 3;

fn length(r: &mut Random) -> usize {
    if r.one_in(2) {
        return *r.pick(&EXACTLY);
    }
    let bound = *r.pick(&FEWER_THAN);
    r.below(bound) as usize
}

fn amount(r: &mut Random, most: i64) -> i64 {
    if r.one_in(NOTABLE_IN) {
        return *r.pick(&NOTABLE);
    }
    within(r, most)
}

/// Charges without a fault, each to one of the shared accounts and of one of the shared amounts.
fn good_charges(r: &mut Random, count: usize) -> Vec<Charge> {
    let (first, how_many) = (r.below(CHARGE_ACCOUNTS as u64) as usize, *r.pick(&SHARED_ACCOUNTS));
    let accounts: Vec<u8> = (first..first + how_many).map(|i| (FIRST_CHARGE + i % CHARGE_ACCOUNTS) as u8).collect();
    let (most, how_many) = (*r.pick(&WITHIN), *r.pick(&SHARED_AMOUNTS));
    let amounts: Vec<i64> = (0..how_many).map(|_| amount(r, most)).collect();
    (0..count).map(|_| Charge { account: *r.pick(&accounts), cents: *r.pick(&amounts) }).collect()
}

/// The second half becomes what takes the first back, the last charge first.
fn take_back(charges: &mut [Charge]) {
    let half = charges.len() / 2;
    let (given, taken) = charges.split_at_mut(half);
    for (from, to) in given.iter().zip(taken.iter_mut().rev()) {
        *to = Charge { account: from.account, cents: -from.cents };
    }
}

fn bad_account(r: &mut Random) -> u8 {
    if r.one_in(2) {
        return *r.pick(&NO_CHARGE_ACCOUNT);
    }
    r.next() as u8
}

/// Too large as a rule; some are so by one bit alone, and small in all bytes but one.
fn bad_cents(r: &mut Random) -> i64 {
    match r.below(4) {
        0 => r.next() as i64,
        1 => within(r, MOST_CENTS) ^ 1 << r.below(u64::BITS.into()),
        _ => *r.pick(&TOO_LARGE),
    }
}

fn place(r: &mut Random, length: usize) -> usize {
    match r.below(4) {
        0 => 0,
        1 => length - 1,
        _ => r.below(length as u64) as usize,
    }
}

/// Makes some of them bad, by account, by cents or by both.
fn spoil(r: &mut Random, charges: &mut [Charge]) {
    for _ in 0..=r.below(MOST_BAD) {
        let charge = &mut charges[place(r, charges.len())];
        let which = r.below(3);
        if which != 0 {
            charge.account = bad_account(r);
        }
        if which != 1 {
            charge.cents = bad_cents(r);
        }
    }
}

/// Cuts a list anywhere, or puts less than a charge behind it, often a byte alone.
fn make_odd(r: &mut Random, list: &mut Vec<u8>) {
    match r.below(4) {
        0 | 1 => list.truncate(r.below(list.len() as u64 + 1) as usize),
        2 => list.push(r.next() as u8),
        _ => {
            let more = 1 + r.below(CHARGE_BYTES as u64 - 1) as usize;
            list.extend(bytes(r, more));
        }
    }
}

fn list_of(charges: &[Charge]) -> Vec<u8> {
    let mut list = Vec::with_capacity(CHARGE_BYTES * charges.len());
    for charge in charges {
        list.push(charge.account);
        list.extend(charge.cents.to_le_bytes());
    }
    list
}

pub fn any_list(r: &mut Random) -> Vec<u8> {
    let count = length(r);
    let mut charges = good_charges(r, count);
    if r.one_in(TAKES_BACK) {
        take_back(&mut charges);
    }
    if r.one_in(BAD) && !charges.is_empty() {
        spoil(r, &mut charges);
    }
    let mut list = list_of(&charges);
    if r.one_in(ODD) {
        make_odd(r, &mut list);
    }
    list
}
