//! What a comparison of the column has met: points that a list meets or not, and how many lists met each.

use crate::cause;
use crate::column::{added_up, charges, records, Charge, Records, Running};
use crate::column::{CHARGE_BYTES, DIVISOR, MOST_BYTES, MOST_CENTS, MOST_CHARGES};
use crate::header::ACCOUNTS;
use crate::model::FIRST_CHARGE;
use std::collections::BTreeMap;
use std::fmt;

/// A list, and what came of it.
struct Facts {
    bytes: usize,
    charges: Vec<Charge>,
    outcome: Result<Records, u64>,
}

impl Facts {
    fn of(list: &[u8]) -> Facts {
        Facts { bytes: list.len(), charges: charges(list), outcome: records(list) }
    }

    fn has(&self, fault: u64) -> bool {
        self.outcome.as_ref().is_err_and(|&found| found == fault)
    }

    fn any(&self, test: impl Fn(&Charge) -> bool) -> bool {
        self.charges.iter().any(test)
    }

    fn has_bad_charge(&self) -> bool {
        self.any(|c| c.fault().is_some())
    }

    /// Whether the list has the fault of a charge, and the charge passes the test.
    fn has_by(&self, fault: u64, test: impl Fn(&Charge) -> bool) -> bool {
        self.has(fault) && self.charges.iter().find(|c| c.fault().is_some()).is_some_and(test)
    }

    /// Whether it has no fault, and a charge that passes the test.
    fn passes_with(&self, test: impl Fn(&Charge) -> bool) -> bool {
        self.outcome.is_ok() && self.any(test)
    }

    fn passes_of(&self, count: usize) -> bool {
        self.outcome.is_ok() && self.charges.len() == count
    }

    /// Whether it has no fault, and leaves an account a record that passes the test.
    fn leaves(&self, test: impl Fn(&Running) -> bool) -> bool {
        self.outcome.as_ref().is_ok_and(|records| records.iter().any(test))
    }

    fn is_last_of_most_bad(&self) -> bool {
        self.bytes == MOST_BYTES && self.charges.iter().position(|c| c.fault().is_some()) == Some(MOST_CHARGES - 1)
    }

    fn is_to_one_account(&self) -> bool {
        self.outcome.is_ok() && self.charges.len() > 1 && !self.any(|c| c.account != self.charges[0].account)
    }

    fn is_to_all_accounts(&self) -> bool {
        (FIRST_CHARGE..ACCOUNTS).all(|account| self.passes_with(|c| usize::from(c.account) == account))
    }

    /// Whether it leaves an account 0 cents after charges that are not all of 0.
    fn cancels_out(&self) -> bool {
        let is_moved = |account: usize| self.any(|c| usize::from(c.account) == account && c.cents != 0);
        let is_left_0 = |(account, record): (usize, &Running)| record.cents == 0 && is_moved(account);
        self.outcome.as_ref().is_ok_and(|records| (FIRST_CHARGE..).zip(records).any(is_left_0))
    }

    /// Whether the same charges, the last one first, leave an account another old total.
    fn depends_on_order(&self) -> bool {
        let Ok(records) = &self.outcome else { return false };
        let other = added_up(self.charges.iter().rev());
        records.iter().zip(&other).any(|(a, b)| a.old != b.old)
    }
}

/// Whether the old total is another than the binary64 number that is nearest to the exact one.
fn is_off(record: &Running) -> bool {
    record.old != record.cents as f64 / DIVISOR
}

/// The faults: of a list, and of a charge.
const TOO_LONG: u64 = cause::COUNT;
const CUT: u64 = cause::LENGTH;
const ACCOUNT: u64 = cause::KIND_OF_ACCOUNT;
const CENTS: u64 = cause::AMOUNT;

/// A point's name, and whether a list meets it.
type Point = (&'static str, fn(&Facts) -> bool);

const POINTS: [Point; 34] = [
    ("fault 11", |l| l.has(TOO_LONG)),
    ("fault 11 of 9,001 bytes", |l| l.bytes == MOST_BYTES + 1),
    ("fault 11 of 1,001 charges", |l| l.bytes == MOST_BYTES + CHARGE_BYTES),
    ("fault 11 with a bad charge", |l| l.has(TOO_LONG) && l.has_bad_charge()),
    ("fault 10", |l| l.has(CUT)),
    ("fault 10 of less than a charge", |l| l.has(CUT) && l.charges.is_empty()),
    ("fault 10 with a bad charge", |l| l.has(CUT) && l.has_bad_charge()),
    ("fault 13", |l| l.has(ACCOUNT)),
    ("fault 13 of account 23", |l| l.has_by(ACCOUNT, |c| usize::from(c.account) == FIRST_CHARGE - 1)),
    ("fault 13 of account 32", |l| l.has_by(ACCOUNT, |c| usize::from(c.account) == ACCOUNTS)),
    ("fault 13 before a charge with 14", |l| l.has(ACCOUNT) && l.any(|c| c.fault() == Some(CENTS))),
    ("fault 13 of a charge whose cents are bad too", |l| l.has_by(ACCOUNT, |c| !c.is_small())),
    ("fault 14", |l| l.has(CENTS)),
    ("fault 14 of 1,000,001 cents", |l| l.has_by(CENTS, |c| c.cents == MOST_CENTS + 1)),
    ("fault 14 of -1,000,001 cents", |l| l.has_by(CENTS, |c| c.cents == -MOST_CENTS - 1)),
    ("fault 14 of -2^63 cents", |l| l.has_by(CENTS, |c| c.cents == i64::MIN)),
    ("fault 14 of 2^63 - 1 cents", |l| l.has_by(CENTS, |c| c.cents == i64::MAX)),
    ("fault 14 before a charge with 13", |l| l.has(CENTS) && l.any(|c| c.fault() == Some(ACCOUNT))),
    ("a fault of the last of 1,000 charges alone", Facts::is_last_of_most_bad),
    ("no fault", |l| l.outcome.is_ok()),
    ("no charges", |l| l.passes_of(0)),
    ("one charge", |l| l.passes_of(1)),
    ("999 charges", |l| l.passes_of(MOST_CHARGES - 1)),
    ("1,000 charges", |l| l.passes_of(MOST_CHARGES)),
    ("a charge of 0 cents", |l| l.passes_with(|c| c.cents == 0)),
    ("a charge of 1,000,000 cents", |l| l.passes_with(|c| c.cents == MOST_CENTS)),
    ("a charge of -1,000,000 cents", |l| l.passes_with(|c| c.cents == -MOST_CENTS)),
    ("charges to one account alone", Facts::is_to_one_account),
    ("charges to all charge accounts", Facts::is_to_all_accounts),
    ("cents below 0", |l| l.leaves(|record| record.cents < 0)),
    ("0 cents after charges", Facts::cancels_out),
    ("0 cents beside an old total other than 0", |l| l.leaves(|record| record.cents == 0 && record.old != 0.0)),
    ("an old total that is not the nearest to the exact one", |l| l.leaves(is_off)),
    ("an old total that depends on the order", Facts::depends_on_order),
];

#[derive(Default)]
pub struct ColumnCoverage {
    pub lists: u64,
    /// Of lists without a fault.
    pub charges: u64,
    met: BTreeMap<&'static str, u64>,
}

impl ColumnCoverage {
    pub fn list(&mut self, list: &[u8]) {
        let facts = Facts::of(list);
        self.lists += 1;
        if facts.outcome.is_ok() {
            self.charges += facts.charges.len() as u64;
        }
        for (name, is_met) in POINTS {
            *self.met.entry(name).or_default() += u64::from(is_met(&facts));
        }
    }

    fn points(&self) -> impl Iterator<Item = (&'static str, u64)> + '_ {
        POINTS.iter().map(|(name, _)| (*name, self.met.get(name).copied().unwrap_or(0)))
    }

    /// The points that it has not met.
    pub fn left_out(&self) -> Vec<String> {
        self.points().filter(|(_, count)| *count == 0).map(|(name, _)| name.to_string()).collect()
    }
}

impl fmt::Display for ColumnCoverage {
    fn fmt(&self, f: &mut fmt::Formatter) -> fmt::Result {
        writeln!(f, "lists: {}, charges added up: {}", self.lists, self.charges)?;
        writeln!(f, "lists with")?;
        self.points().try_for_each(|(name, count)| writeln!(f, "  {name}: {count}"))
    }
}
