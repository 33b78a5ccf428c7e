//! The old column of a list of charges (docs/RULES.md, 14), by the second engine: the exact cents of each charge
//! account, and beside them the total that comes of adding in binary fractions.

use crate::cause;
use crate::dayfile::{read, refused_line};
use crate::header::ACCOUNTS;
use crate::model::{amount_in, AMOUNT_BYTES, CHARGE_ACCOUNTS, FIRST_CHARGE};
use std::fmt::Write;

/// An account, then the cents.
pub const CHARGE_BYTES: usize = 1 + AMOUNT_BYTES;
pub const MOST_CHARGES: usize = 1_000;
pub const MOST_BYTES: usize = CHARGE_BYTES * MOST_CHARGES;
/// The most that one charge may have, either way.
pub const MOST_CENTS: i64 = 1_000_000;
/// How many cents make one of what the old totals count.
pub const DIVISOR: f64 = 100.0;

#[derive(Clone, Copy)]
pub struct Charge {
    pub account: u8,
    pub cents: i64,
}

impl Charge {
    fn of(bytes: &[u8]) -> Charge {
        let [account, cents @ ..] = bytes else { panic!("a charge of no bytes") };
        Charge { account: *account, cents: amount_in(cents) }
    }

    pub fn is_to_charge_account(self) -> bool {
        (FIRST_CHARGE..ACCOUNTS).contains(&self.account.into())
    }

    pub fn is_small(self) -> bool {
        (-MOST_CENTS..=MOST_CENTS).contains(&self.cents)
    }

    pub fn fault(self) -> Option<u64> {
        if !self.is_to_charge_account() {
            return Some(cause::KIND_OF_ACCOUNT);
        }
        (!self.is_small()).then_some(cause::AMOUNT)
    }
}

/// An account's running record.
#[derive(Clone, Copy, Default)]
pub struct Running {
    pub old: f64,
    pub cents: i64,
}

impl Running {
    fn with(self, cents: i64) -> Running {
        Running { old: self.old + cents as f64 / DIVISOR, cents: self.cents + cents }
    }
}

/// Those of all charge accounts, by rising number.
pub type Records = [Running; CHARGE_ACCOUNTS];

/// The whole charges of a list; one that is cut is left out.
pub fn charges(list: &[u8]) -> Vec<Charge> {
    list.chunks_exact(CHARGE_BYTES).map(Charge::of).collect()
}

fn fault(list: &[u8], charges: &[Charge]) -> Option<u64> {
    if list.len() > MOST_BYTES {
        return Some(cause::COUNT);
    }
    if list.len() % CHARGE_BYTES != 0 {
        return Some(cause::LENGTH);
    }
    charges.iter().find_map(|charge| charge.fault())
}

/// What charges without a fault make of new records.
pub fn added_up<'a>(charges: impl IntoIterator<Item = &'a Charge>) -> Records {
    let mut records = Records::default();
    for charge in charges {
        let record = &mut records[usize::from(charge.account) - FIRST_CHARGE];
        *record = record.with(charge.cents);
    }
    records
}

/// The running records after a list, or its fault.
pub fn records(list: &[u8]) -> Result<Records, u64> {
    let charges = charges(list);
    match fault(list, &charges) {
        Some(fault) => Err(fault),
        None => Ok(added_up(&charges)),
    }
}

fn lines(records: &Records) -> String {
    let mut lines = String::new();
    for (account, Running { old, cents }) in (FIRST_CHARGE..).zip(records) {
        writeln!(lines, "{account} {cents} {:016x}", old.to_bits()).expect("a string grows");
    }
    lines
}

/// What the column program prints for a list.
pub fn column(list: &[u8]) -> String {
    match records(list) {
        Ok(records) => lines(&records),
        Err(fault) => refused_line(fault),
    }
}

/// Prints the column of a list in a file, and asks the column program nothing.
pub fn print_column(path: &str) -> Result<(), String> {
    print!("{}", column(&read(path)?));
    Ok(())
}
