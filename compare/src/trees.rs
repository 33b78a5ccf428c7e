//! Reports of trees on both engines: of anything that is lent, and of a table that a list left.

use crate::action::{Action, Parent, Place, State};
use crate::cause;
use crate::coverage::Coverage;
use crate::header::{BASE_BYTES, BLOCK_AT, BLOCK_WORDS, LINE_WORDS, REPORT_WORDS, ROW_WORDS, SHADOW_BYTES};
use crate::library::{decode, encode_tree, state_said, Lent, KEPT, OWN_ADDS, PENDING};
use crate::library::{LINE_FIGURES, LINE_NUMBER, LINE_STATE};
use crate::model::{Ledger, CHARGE_ACCOUNTS, FIRST_CHARGE};
use crate::random::Random;
use crate::same::{same, same_bytes, same_lent, same_report, Compared};
use crate::table::Table;
use crate::tree::Tree;
use std::fmt;

/// The seed of the words that a report holds before the call.
const SEED: u64 = 12;
/// Nearer to an end of 64 bits than to 0.
const FAR: u64 = 1 << 62;

/// What a call for a tree answers and leaves.
pub struct Report {
    pub cause: u64,
    lines: u64,
    words: [u64; REPORT_WORDS],
}

impl Report {
    /// Whether an action's own adds are further out than events bring them.
    pub fn has_far_own_adds(&self) -> bool {
        let lines = self.words.chunks(LINE_WORDS).take(self.lines as usize);
        let mut own_adds = lines.flat_map(|line| line[LINE_FIGURES..].iter().step_by(2));
        own_adds.any(|&own| (own as i64).unsigned_abs() > FAR)
    }
}

/// As scripts say a tree: figures that are not 0 alone. A refusal by its cause.
impl fmt::Display for Report {
    fn fmt(&self, f: &mut fmt::Formatter) -> fmt::Result {
        if self.cause != cause::NONE {
            return write!(f, "refused {}", self.cause);
        }
        let lines = self.words.chunks(LINE_WORDS).take(self.lines as usize).map(line_said);
        let block = self.words[BLOCK_AT..].chunks(BLOCK_WORDS).filter_map(balance_said);
        f.write_str(&lines.chain(block).collect::<Vec<_>>().join(", "))
    }
}

fn line_said(line: &[u64]) -> String {
    let mut text = format!("{} {} {}", line[0], line[LINE_NUMBER], state_said(line[LINE_STATE]));
    for (c, figures) in line[LINE_FIGURES..].chunks(2).enumerate() {
        if figures != [0, 0] {
            text += &format!(" {} {} {}", FIRST_CHARGE + c, figures[0] as i64, figures[1] as i64);
        }
    }
    text
}

/// None where all figures of the account are 0.
fn balance_said(line: &[u64]) -> Option<String> {
    let figures: Vec<String> = line.iter().map(|&word| (word as i64).to_string()).collect();
    line[1..].iter().any(|&word| word != 0).then(|| format!("account {}", figures.join(" ")))
}

/// Any words, and the same ones each time.
fn any_words() -> [u64; REPORT_WORDS] {
    let mut r = Random::new(SEED);
    std::array::from_fn(|_| r.next())
}

/// The second engine's tree of anything that was lent.
fn expected_tree(lent: &Lent, opening: &[u8]) -> Result<Tree, u64> {
    let stores = [(&lent.base[..], BASE_BYTES), (&lent.shadow, SHADOW_BYTES), (opening, BASE_BYTES)];
    if stores.iter().any(|(store, bytes)| store.len() != *bytes) {
        return Err(cause::STORE_LENGTH);
    }
    let table = decode(&lent.table).ok_or(cause::UNSOUND)?;
    Ledger { table, base: lent.base.clone(), shadow: lent.shadow.clone() }.tree(opening)
}

fn expected(lent: &Lent, opening: &[u8]) -> Report {
    let mut words = any_words();
    match expected_tree(lent, opening) {
        Err(cause) => Report { cause, lines: 0, words },
        Ok(tree) => {
            encode_tree(&tree, &mut words);
            Report { cause: cause::NONE, lines: tree.lines.len() as u64, words }
        }
    }
}

/// The report, where both engines have the same and nothing that was lent has changed.
pub fn tree(lent: &Lent, opening: &[u8], seen: &mut Coverage) -> Result<Report, String> {
    let (called, called_opening, mut words) = (lent.clone(), opening.to_vec(), any_words());
    let (cause, lines) = called.tree(&called_opening, &mut words);
    let theirs = expected(lent, opening);
    same("tree: cause", cause, theirs.cause)?;
    same("tree: lines", lines, theirs.lines)?;
    same_report(&words, &theirs.words)?;
    same_lent(&called, lent)?;
    same_bytes("tree: the opening store", &called_opening, opening)?;
    seen.tree(cause);
    Ok(Report { cause, lines, words })
}

/// The tree of a table that a list left, and the claims of docs/RULES.md, 12.7, on the library's own words. The second
/// engine's table knows all the children that an action ever had.
pub fn tree_of_list(lent: &Lent, table: &Table, opening: &[u8], seen: &mut Coverage) -> Compared {
    let report = tree(lent, opening, seen)?;
    if report.cause != cause::NONE {
        return Err(format!("the tree of a list is refused {} by both engines", report.cause));
    }
    for row in lent.table.chunks(ROW_WORDS).skip(1).take(table.highest as usize) {
        own_and_kept_are_pending(row)?;
    }
    for line in report.words.chunks(LINE_WORDS).take(report.lines as usize) {
        totals_of_all_children(line, table, seen)?;
    }
    seen.numbers.held_unshown += table.highest - report.lines;
    for line in report.words[BLOCK_AT..].chunks(BLOCK_WORDS) {
        let [account, opening, sum, closing] = line.try_into().expect("a line of the last block");
        let exact = |word: u64| i128::from(word as i64);
        if exact(opening) + exact(sum) != exact(closing) {
            return Err(format!("account {account}: opening and sum do not make closing in the tree of both engines"));
        }
        seen.closings_held += u64::from(sum != 0);
    }
    Ok(())
}

/// Of each held action own adds and kept sum together are the pending sum.
fn own_and_kept_are_pending(row: &[u64]) -> Compared {
    for c in 0..CHARGE_ACCOUNTS {
        let [own, kept, pending] = [OWN_ADDS, KEPT, PENDING].map(|at| i128::from(row[at + c] as i64));
        if own + kept != pending {
            return Err(format!("own adds {own} and kept sum {kept} in both engines, and {pending} pending"));
        }
    }
    Ok(())
}

/// A line's totals are those of the action's own adds and of all children of it that ever committed.
fn totals_of_all_children(line: &[u64], table: &Table, seen: &mut Coverage) -> Compared {
    let place = table.holder(line[LINE_NUMBER]);
    let totals = table.total_of_all(place);
    for (figures, total) in line[LINE_FIGURES..].chunks(2).zip(totals) {
        same("a total of all children", i128::from(figures[1] as i64), total)?;
        seen.totals_not_own += u64::from(figures[0] != figures[1]);
    }
    let is_dropped = |(at, a): (usize, &Action)| {
        a.parent == Parent::Action(place) && a.state == State::Committed && !table.is_held(Place(at)) && a.adds_up()
    };
    seen.numbers.lines_with_dropped += u64::from(table.ever().iter().enumerate().any(is_dropped));
    Ok(())
}
