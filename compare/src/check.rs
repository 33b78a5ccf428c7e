//! Library and second engine side by side on generated input. The first difference is made small, printed, and ends
//! the run.

use crate::cases::check_cases;
use crate::coverage::Coverage;
use crate::damaged::check_damaged;
use crate::days::check_days;
use crate::lists::check_lists;
use crate::same::Compared;
use std::io::{stderr, IsTerminal, Write};

/// Events for each damaged table, of which about half are under each rule, and for each day.
const EVENTS_TO_A_TABLE: u64 = 5;
const EVENTS_TO_A_DAY: u64 = 100;
/// From so many events on, a run that left out a point of its coverage is no good.
const ENOUGH: u64 = 100_000;

/// All of it: the cases, `count` events in lists, and fewer damaged tables and days; whether nothing differs, and
/// nothing was left out.
pub fn check(count: u64, seed: u64) -> bool {
    let mut seen = Coverage::default();
    let result = check_cases(&mut seen)
        .and_then(|()| check_lists(count, seed, &mut seen))
        .and_then(|()| check_damaged(count / EVENTS_TO_A_TABLE, seed, &mut seen))
        .and_then(|()| check_days(count / EVENTS_TO_A_DAY, seed, &mut seen));
    progress("");
    print!("{seen}");
    ended(result, seen.compared(), &seen.left_out(), count >= ENOUGH)
}

/// Says how a comparison ended; whether nothing differs and, where it was long enough, nothing was left out.
pub fn ended(result: Compared, compared: u64, left_out: &[String], was_enough: bool) -> bool {
    if let Err(text) = result {
        println!("{text}");
        println!("{compared} compared, 1 differs");
        return false;
    }
    if !left_out.is_empty() {
        println!("left out: {}", left_out.join("; "));
    }
    println!("{compared} compared, 0 differ");
    left_out.is_empty() || !was_enough
}

/// Blanks that clear the line before.
const PROGRESS_WIDTH: usize = 60;

/// A line that is written over, on a terminal only.
pub fn progress(text: &str) {
    if stderr().is_terminal() {
        eprint!("\r{text:<PROGRESS_WIDTH$}\r{text}");
        stderr().flush().ok();
    }
}
