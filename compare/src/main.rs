//! compare: the library beside a second engine, by results (`check`) and by time (`bench`); or one of them alone on a
//! day file, the second engine (`lines`, `tree`) or the library (`library`). Both on all short days (`short`). And the
//! column program beside the second engine's column (`columns`), or that alone on a list of charges (`column`).

mod action;
mod ahead;
mod asking;
mod before;
mod bench;
mod bench_short;
mod bench_verdict;
mod calls;
mod cases;
mod cause;
mod check;
mod column;
mod column_coverage;
mod column_lists;
mod columns;
mod coverage;
mod damage;
mod damage_newest;
mod damage_parents;
mod damage_queues;
mod damaged;
mod dayfile;
mod days;
mod generate;
mod header;
mod kind_cases;
mod library;
mod library_lines;
mod lists;
mod model;
mod newest;
mod newest_cases;
mod newest_coverage;
mod newest_of_all;
mod number_cases;
mod number_coverage;
mod queue;
mod queue_cases;
mod queue_coverage;
mod random;
mod rule;
mod rule_cases;
mod rule_coverage;
mod same;
mod scripts;
mod serial;
mod sha256;
mod short;
mod short_calls;
mod short_days;
mod shrink;
mod sound;
mod stale;
mod table;
mod times;
mod tree;
mod trees;

use crate::header::{RULE_BACKWARD, SHORT_EVENTS};
use crate::rule::Rule;
use std::process::ExitCode;

const USAGE: &str = "\
usage: compare/run check [--events N] [--seed S]     both engines on N events in lists, and other calls by that measure
       compare/run bench                             times of both, put into docs/PERFORMANCE.md
       compare/run bench PART                        times of that part alone, as verdict, printed and not put there
       compare/run lines FILE [--rule R]             the lines of a day file, by the second engine alone
       compare/run library FILE [--rule R]           the same by the library alone, its events as one list
       compare/run tree FILE                         its tree, by the second engine alone
       compare/run short [--run K]                   all short days by both engines, those of up to K events run
       compare/run columns [--charges N] [--seed S]  the column program and the second engine on N charges in lists
       compare/run column FILE                       the old column of a list of charges, by the second engine alone
R is the rule of the table, 1 or 2; a day's own is 1.";

const DEFAULT_EVENTS: u64 = 100_000;
const DEFAULT_CHARGES: u64 = 1_000_000;
const DEFAULT_SEED: u64 = 1;
/// The longest short days that are run where nothing else is said: of the longest there are ten times as many.
const DEFAULT_RUN: u64 = SHORT_EVENTS as u64 - 1;

/// Exit statuses.
const DIFFER: u8 = 1;
const BAD_USAGE: u8 = 2;

fn behind<'a>(args: &'a [String], flag: &str) -> Option<&'a str> {
    args.iter().skip_while(|a| *a != flag).nth(1).map(String::as_str)
}

/// The number behind a flag, or the default where the flag isn't given.
fn number(args: &[String], flag: &str, default: u64) -> Result<u64, String> {
    if !args.iter().any(|a| a == flag) {
        return Ok(default);
    }
    let value = behind(args, flag).ok_or(format!("{flag} needs a number"))?;
    value.parse().map_err(|_| format!("{flag} needs a number, and has {value}"))
}

/// The rule that is asked, 1 where none is.
fn rule(args: &[String]) -> Result<Rule, String> {
    match Rule::of(number(args, "--rule", RULE_BACKWARD)?) {
        Rule::Unknown(other) => Err(format!("--rule needs 1 or 2, and has {other}")),
        rule => Ok(rule),
    }
}

/// The longest short days that are to be run.
fn most_run(args: &[String]) -> Result<usize, String> {
    let most = number(args, "--run", DEFAULT_RUN)?;
    if most <= SHORT_EVENTS as u64 {
        return Ok(most as usize);
    }
    Err(format!("--run needs 0 to {SHORT_EVENTS}, and has {most}"))
}

/// Whether the engines agree, where they are compared.
fn run(args: &[String]) -> Result<bool, String> {
    match args.first().map(String::as_str) {
        Some("check") => {
            let events = number(args, "--events", DEFAULT_EVENTS)?;
            Ok(check::check(events, number(args, "--seed", DEFAULT_SEED)?))
        }
        Some("bench") => {
            let part = args.get(1).map(String::as_str).filter(|word| !word.starts_with("--"));
            bench::bench(part, behind(args, "--write")).map(|()| true)
        }
        Some("lines") => dayfile::print_lines(args.get(1).ok_or(USAGE)?, rule(args)?).map(|()| true),
        Some("library") => library_lines::print_library_lines(args.get(1).ok_or(USAGE)?, rule(args)?).map(|()| true),
        Some("tree") => dayfile::print_tree(args.get(1).ok_or(USAGE)?).map(|()| true),
        Some("short") => Ok(short::short(most_run(args)?)),
        Some("columns") => {
            let charges = number(args, "--charges", DEFAULT_CHARGES)?;
            columns::columns(charges, number(args, "--seed", DEFAULT_SEED)?)
        }
        Some("column") => column::print_column(args.get(1).ok_or(USAGE)?).map(|()| true),
        _ => Err(USAGE.to_string()),
    }
}

fn main() -> ExitCode {
    let args: Vec<String> = std::env::args().skip(1).collect();
    match run(&args) {
        Ok(true) => ExitCode::SUCCESS,
        Ok(false) => ExitCode::from(DIFFER),
        Err(text) => {
            eprintln!("{text}");
            ExitCode::from(BAD_USAGE)
        }
    }
}
