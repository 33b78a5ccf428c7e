//! All short days, of the library and of the second engine: one by one by the library's call, together by how many they
//! are and by their digest; then each is run by both. The first difference is printed and ends the run.

use crate::cause;
use crate::check::progress;
use crate::coverage::Coverage;
use crate::header::{BASE_BYTES, SHADOW_BYTES};
use crate::lists::{list, Opening};
use crate::model::Answer;
use crate::rule::{Rule, RULES};
use crate::same::Compared;
use crate::sha256::sha256;
use crate::short_calls::{Calls, ALL_ASKED};
use crate::short_days::{described, events_of, short_days, ShortDay, LENGTHS};
use std::fmt;

/// How many short days there are of each length under either rule, and the SHA-256 of them all, one behind the other.
const KNOWN: [(usize, &str); LENGTHS] = [
    (1, "e3b0c44298fc1c149afbf4c8996fb92427ae41e4649b934ca495991b7852b855"),
    (1, "dc015b63795551f68eaeb7ae1da3abc8ecb400d1f7e29127688344f84dfa584a"),
    (6, "a401f0e500ddab3452bef5ec7f5b980a829491ce6a2d907574c6d259ef7b3b23"),
    (33, "f7810090b5127912da36f692b386e9517a38549349d3cb5d2dc1fad641f1f856"),
    (253, "36e1199ca8bcadd8da2b37b3fefbbf2704864251d6d1aa7446c90293f2e13d83"),
    (2_320, "2e0be0c2a18e9684f619b9b2554001b252f27bdc188ccfdd9e0e979c1ad43a79"),
    (25_129, "b73b1bb87cf8570835e970952352102af8d64343eaffef3a6e6329180189733e"),
];

/// Holds all short days of k events, of the one engine or of the other, to how many they are and to their digest.
fn held_to_known(whose: &str, rule: Rule, k: usize, all: &[u8], count: usize) -> Compared {
    let (found, known) = ((count, sha256(all)), KNOWN[k]);
    if (found.0, found.1.as_str()) == known {
        return Ok(());
    }
    let said = format!("{whose} has {} short days of {k} events under rule {}", found.0, rule.number());
    Err(format!("{said}, of digest {}\nthere are {}, of digest {}", found.1, known.0, known.1))
}

/// The library's short days of k events: all of them, or of the longest some.
fn called(rule: Rule, k: usize, days: &[ShortDay], calls: &mut Calls) -> Compared {
    if k > ALL_ASKED {
        return calls.spread(rule, k, days);
    }
    let all = calls.every(rule, k, days)?;
    held_to_known("the library", rule, k, &all.concat(), all.len())
}

fn none_refused(answers: &[Answer]) -> Compared {
    match answers.iter().position(|a| a.cause() != cause::NONE) {
        None => Ok(()),
        Some(at) => Err(format!("event {} is answered {}", at + 1, answers[at])),
    }
}

/// What was run under a rule.
#[derive(Default)]
struct Runs {
    lists: u64,
    events: u64,
    failed: u64,
    seen: Coverage,
}

impl Runs {
    /// A short day by both engines, and by the serial run.
    fn day(&mut self, opening: &Opening, day: &[u8]) -> Compared {
        let answers = list(opening, &events_of(day), &mut self.seen)?;
        none_refused(&answers)?;
        self.lists += 1;
        self.events += answers.len() as u64;
        self.failed += answers.iter().filter(|a| matches!(a, Answer::Failed(..))).count() as u64;
        Ok(())
    }

    fn all(&mut self, rule: Rule, days: &[ShortDay]) -> Compared {
        let opening = Opening { rule, base: vec![0; BASE_BYTES], shadow: vec![0; SHADOW_BYTES] };
        for day in days {
            self.day(&opening, day)
                .map_err(|text| format!("{text}\non the list {} under rule {}", described(day), rule.number()))?;
            progress(&format!("rule {}, {} lists run", rule.number(), self.lists));
        }
        Ok(())
    }
}

/// Of lists of which none differs, so that no event was refused.
impl fmt::Display for Runs {
    fn fmt(&self, f: &mut fmt::Formatter) -> fmt::Result {
        let Runs { lists, events, failed, seen } = self;
        write!(f, "lists run: {lists}, events: {events}, refused: 0, commits that failed: {failed}")?;
        write!(f, ", reads held to the serial run: {}", seen.serial_reads)
    }
}

/// What was compared, so far as nothing differs.
#[derive(Default)]
struct Tally {
    calls: Calls,
    lists: u64,
}

impl Tally {
    /// The short days of k events under a rule.
    fn of_length(&mut self, rule: Rule, k: usize, days: &[ShortDay]) -> Compared {
        held_to_known("the second engine", rule, k, &days.concat(), days.len())?;
        called(rule, k, days, &mut self.calls)?;
        progress("");
        println!("rule {}: {} short days of {k} events", rule.number(), days.len());
        Ok(())
    }

    /// Those of all lengths under a rule; those of up to so many events are also run.
    fn under(&mut self, rule: Rule, most_run: usize) -> Compared {
        let all = short_days(rule);
        for (k, days) in all.iter().enumerate() {
            self.of_length(rule, k, days)?;
        }
        let mut runs = Runs::default();
        let result = all.iter().take(most_run + 1).try_for_each(|days| runs.all(rule, days));
        self.lists += runs.lists;
        result?;
        progress("");
        println!("rule {}: {runs}", rule.number());
        Ok(())
    }
}

/// Both rules, with the lists of up to so many events run; whether nothing differs.
pub fn short(most_run: usize) -> bool {
    let mut tally = Tally::default();
    let result = RULES.into_iter().try_for_each(|rule| tally.under(rule, most_run));
    let result = result.and_then(|()| tally.calls.refused());
    progress("");
    let compared = format!("{} lists and {} calls compared", tally.lists, tally.calls.count);
    match &result {
        Ok(()) => println!("{compared}, all are equal"),
        Err(text) => println!("{text}\n{compared}, 1 differs"),
    }
    result.is_ok()
}
