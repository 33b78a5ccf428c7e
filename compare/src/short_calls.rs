//! The library's call for a short day, held to the second engine's lists: what it answers and refuses, which list it
//! gives, and that all other bytes of the buffer stay.

use crate::calls::ASKED;
use crate::cause;
use crate::check::progress;
use crate::header::{EVENT_BYTES, SHORT_BYTES, SHORT_DAY_GIVEN, SHORT_DAY_NONE, SHORT_DAY_REFUSED, SHORT_EVENTS};
use crate::library;
use crate::rule::{Rule, RULES};
use crate::same::{same_bytes, Compared};
use crate::short_days::{described, ShortDay, LENGTHS};

/// Bytes that a buffer has behind those that are lent.
const SPARE: usize = 16;
type Buffer = [u8; SHORT_BYTES + SPARE];

/// The longest of which each is asked for, and how many are of those that are longer.
pub const ALL_ASKED: usize = SHORT_EVENTS - 1;
const SPREAD: u64 = 1_000;

/// Lengths that are too large, some of them small by their low bytes.
const TOO_LONG: [u64; 6] =
    [SHORT_EVENTS as u64 + 1, SHORT_EVENTS as u64 + 2, 1 << 8, 1 << 8 | 3, 1 << 32 | 3, u64::MAX];
/// Places that are asked for where a call is refused whatever its place.
const PLACES: [u64; 4] = [0, 1, 1_000_000, u64::MAX];

#[derive(Clone, Copy)]
struct Asked {
    k: u64,
    rule: u64,
    place: u64,
}

enum Expected<'a> {
    Given(&'a [u8]),
    None,
    Refused(u64),
}

/// What a buffer holds before a call: bytes that no short day has, and neighbours that differ.
fn untouched() -> Buffer {
    std::array::from_fn(|i| 0x80 | i as u8)
}

impl Expected<'_> {
    /// Kind and refusal.
    fn answer(&self) -> (u64, u64) {
        match *self {
            Expected::Given(_) => (SHORT_DAY_GIVEN, cause::NONE),
            Expected::None => (SHORT_DAY_NONE, cause::NONE),
            Expected::Refused(number) => (SHORT_DAY_REFUSED, number),
        }
    }

    /// What a buffer holds after the call.
    fn buffer(&self) -> Buffer {
        let mut buffer = untouched();
        if let Expected::Given(day) = self {
            buffer[..day.len()].copy_from_slice(day);
        }
        buffer
    }
}

/// Kind and refusal, for a reader.
fn said((kind, refusal): (u64, u64)) -> String {
    let word = match kind {
        SHORT_DAY_GIVEN => "given".to_string(),
        SHORT_DAY_NONE => "none".to_string(),
        SHORT_DAY_REFUSED => "refused".to_string(),
        _ => format!("kind {kind}"),
    };
    format!("{word}, with refusal {refusal}")
}

/// The events that stand at the front of a buffer.
fn front(buffer: &[u8], k: u64) -> String {
    described(&buffer[..EVENT_BYTES * k.min(SHORT_EVENTS as u64) as usize])
}

fn compare(asked: Asked, expected: &Expected, buffer: &mut Buffer) -> Compared {
    let answer = library::short_day(asked.k, asked.rule, asked.place, buffer);
    let (theirs, after) = (expected.answer(), expected.buffer());
    if answer != theirs {
        return Err(format!("answer: the library has {}; the second engine {}", said(answer), said(theirs)));
    }
    same_bytes("the buffer", buffer, &after).map_err(|text| match expected {
        Expected::Given(day) => {
            format!("{text}\nthe library gives {}\nthe second engine {}", front(buffer, asked.k), described(day))
        }
        _ => text,
    })
}

/// The calls so far.
#[derive(Default)]
pub struct Calls {
    pub count: u64,
}

impl Calls {
    /// One call; what it leaves in the buffer.
    fn call(&mut self, asked: Asked, expected: Expected) -> Result<Buffer, String> {
        let (Asked { k, rule, place }, mut buffer) = (asked, untouched());
        compare(asked, &expected, &mut buffer)
            .map_err(|text| format!("{text}\nfor the short day of {k} events under rule {rule} at place {place}"))?;
        self.count += 1;
        Ok(buffer)
    }

    /// The short days of k events under a rule, at these places; those that the library gave.
    fn given(
        &mut self,
        rule: Rule,
        k: usize,
        days: &[ShortDay],
        places: impl Iterator<Item = u64>,
    ) -> Result<Vec<ShortDay>, String> {
        let mut all = Vec::new();
        for place in places {
            let asked = Asked { k: k as u64, rule: rule.number(), place };
            let buffer = self.call(asked, Expected::Given(&days[place as usize]))?;
            all.push(buffer[..EVENT_BYTES * k].to_vec());
            progress(&format!("rule {}, {k} events, place {place} of {}", rule.number(), days.len()));
        }
        Ok(all)
    }

    /// Places from the first that has none on, and those that lie inside by their low bits.
    fn none(&mut self, rule: Rule, k: usize, days: &[ShortDay]) -> Compared {
        let count = days.len() as u64;
        let near = [count, count + 1, count + 2, 2 * count, 10 * count];
        let far = [1 << 32, 1 << 32 | (count - 1), 1 << 63, 1 << 63 | (count - 1), u64::MAX - 1, u64::MAX];
        for place in near.into_iter().chain(far) {
            self.call(Asked { k: k as u64, rule: rule.number(), place }, Expected::None)?;
        }
        Ok(())
    }

    /// Every short day of k events under a rule, and places that have none; all that the library gave.
    pub fn every(&mut self, rule: Rule, k: usize, days: &[ShortDay]) -> Result<Vec<ShortDay>, String> {
        let all = self.given(rule, k, days, 0..days.len() as u64)?;
        self.none(rule, k, days).map(|()| all)
    }

    /// So many spread over all of them, the first and the last too, and places that have none.
    pub fn spread(&mut self, rule: Rule, k: usize, days: &[ShortDay]) -> Compared {
        let last = days.len() as u64 - 1;
        self.given(rule, k, days, (0..SPREAD).map(|i| i * last / (SPREAD - 1)))?;
        self.none(rule, k, days)
    }

    /// Too many events, and what is no rule, be there too many events or not.
    pub fn refused(&mut self) -> Compared {
        let is_rule = |number: &u64| !matches!(Rule::of(*number), Rule::Unknown(_));
        for place in PLACES {
            for (k, rule) in TOO_LONG.into_iter().flat_map(|k| RULES.map(|rule| (k, rule.number()))) {
                self.call(Asked { k, rule, place }, Expected::Refused(cause::TOO_MANY_EVENTS))?;
            }
            for rule in ASKED.into_iter().filter(|number| !is_rule(number)) {
                for k in (0..LENGTHS as u64).chain(TOO_LONG) {
                    self.call(Asked { k, rule, place }, Expected::Refused(cause::NO_RULE))?;
                }
            }
        }
        Ok(())
    }
}
