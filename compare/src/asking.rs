//! The cause of an event, asked of the library before the event (docs/RULES.md, 15.5): it must be what the event then
//! gets, and what is lent must stay.

use crate::coverage::Coverage;
use crate::library::Lent;
use crate::model::{Answer, Event};
use crate::same::{same_lent, Compared};

/// The cause, with all that is lent held to what it was.
pub fn ask(lent: &Lent, e: &Event) -> Result<u64, String> {
    let before = lent.clone();
    let cause = lent.cause(e);
    stays(same_lent(lent, &before)).map(|()| cause)
}

/// Says of a difference that asking made it.
pub fn stays(compared: Compared) -> Compared {
    compared.map_err(|text| format!("after a cause was asked: {text}"))
}

/// Holds a cause that was asked to the answer that the event then got.
pub fn held_to_answer(cause: u64, e: &Event, a: Answer, seen: &mut Coverage) -> Compared {
    seen.asked(cause);
    if cause == a.cause() {
        return Ok(());
    }
    Err(format!("asked for the cause of {e:?}, the library has {cause}, and then answers {a}"))
}
