//! What counts as the same, and how a difference reads.

use crate::header::{REPORT_WORDS, ROW_WORDS};
use crate::library::Lent;

/// Where the two engines part.
pub type Compared = Result<(), String>;

pub fn same<T: PartialEq + std::fmt::Debug>(what: &str, ours: T, theirs: T) -> Compared {
    if ours == theirs {
        return Ok(());
    }
    Err(format!("{what}: the library has {ours:?}, the second engine {theirs:?}"))
}

pub fn same_bytes(what: &str, ours: &[u8], theirs: &[u8]) -> Compared {
    if ours == theirs {
        return Ok(());
    }
    let at = ours.iter().zip(theirs).position(|(a, b)| a != b).unwrap_or(ours.len().min(theirs.len()));
    Err(format!("{what}: different from byte {at} on, of {} and {}", ours.len(), theirs.len()))
}

pub fn same_words(ours: &[u64], theirs: &[u64]) -> Compared {
    if ours == theirs {
        return Ok(());
    }
    let at = ours.iter().zip(theirs).position(|(a, b)| a != b).unwrap_or(0);
    Err(format!(
        "table: row {} field {}: the library has {}, the second engine {}",
        at / ROW_WORDS,
        at % ROW_WORDS,
        ours[at],
        theirs[at]
    ))
}

pub fn same_report(ours: &[u64; REPORT_WORDS], theirs: &[u64; REPORT_WORDS]) -> Compared {
    match ours.iter().zip(theirs).position(|(a, b)| a != b) {
        None => Ok(()),
        Some(at) => Err(format!(
            "tree: word {at}: the library has {}, the second engine {}",
            ours[at] as i64, theirs[at] as i64
        )),
    }
}

pub fn same_lent(ours: &Lent, theirs: &Lent) -> Compared {
    same_words(&ours.table, &theirs.table)?;
    same_bytes("base store", &ours.base, &theirs.base)?;
    same_bytes("shadow store", &ours.shadow, &theirs.shadow)
}
