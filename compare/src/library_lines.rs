//! The lines of a day file by the library, on a table that it opens under a rule, with the file's events in one list.
//! The day program has rule 1 alone. File and lines are read and written by the second engine.

use crate::cause;
use crate::dayfile::{event_bytes, listing, parse, read, refused_line, Day};
use crate::header::{ANSWER_WORDS, SHADOW_BYTES, TABLE_WORDS};
use crate::library::{answers, Lent};
use crate::rule::Rule;

fn run(day: Day, rule: Rule) -> Result<String, String> {
    let mut lent = Lent { table: vec![0; TABLE_WORDS], base: day.base, shadow: vec![0; SHADOW_BYTES] };
    let mut words = vec![0; ANSWER_WORDS * day.events.len()];
    let causes = [lent.open(rule.number()), lent.run(&event_bytes(&day.events), &mut words)];
    if causes != [cause::NONE; 2] {
        return Err(format!("the library refuses {} to open, and {} to run", causes[0], causes[1]));
    }
    Ok(listing(&answers(&words), lent.three_numbers().1))
}

pub fn print_library_lines(path: &str, rule: Rule) -> Result<(), String> {
    let text = match parse(&read(path)?) {
        Ok(day) => run(day, rule)?,
        Err(fault) => refused_line(fault),
    };
    print!("{text}");
    Ok(())
}
