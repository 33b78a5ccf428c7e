//! What events met in the two queues.

use crate::before::Before;
use crate::coverage::{row, Point};
use crate::model::{Answer, Leaver, Outcome};
use crate::queue::Queue;
use crate::table::Table;
use crate::times::{Kind, KINDS};
use std::collections::BTreeMap;
use std::fmt;

/// Queues from this length on are counted together.
const LONG: u64 = 8;

/// What was met in one queue, or beside it.
#[derive(Default)]
struct OfKind {
    by_length: BTreeMap<u64, u64>,
    left_committed: u64,
    left_aborted: u64,
    left_together: u64,
    left_though_failed: u64,
    judged_behind: u64,
    aborted_out: u64,
    ready_heads: u64,
    ready_heads_left: u64,
    /// Ready heads that stayed, as the judge was of the other kind.
    judged_beside: u64,
    /// Commits of this kind while the other queue was not empty.
    committed_beside: u64,
}

impl OfKind {
    /// An event that found this queue, and what came of it.
    fn event(&mut self, before: &Queue, after: &Queue, done: &Outcome) {
        *self.by_length.entry(before.length.min(LONG)).or_default() += 1;
        let left: Vec<&Leaver> = done.left.iter().filter(|w| before.is_queued(w.number)).collect();
        for w in &left {
            let though_failed = before.entry(w.number).is_some_and(|entry| entry.has_failed());
            self.left_though_failed += u64::from(though_failed);
            self.left_committed += u64::from(w.committed);
            self.left_aborted += u64::from(!w.committed);
        }
        self.left_together += u64::from(left.len() > 1);
        if let Answer::Aborted(..) = done.answer {
            self.aborted_out += before.length - after.length - left.len() as u64;
        }
        if let Some(head) = before.ready_head() {
            self.ready_heads += 1;
            self.ready_heads_left += u64::from(left.iter().any(|w| w.number == head));
        }
    }

    /// An event by an action of this kind; of the other queue it counts what stayed as it was.
    fn own_event(&mut self, other: &Queue, done: &Outcome) {
        self.judged_behind += u64::from(matches!(done.answer, Answer::Ready(0)));
        if let Answer::Committed(_) = done.answer {
            self.committed_beside += u64::from(other.length > 0);
        }
    }

    /// An event by an action of the other kind.
    fn others_event(&mut self, before: &Queue, done: &Outcome) {
        let is_judge = matches!(done.answer, Answer::Ready(_) | Answer::JudgedFailed(_));
        self.judged_beside += u64::from(is_judge && before.ready_head().is_some());
    }
}

#[derive(Default)]
pub struct QueueCoverage {
    kinds: [OfKind; KINDS.len()],
    both_wait: u64,
    both_heads_at_abort: u64,
}

impl QueueCoverage {
    pub fn event(&mut self, before: &Before, after: &Table, done: &Outcome) {
        for (kind, met) in KINDS.into_iter().zip(&mut self.kinds) {
            let queue = before.queue(kind);
            met.event(queue, after.queue(kind), done);
            match before.kind {
                Some(own) if own == kind => met.own_event(before.queue(kind.other()), done),
                Some(_) => met.others_event(queue, done),
                None => {}
            }
        }
        let both = |test: fn(&Queue) -> bool| u64::from(KINDS.into_iter().all(|kind| test(before.queue(kind))));
        self.both_wait += both(|queue| queue.length > 0);
        if let Answer::Aborted(..) = done.answer {
            self.both_heads_at_abort += both(|queue| queue.ready_head().is_some());
        }
    }

    /// What a comparison has to meet.
    pub fn points(&self) -> Vec<Point> {
        let mut points = vec![
            ("both queues wait".to_string(), self.both_wait),
            ("both heads ready at an abort".to_string(), self.both_heads_at_abort),
        ];
        for (kind, met) in KINDS.into_iter().zip(&self.kinds) {
            let name = name(kind);
            points.push((format!("{name} commit while the other queue waits"), met.committed_beside));
            points.push((format!("a ready head of {name} at a judge of the other kind"), met.judged_beside));
        }
        points
    }
}

pub fn name(kind: Kind) -> &'static str {
    match kind {
        Kind::Top => "topactions",
        Kind::Sub => "subactions",
    }
}

impl fmt::Display for OfKind {
    fn fmt(&self, f: &mut fmt::Formatter) -> fmt::Result {
        let length = |l: u64| if l < LONG { l.to_string() } else { format!("{l}+") };
        row(f, "  queues by length", &self.by_length.iter().map(|(&l, &n)| (length(l), n)).collect())?;
        writeln!(f, "  left as committed: {}, aborted for sums: {}", self.left_committed, self.left_aborted)?;
        writeln!(f, "  several left at one event: {}", self.left_together)?;
        writeln!(f, "  left though their verdict is failed: {}", self.left_though_failed)?;
        writeln!(
            f,
            "  ready and not yet at the head: {}, taken out by aborts: {}",
            self.judged_behind, self.aborted_out
        )?;
        writeln!(f, "  heads ready beforehand: {}, that then left: {}", self.ready_heads, self.ready_heads_left)?;
        writeln!(f, "  such heads at a judge of the other kind: {}", self.judged_beside)?;
        writeln!(f, "  committed while the other queue waits: {}", self.committed_beside)
    }
}

impl fmt::Display for QueueCoverage {
    fn fmt(&self, f: &mut fmt::Formatter) -> fmt::Result {
        writeln!(
            f,
            "both queues wait: {}, both heads ready at an abort: {}",
            self.both_wait, self.both_heads_at_abort
        )?;
        for (kind, met) in KINDS.into_iter().zip(&self.kinds) {
            write!(f, "{}:\n{met}", name(kind))?;
        }
        Ok(())
    }
}
