//! What stood before an event on a sound table, as far as coverage counts it.

use crate::header::{ACCOUNTS, EVENT_COMMIT, EVENT_START};
use crate::model::{Event, STORE};
use crate::queue::Queue;
use crate::table::Table;
use crate::times::{Kind, KINDS};

/// What a commit, if it passes, does with its action's reads.
#[derive(Clone, Copy, Default)]
pub struct Joins {
    /// Reads that stay behind at a parent's card.
    pub behind: u64,
    /// Those of them that are earlier, in a time of either kind, than the parent's own.
    pub behind_later: u64,
    /// Reads of both, where the one has the smaller topaction time and the other the smaller subaction time.
    pub crossed: u64,
}

impl Joins {
    /// Of an action's commit; a topaction's joins nothing.
    pub fn of(table: &Table, n: u64) -> Joins {
        let (child, mut joins) = (table.action(n), Joins::default());
        let Some(place) = child.parent.place() else { return joins };
        let parent = table.at(place);
        for k in 0..ACCOUNTS {
            let Some(read) = child.reads[k].times() else { continue };
            let has_card = parent.has_card(k);
            joins.behind += u64::from(has_card);
            let Some(own) = parent.reads[k].times() else { continue };
            let joined = own.smaller(read);
            joins.behind_later += u64::from(has_card && joined != own);
            joins.crossed += u64::from(!has_card && joined != own && joined != read);
        }
        joins
    }

    /// Whether it shows how a join takes times, other than by the earlier read. Few events lead there.
    pub fn is_telling(self) -> bool {
        self.behind_later + self.crossed > 0
    }
}

fn of_start(table: &Table) -> (Vec<u64>, u64) {
    let needed = table.held().filter(|a| table.is_needed(a)).map(|a| a.number).collect();
    (needed, table.held().filter(|a| table.is_orphan(a)).count() as u64)
}

pub struct Before {
    queues: [Queue; KINDS.len()],
    pub code: u64,
    pub number: u64,
    /// Of the action that the event names, where it names one.
    pub kind: Option<Kind>,
    pub joins: Joins,
    /// At a commit: whether its action has a clash, which under rule 2 nobody asks.
    pub has_clash: bool,
    pub highest: u64,
    /// At a start: the numbers whose records are needed, and how many actions are nobody's children.
    pub needed: Vec<u64>,
    pub orphans: u64,
}

impl Before {
    pub fn new(table: &Table, e: &Event) -> Before {
        let names_action = e.number != STORE && e.number <= table.highest;
        let kind = names_action.then(|| table.action(e.number).kind());
        let commits = names_action && e.code == EVENT_COMMIT;
        let joins = if commits { Joins::of(table, e.number) } else { Joins::default() };
        let has_clash = commits && table.first_clash(e.number).is_some();
        let (queues, highest) = (table.queues.clone(), table.highest);
        let (needed, orphans) = if e.code == EVENT_START { of_start(table) } else { (Vec::new(), 0) };
        Before { queues, code: e.code, number: e.number, kind, joins, has_clash, highest, needed, orphans }
    }

    pub fn queue(&self, kind: Kind) -> &Queue {
        &self.queues[kind as usize]
    }
}
