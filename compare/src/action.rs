//! An action of the second engine, and whose child it is.

use crate::header::ACCOUNTS;
use crate::model::{charge_of, Figures, CHARGE_ACCOUNTS, FIRST_CHARGE, NO_FIGURES, STORE};
use crate::newest::Newest;
use crate::times::{EndTime, Kind, Times};

/// A place in a table's list of actions, in the order of their starts. Numbers are given again; places are not.
#[derive(Clone, Copy, PartialEq, Eq, PartialOrd, Ord, Hash, Debug)]
pub struct Place(pub usize);

/// Whose child an action is.
#[derive(Clone, Copy, PartialEq, Eq, Debug)]
pub enum Parent {
    Store,
    /// Of the very action at this place, whoever holds its number by now.
    Action(Place),
    /// Of a row of a lent table that is its own parent.
    Nobody,
    /// Of a row of a lent table: a number above the highest.
    Unknown(u64),
}

impl Parent {
    /// The kind of all its children.
    pub fn kind(self) -> Kind {
        match self {
            Parent::Store => Kind::Top,
            _ => Kind::Sub,
        }
    }

    pub fn place(self) -> Option<Place> {
        match self {
            Parent::Action(place) => Some(place),
            _ => None,
        }
    }

    /// What a row's first word says, in a lent table whose rows stand at the first places, by number.
    pub fn in_row(word: u64, number: u64, highest: u64) -> Parent {
        match word {
            STORE => Parent::Store,
            _ if word > highest => Parent::Unknown(word),
            _ if word == number => Parent::Nobody,
            _ => Parent::Action(Place(word as usize - 1)),
        }
    }
}

#[derive(Clone, Copy, PartialEq, Eq, Debug)]
pub enum State {
    Live,
    Committed,
    Aborted,
    Unknown(u64),
}

/// Whether an account is in an action's read set.
#[derive(Clone, Copy, PartialEq, Eq, Debug)]
pub enum Read {
    /// It is not. The word is what stands in place of the subaction time, any in a lent table, and nobody looks at it.
    Not(u64),
    /// It is, with the times of the first read that counts.
    At(Times),
}

impl Read {
    pub fn times(self) -> Option<Times> {
        match self {
            Read::Not(_) => None,
            Read::At(times) => Some(times),
        }
    }
}

#[derive(Clone, PartialEq, Eq, Debug)]
pub struct Action {
    /// The number that it got at its start.
    pub number: u64,
    pub parent: Parent,
    pub state: State,
    pub end: EndTime,
    pub reads: [Read; ACCOUNTS],
    /// Not 0 for each account in the write set.
    pub writes: [u64; ACCOUNTS],
    /// The pending sum of each charge account.
    pub pending: Figures,
    /// What it has added to each charge account itself.
    pub own_adds: Figures,
    /// The totals of its committed children, together.
    pub kept: Figures,
    /// The newest end times of its committed children.
    pub newest: Newest,
}

impl Action {
    pub fn new(number: u64, parent: Parent) -> Action {
        let end = EndTime::new(parent.kind(), 0);
        let (reads, writes) = ([Read::Not(0); ACCOUNTS], [0; ACCOUNTS]);
        let (pending, own_adds, kept, newest) = (NO_FIGURES, NO_FIGURES, NO_FIGURES, Newest::none(Kind::Sub));
        Action { number, parent, state: State::Live, end, reads, writes, pending, own_adds, kept, newest }
    }

    pub fn kind(&self) -> Kind {
        self.parent.kind()
    }

    pub fn is_live(&self) -> bool {
        self.state == State::Live
    }

    /// Whether it has a card of its own for the account; of a charge account nobody has one.
    pub fn has_card(&self, account: usize) -> bool {
        charge_of(account).is_none() && self.writes[account] != 0
    }

    pub fn has_read(&self, account: usize) -> bool {
        self.reads[account].times().is_some()
    }

    pub fn has_read_any(&self) -> bool {
        (0..ACCOUNTS).any(|k| self.has_read(k))
    }

    /// Gives each of its reads the other kind's time for that of each kind.
    pub fn exchange_times(&mut self) {
        for read in &mut self.reads {
            if let Read::At(times) = read {
                *times = times.exchanged();
            }
        }
    }

    /// Whether it has read any account before that time.
    pub fn has_read_before(&self, end: EndTime) -> bool {
        self.reads.iter().filter_map(|read| read.times()).any(|times| end.is_after(times))
    }

    pub fn has_charged(&self, charge: usize) -> bool {
        self.writes[FIRST_CHARGE + charge] != 0
    }

    pub fn wrote_something(&self) -> bool {
        self.writes.iter().any(|&w| w != 0)
    }

    pub fn is_writer(&self) -> bool {
        self.state == State::Committed && self.wrote_something()
    }

    /// Its own adds and its children's totals; exact.
    pub fn total(&self) -> [i128; CHARGE_ACCOUNTS] {
        std::array::from_fn(|c| i128::from(self.own_adds[c]) + i128::from(self.kept[c]))
    }

    /// Whether its total is not 0 for some account.
    pub fn adds_up(&self) -> bool {
        self.total().iter().any(|&sum| sum != 0)
    }
}
