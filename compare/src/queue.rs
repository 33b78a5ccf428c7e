//! A queue of the second engine (docs/RULES.md, 1.10 and 2.13): who waits, in which order, and with which words. It
//! doesn't know which of a table's two it is.

use crate::header::ACTIONS;

/// What a word says that is not 0, where the engine puts it itself.
const YES: u64 = 1;

/// One position. Verdict and readiness stay the words that they are, since a lent table may have any there.
#[derive(Clone, Copy, Default, PartialEq, Eq, Debug)]
pub struct Entry {
    pub number: u64,
    pub verdict: u64,
    pub readiness: u64,
}

impl Entry {
    fn new(number: u64, failed: bool) -> Entry {
        Entry { number, verdict: if failed { YES } else { 0 }, readiness: 0 }
    }

    pub fn has_failed(&self) -> bool {
        self.verdict != 0
    }

    pub fn is_ready(&self) -> bool {
        self.readiness != 0
    }
}

#[derive(Clone, PartialEq, Eq, Debug)]
pub struct Queue {
    pub length: u64,
    /// Position i is the place i - 1. Places above the length may hold anything, and keep it.
    pub places: Vec<Entry>,
}

impl Queue {
    pub fn new() -> Queue {
        Queue { length: 0, places: vec![Entry::default(); ACTIONS] }
    }

    /// The entries, head first; the length must be within the places.
    pub fn waiting(&self) -> &[Entry] {
        &self.places[..self.length as usize]
    }

    pub fn entry(&self, number: u64) -> Option<&Entry> {
        self.waiting().iter().find(|w| w.number == number)
    }

    pub fn is_queued(&self, number: u64) -> bool {
        self.entry(number).is_some()
    }

    pub fn put_behind(&mut self, number: u64, failed: bool) {
        self.places[self.length as usize] = Entry::new(number, failed);
        self.length += 1;
    }

    pub fn make_ready(&mut self, number: u64) {
        let length = self.length as usize;
        for w in self.places[..length].iter_mut().filter(|w| w.number == number) {
            w.readiness = YES;
        }
    }

    /// Takes out all that go, at once: those that stay close up, and the places that they leave free keep their words.
    pub fn take_out(&mut self, goes: impl Fn(u64) -> bool) {
        let mut stay = 0;
        for i in 0..self.length as usize {
            if !goes(self.places[i].number) {
                self.places[stay] = self.places[i];
                stay += 1;
            }
        }
        self.length = stay as u64;
    }

    /// The action at the head, where it is ready.
    pub fn ready_head(&self) -> Option<u64> {
        self.waiting().first().filter(|w| w.is_ready()).map(|w| w.number)
    }
}
