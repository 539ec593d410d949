//! Why a line did not fit: request f) of document 02, and the closest attempt beside it.

use std::collections::BTreeSet;

use super::walk::Miss;

/// What an explanation tells of a line that is not matched.
#[derive(Clone, PartialEq, Eq, Debug)]
pub struct Explanation {
    /// "the greatest place in the line at which the walk tried an item that failed, and the place in the rule of the first such item tried there, in
    /// walk order over all starts".
    pub furthest: Miss,
    pub closest: Attempt,
    /// For each byte of the rule, as far as the area goes: 1 where an item begins that failed at the closest attempt's place in the walk from its
    /// start, else 0.
    pub marks: Vec<u8>,
}

/// Of all failed items, in walk order over all starts, the first with the greatest distance from its start to where it was tried.
#[derive(Clone, Copy, PartialEq, Eq, Debug)]
pub struct Attempt {
    pub start: usize,
    pub miss: Miss,
}

impl Attempt {
    fn distance(&self) -> usize {
        self.miss.at - self.start
    }
}

/// What is kept of the items that failed, start after start.
#[derive(Default)]
pub struct Log {
    furthest: Option<Miss>,
    closest: Option<Attempt>,
    /// The items that failed where the closest attempt got to, in the walk from its start.
    failed_there: BTreeSet<usize>,
}

impl Log {
    /// Adds what failed in the walk from one start, which is later than those before. Only a greater place or distance replaces what is known: of equal
    /// ones the first counts.
    pub fn add(&mut self, start: usize, misses: &[Miss]) {
        for &miss in misses {
            if self.furthest.is_none_or(|furthest| miss.at > furthest.at) {
                self.furthest = Some(miss);
            }
            let attempt = Attempt { start, miss };
            if self.closest.is_none_or(|closest| attempt.distance() > closest.distance()) {
                self.closest = Some(attempt);
            }
        }
        if let Some(closest) = self.closest.filter(|closest| closest.start == start) {
            self.failed_there = misses.iter().filter(|miss| miss.at == closest.miss.at).map(|miss| miss.item).collect();
        }
    }

    /// The explanation with so many marks. "A walk that isn't exhausted and in which nothing failed always matches": there are failed items.
    pub fn explanation(self, marks: usize) -> Explanation {
        let marks = (0..marks).map(|item| u8::from(self.failed_there.contains(&item))).collect();
        let (furthest, closest) = self.furthest.zip(self.closest).expect("where nothing is matched, something failed");
        Explanation { furthest, closest, marks }
    }
}
