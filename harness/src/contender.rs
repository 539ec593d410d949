//! Whose answers are tried: the library's, or those of the independent matcher in its place, where it is held to something else than itself.

use crate::case::Case;
use crate::independent::lookup;
use crate::independent::Answer;
use crate::lender::{Lender, Run};
use crate::raw::{self, Lookup};

pub enum Contender {
    Library(Box<Lender>),
    Independent,
}

impl Contender {
    pub fn new(is_independent: bool) -> Contender {
        if is_independent {
            Contender::Independent
        } else {
            Contender::Library(Box::default())
        }
    }

    pub fn answer(&mut self, case: &Case) -> Answer {
        self.run(case).answer
    }

    /// The answer, and what is wrong with what the library left behind.
    pub fn run(&mut self, case: &Case) -> Run {
        match self {
            Contender::Library(lender) => lender.run(case),
            Contender::Independent => Run { answer: case.expected(), faults: Vec::new() },
        }
    }

    /// The three numbers of a field.
    pub fn field(&self, lookup: Lookup) -> [u64; 3] {
        match self {
            Contender::Library(_) => {
                let mut field = [0; 3];
                raw::field(lookup, &mut field);
                field
            }
            Contender::Independent => lookup::field(&lookup).numbers(),
        }
    }
}
