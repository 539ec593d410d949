//! One case, measured: the library and PCRE2 in turns, after their answers have been compared.

use std::cell::RefCell;

use super::library::Library;
use super::pcre2::{Rival, Way};
use super::turns::shortest;
use super::{Case, Reply};
use crate::raw::Call;

/// What is known of the library's rival in a case.
#[derive(Clone, Copy)]
pub enum Rate {
    /// Seconds a call.
    Seconds(f64),
    /// It answers something else, so that times say nothing.
    Differs(&'static str),
    Skipped,
    /// There is no such way to do the same.
    None,
}

pub struct Measured {
    pub reply: Reply,
    pub seconds: f64,
    pub steps: u64,
    /// The same rule and budget on the empty line: compiling, clearing, and hardly any walk.
    pub bare_seconds: f64,
    pub bare_steps: u64,
    /// PCRE2, by each of `WAYS`, and later Perl.
    pub rivals: Vec<Rate>,
}

impl Measured {
    /// The time beyond the fixed part: the walk's.
    pub fn walk_seconds(&self) -> f64 {
        walk_seconds(self.seconds, self.bare_seconds)
    }

    /// What the walk is held against: PCRE2's time with the rule compiled once or, where it then answers something else, without shortcuts.
    /// On the empty line there is nothing beyond the fixed part, and so no rival.
    pub fn walk_rival(&self, case: &Case) -> Option<f64> {
        let seconds = |way| WAYS.iter().zip(&self.rivals).find(|(other, _)| **other == way).and_then(|(_, rate)| rate.seconds());
        seconds(Way::Once).or_else(|| seconds(Way::NoShortcuts)).filter(|_| !case.subject.is_empty())
    }

    /// Keeps the shorter time of two measurements, one by one.
    pub fn shorten(&mut self, other: &Measured) {
        self.seconds = self.seconds.min(other.seconds);
        self.bare_seconds = self.bare_seconds.min(other.bare_seconds);
        for (rate, &another) in self.rivals.iter_mut().zip(&other.rivals) {
            rate.shorten(another);
        }
    }
}

/// What is beyond the fixed part; two times of hardly any walk may come out the wrong way round.
pub fn walk_seconds(seconds: f64, bare_seconds: f64) -> f64 {
    (seconds - bare_seconds).max(0.0)
}

impl Rate {
    fn seconds(self) -> Option<f64> {
        if let Rate::Seconds(seconds) = self {
            Some(seconds)
        } else {
            None
        }
    }

    pub fn shorten(&mut self, other: Rate) {
        if let (Rate::Seconds(seconds), Rate::Seconds(others)) = (self, other) {
            *seconds = seconds.min(others);
        }
    }
}

pub const WAYS: [Way; 3] = [Way::EachCall, Way::Once, Way::NoShortcuts];

pub fn measure(case: &Case) -> Measured {
    let library = RefCell::new(Library::new(case));
    let (_, bare_steps) = library.borrow_mut().reply(b"");
    let (reply, steps) = library.borrow_mut().reply(&case.subject);
    let mut calls: Vec<Box<dyn FnMut()>> = vec![Box::new(|| library.borrow_mut().call(&case.subject)), Box::new(|| library.borrow_mut().call(b""))];
    let mut rivals = Vec::new();
    for way in WAYS {
        rivals.push(match rival(case, way, &reply) {
            Ok(call) => {
                calls.push(call);
                Rate::Seconds(0.0)
            }
            Err(rate) => rate,
        });
    }
    let times = shortest(&mut calls);
    let mut rival_times = times[2..].iter();
    for rate in &mut rivals {
        if let Rate::Seconds(seconds) = rate {
            *seconds = *rival_times.next().expect("each rival that was called has a time");
        }
    }
    drop(calls);
    Measured { reply, seconds: times[0], steps, bare_seconds: times[1], bare_steps, rivals }
}

/// One call of PCRE2, if it gives the same answer.
fn rival<'c>(case: &'c Case, way: Way, reply: &Reply) -> Result<Box<dyn FnMut() + 'c>, Rate> {
    // A listing goes without shortcuts in any case.
    if case.call == Call::List && way == Way::NoShortcuts {
        return Err(Rate::None);
    }
    let mut rival = Rival::new(case, way);
    let theirs = rival.reply();
    if theirs != *reply {
        return Err(Rate::Differs(theirs.word()));
    }
    Ok(Box::new(move || rival.call()))
}
