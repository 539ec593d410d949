//! A proposed reading: document 02, request m). "The box counts steps along that one path": nothing is put off and nothing is tried twice, so that a
//! path is followed by plain recursion over the rule, as deep as that nests.

use super::calls::{row, Answer, Ending};
use super::reader::Refusal;
use super::tree::{Alternation, Item, Kind, Part, Repeat, Rule};
use super::walk::{holds, End, Event, Spans, Walk};

/// "35 is given for l)'s forms", "then 36 for an alternation of more than 256 branches".
const INNER_FORM: u32 = 35;
const TOO_MANY_BRANCHES: u32 = 36;
const MOST_BRANCHES: usize = 256;

/// "at the first (a possessive's place is its `+`)", "at the lowest bar before a 257th".
pub fn refused_by(rule: &Rule) -> Option<Refusal> {
    let mut found = Found::default();
    found.alternation(&rule.whole);
    let lowest = |number: u32, places: &[usize]| places.iter().min().map(|&place| Refusal { number, place });
    lowest(INNER_FORM, &found.inner).or(lowest(TOO_MANY_BRANCHES, &found.bars))
}

/// The places of what a check does not follow.
#[derive(Default)]
struct Found {
    inner: Vec<usize>,
    bars: Vec<usize>,
}

impl Found {
    fn alternation(&mut self, alternation: &Alternation) {
        // The bar of this index stands before the branch behind those that can be numbered.
        self.bars.extend(alternation.bars.get(MOST_BRANCHES - 1));
        alternation.branches.iter().flatten().for_each(|part| self.part(part));
    }

    fn part(&mut self, part: &Part) {
        match part {
            Part::Item(_) => {}
            Part::Group(group) => self.alternation(&group.inside),
            Part::Inner(inner) => {
                self.inner.push(inner.at);
                self.alternation(&inner.inside);
            }
            Part::Repeat(repeat) => self.part(&repeat.body),
        }
    }
}

/// The answer of a check, its names left out. "start as two bytes, low first, then one byte a choice"; "A start or choices cut short or not allowed are "no
/// reading", with no row."
pub fn checked(rule: &Rule, subject: &[u8], budget: u64, proposal: &[u8]) -> Answer {
    let nowhere = Answer::bare(Ending::NoReading);
    let [low, high, choices @ ..] = proposal else { return nowhere };
    let start = usize::from(*low) + 256 * usize::from(*high);
    if start > subject.len() {
        return nowhere;
    }
    let mut path = Path { subject, folds: rule.folds, budget, steps: 0, choices, at: start, spans: vec![None; rule.groups + 1] };
    let followed = path.whole(&rule.whole);
    let Path { steps, at, spans, .. } = path;
    let (ending, rows) = match followed {
        Ok(()) => (Ending::Reading, vec![row(start, &End { end: at, spans: spans.into() })]),
        Err(Stop::NoReading) => (Ending::NoReading, Vec::new()),
        Err(Stop::Exhausted) => (Ending::Exhausted(start), Vec::new()),
    };
    Answer { steps, rows, ..Answer::bare(ending) }
}

/// Why a path is followed no further.
enum Stop {
    NoReading,
    /// "answers exhausted when it needs one beyond its budget".
    Exhausted,
}

struct Path<'p> {
    subject: &'p [u8],
    folds: bool,
    budget: u64,
    steps: u64,
    /// Those that are not read yet.
    choices: &'p [u8],
    at: usize,
    spans: Spans,
}

impl Path<'_> {
    /// "accepts exactly when these choices, all used, make a derivation": what is left over is seen behind the step of the rule's end.
    fn whole(&mut self, whole: &Alternation) -> Result<(), Stop> {
        self.alternation(whole)?;
        self.step()?;
        allowed(self.choices.is_empty())
    }

    fn step(&mut self) -> Result<(), Stop> {
        if self.steps == self.budget {
            return Err(Stop::Exhausted);
        }
        self.steps += 1;
        Ok(())
    }

    /// Reads a choice among so many.
    fn choose(&mut self, among: usize) -> Result<usize, Stop> {
        let (&choice, behind) = self.choices.split_first().ok_or(Stop::NoReading)?;
        self.choices = behind;
        let choice = usize::from(choice);
        allowed(choice < among).map(|()| choice)
    }

    /// A branch's number "is read .. before a branch's" step; where there is one branch, there is neither.
    fn alternation(&mut self, alternation: &Alternation) -> Result<(), Stop> {
        let branch = match &alternation.branches[..] {
            [only] => only,
            several => {
                let chosen = self.choose(several.len())?;
                self.step()?;
                &several[chosen]
            }
        };
        branch.iter().try_for_each(|part| self.part(part))
    }

    fn part(&mut self, part: &Part) -> Result<(), Stop> {
        match part {
            Part::Item(item) => self.item(item),
            Part::Repeat(repeat) => self.repeat(repeat),
            Part::Inner(_) => unreachable!("such a rule is refused by 35"),
            Part::Group(group) => {
                let Some(number) = group.number else { return self.alternation(&group.inside) };
                let from = self.at;
                self.step()?;
                self.alternation(&group.inside)?;
                self.step()?;
                self.spans[number] = Some((from, self.at));
                Ok(())
            }
        }
    }

    /// "0 for going on, 1 for another round", "only where two or more are allowed, greedy or lazy alike", "read after a repeat decision's step".
    fn repeat(&mut self, repeat: &Repeat) -> Result<(), Stop> {
        let (mut rounds, mut took_bytes) = (0, true);
        loop {
            self.step()?;
            let may_end = rounds >= repeat.least;
            let may_go_round = !may_end || (took_bytes && repeat.most.is_none_or(|most| rounds < most));
            let goes_round = if may_end && may_go_round { self.choose(2)? == 1 } else { may_go_round };
            if !goes_round {
                return Ok(());
            }
            let from = self.at;
            self.part(&repeat.body)?;
            (rounds, took_bytes) = (rounds + 1, self.at > from);
        }
    }

    /// An item that fails has cost its steps.
    fn item(&mut self, item: &Item) -> Result<(), Stop> {
        self.step()?;
        match &item.kind {
            Kind::Byte(set) => {
                allowed(self.subject.get(self.at).is_some_and(|&byte| set.has(byte)))?;
                self.at += 1;
                Ok(())
            }
            Kind::Place(place) => allowed(holds(*place, self.subject, self.at)),
            Kind::Reference(group) => self.reference(*group),
        }
    }

    /// 02 b): one step more "for each byte compared, the first unequal byte included".
    fn reference(&mut self, group: usize) -> Result<(), Stop> {
        let (from, to) = self.spans[group].ok_or(Stop::NoReading)?;
        for place in from..to {
            allowed(self.at < self.subject.len())?;
            self.step()?;
            let [wanted, met] = [place, self.at].map(|place| if self.folds { self.subject[place].to_ascii_lowercase() } else { self.subject[place] });
            allowed(wanted == met)?;
            self.at += 1;
        }
        Ok(())
    }
}

fn allowed(is_allowed: bool) -> Result<(), Stop> {
    if is_allowed {
        Ok(())
    } else {
        Err(Stop::NoReading)
    }
}

/// A derivation as it can be proposed.
#[derive(Clone, PartialEq, Eq, Debug)]
pub struct Derivation {
    pub proposal: Vec<u8>,
    /// The steps along its path.
    pub steps: u64,
    pub row: super::calls::Row,
}

/// The derivations from one start that a walk of so many steps finds, in their order; and whether these are all. The rule is one that a check takes.
pub fn derivations(rule: &Rule, subject: &[u8], start: usize, budget: u64) -> (Vec<Derivation>, bool) {
    let mut walk = Walk::new(rule, subject, start, budget);
    let mut found = Vec::new();
    loop {
        match walk.next_event() {
            Event::End(end) => found.push(Derivation {
                proposal: [&(start as u16).to_le_bytes()[..], &walk.trail.choices].concat(),
                steps: walk.trail.steps,
                row: row(start, &end),
            }),
            Event::Exhausted => return (found, false),
            Event::Over => return (found, true),
        }
    }
}
