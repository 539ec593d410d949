//! The walk from one start: it tries derivations depth first, in the order of their priority, and counts its steps.
//!
//! What is still to be done is a list of tasks that states share, and the tries put off are a stack of states: nothing recurses but the walks
//! inside what looks ahead or holds on, which are as deep as the rule nests. So a long subject cannot overflow the program's own stack.

use std::rc::Rc;

use super::sets;
use super::tree::{Alternation, Form, Inner, Item, Kind, Part, Place, Repeat, Rule};

/// The spans of the groups that are set, by number; entry 0 is not used.
pub type Spans = Vec<Option<(usize, usize)>>;

/// Where one start's walk ends with the rule's end reached.
pub struct End {
    pub end: usize,
    pub spans: Rc<Spans>,
}

pub enum Event {
    End(End),
    Exhausted,
    /// Nothing is left to try.
    Over,
}

/// An item that failed.
#[derive(Clone, Copy, PartialEq, Eq, Debug)]
pub struct Miss {
    /// Where it was tried in the line; a reference where it was begun, a `(?!` where it was entered.
    pub at: usize,
    /// Where it begins in the rule.
    pub item: usize,
}

/// The choices that lead from the start to where a walk stands, and the steps along them: without those of tries that were given up. Choices are written as
/// 02 m) has them, so that those at an end are what is proposed for it. Of a rule that looks ahead or holds on they mean nothing.
#[derive(Default)]
pub struct Trail {
    pub choices: Vec<u8>,
    pub steps: u64,
}

pub struct Walk<'r> {
    subject: &'r [u8],
    /// References compare letters without their case.
    folds: bool,
    budget: u64,
    pub steps: u64,
    /// The steps before and behind each reference tried, and each part that looks ahead or holds on, for budgets that end within one.
    pub stretches: Vec<(u64, u64)>,
    /// The items that failed so far, in the order in which they were tried.
    pub misses: Vec<Miss>,
    /// How the walk got to where it stands.
    pub trail: Trail,
    /// Tries put off, the next one last; inside what looks ahead or holds on, those of its inside alone.
    pending: Vec<State<'r>>,
}

#[derive(Clone)]
struct State<'r> {
    at: usize,
    spans: Rc<Spans>,
    todo: Todo<'r>,
    /// Of a try that is put off, what its trail is when it is begun.
    begin: Begin,
}

#[derive(Clone, Copy, Default)]
struct Begin {
    /// How many choices the trail had.
    choices: usize,
    /// The choice that leads here, unless it is a branch, which writes its own.
    choice: Option<u8>,
    steps: u64,
}

type Todo<'r> = Option<Rc<Tasks<'r>>>;

struct Tasks<'r> {
    first: Task<'r>,
    rest: Todo<'r>,
}

#[derive(Clone, Copy)]
enum Task<'r> {
    /// Begin the branch of this index, or, on falling back, one behind it.
    Branch(&'r Alternation, usize),
    /// Go through these parts.
    Parts(&'r [Part]),
    /// Close the group that was opened here.
    Close { group: usize, from: usize },
    /// Decide after so many rounds, the last of which began here.
    Decide { repeat: &'r Repeat, rounds: u64, last_from: Option<usize> },
}

enum Tried<'r> {
    On(State<'r>),
    Failed,
}

/// The walk needs a step and has used its budget.
struct NoStepLeft;

fn push<'r>(first: Task<'r>, rest: &Todo<'r>) -> Todo<'r> {
    Some(Rc::new(Tasks { first, rest: rest.clone() }))
}

impl<'r> Walk<'r> {
    pub fn new(rule: &'r Rule, subject: &'r [u8], start: usize, budget: u64) -> Walk<'r> {
        let todo = push(Task::Branch(&rule.whole, 0), &None);
        let begin = State { at: start, spans: Rc::new(vec![None; rule.groups + 1]), todo, begin: Begin::default() };
        let (stretches, misses, trail) = (Vec::new(), Vec::new(), Trail::default());
        Walk { subject, folds: rule.folds, budget, steps: 0, stretches, misses, trail, pending: vec![begin] }
    }

    /// Goes on until the rule's end is reached, the budget is used or nothing is left.
    pub fn next_event(&mut self) -> Event {
        match self.next_end() {
            Ok(Some(end)) => Event::End(end),
            Ok(None) => Event::Over,
            Err(NoStepLeft) => Event::Exhausted,
        }
    }

    /// Goes on with what is pending until nothing is to be done in a state, which is the end of what is walked, or nothing is left. An end costs its
    /// step: "the rule's end reached", and of what looks ahead or holds on "its inner end 1".
    fn next_end(&mut self) -> Result<Option<End>, NoStepLeft> {
        while let Some(mut state) = self.pending.pop() {
            self.trail.resume(state.begin);
            loop {
                let Some(tasks) = state.todo.clone() else {
                    self.step()?;
                    return Ok(Some(End { end: state.at, spans: state.spans }));
                };
                state.todo = tasks.rest.clone();
                match self.perform(tasks.first, state)? {
                    Tried::On(next) => state = next,
                    Tried::Failed => break,
                }
            }
        }
        Ok(None)
    }

    fn step(&mut self) -> Result<(), NoStepLeft> {
        if self.steps == self.budget {
            return Err(NoStepLeft);
        }
        self.steps += 1;
        self.trail.steps += 1;
        Ok(())
    }

    /// Performs one task; the state's list holds what comes behind it.
    fn perform(&mut self, task: Task<'r>, mut state: State<'r>) -> Result<Tried<'r>, NoStepLeft> {
        match task {
            Task::Branch(alternation, index) => self.begin_branch(alternation, index, state),
            Task::Parts([]) => Ok(Tried::On(state)),
            Task::Parts([part, behind @ ..]) => {
                state.todo = push(Task::Parts(behind), &state.todo);
                self.try_part(part, state)
            }
            Task::Close { group, from } => {
                self.step()?;
                let span = (from, state.at);
                Rc::make_mut(&mut state.spans)[group] = Some(span);
                Ok(Tried::On(state))
            }
            Task::Decide { repeat, rounds, last_from } => self.decide(repeat, rounds, last_from, state),
        }
    }

    /// "a branch begun (two or more branches)": the later ones are tried on falling back, and each costs its step then.
    fn begin_branch(&mut self, alternation: &'r Alternation, index: usize, mut state: State<'r>) -> Result<Tried<'r>, NoStepLeft> {
        if index + 1 < alternation.branches.len() {
            let todo = push(Task::Branch(alternation, index + 1), &state.todo);
            self.pending.push(State { at: state.at, spans: state.spans.clone(), todo, begin: self.trail.put_off(None) });
        }
        if alternation.branches.len() > 1 {
            self.trail.choices.push(index as u8);
            self.step()?;
        }
        state.todo = push(Task::Parts(&alternation.branches[index]), &state.todo);
        Ok(Tried::On(state))
    }

    fn try_part(&mut self, part: &'r Part, mut state: State<'r>) -> Result<Tried<'r>, NoStepLeft> {
        match part {
            Part::Item(item) => {
                let at = state.at;
                let tried = self.try_item(item, state)?;
                if matches!(tried, Tried::Failed) {
                    self.misses.push(Miss { at, item: item.at });
                }
                Ok(tried)
            }
            Part::Group(group) => {
                if let Some(number) = group.number {
                    self.step()?;
                    state.todo = push(Task::Close { group: number, from: state.at }, &state.todo);
                }
                state.todo = push(Task::Branch(&group.inside, 0), &state.todo);
                Ok(Tried::On(state))
            }
            Part::Repeat(repeat) => {
                state.todo = push(Task::Decide { repeat, rounds: 0, last_from: None }, &state.todo);
                Ok(Tried::On(state))
            }
            Part::Inner(inner) => {
                let before = self.steps;
                let tried = self.enter(inner, state);
                self.stretches.push((before, self.steps));
                tried
            }
        }
    }

    /// "A held group and `(?=` keep only the first derivation of their inside, captures included; `(?!` holds when its inside has none, and sets nothing."
    /// One that fails was "tried when it is entered", before the items inside.
    fn enter(&mut self, inner: &'r Inner, mut state: State<'r>) -> Result<Tried<'r>, NoStepLeft> {
        self.step()?;
        let missed_before = self.misses.len();
        let first = self.first_end(&inner.inside, &state)?;
        Ok(match (inner.form, first) {
            (Form::NotAhead, None) => Tried::On(state),
            (Form::NotAhead, Some(_)) => {
                self.misses.insert(missed_before, Miss { at: state.at, item: inner.at });
                Tried::Failed
            }
            (_, None) => Tried::Failed,
            (form, Some(End { end, spans })) => {
                state.at = if form == Form::Held { end } else { state.at };
                state.spans = spans;
                Tried::On(state)
            }
        })
    }

    /// The first end of a walk through these branches alone.
    fn first_end(&mut self, inside: &'r Alternation, state: &State<'r>) -> Result<Option<End>, NoStepLeft> {
        let begin = State { todo: push(Task::Branch(inside, 0), &None), begin: self.trail.put_off(None), ..state.clone() };
        let outside = std::mem::replace(&mut self.pending, vec![begin]);
        let end = self.next_end()?;
        self.pending = outside;
        Ok(end)
    }

    fn try_item(&mut self, item: &Item, mut state: State<'r>) -> Result<Tried<'r>, NoStepLeft> {
        match &item.kind {
            Kind::Byte(set) => {
                self.step()?;
                let fits = self.subject.get(state.at).is_some_and(|&byte| set.has(byte));
                state.at += 1;
                Ok(if fits { Tried::On(state) } else { Tried::Failed })
            }
            Kind::Place(place) => {
                self.step()?;
                Ok(if holds(*place, self.subject, state.at) { Tried::On(state) } else { Tried::Failed })
            }
            Kind::Reference(group) => {
                let before = self.steps;
                let tried = self.refer(*group, state);
                self.stretches.push((before, self.steps));
                tried
            }
        }
    }

    /// "A reference needs its group set, and matches the same bytes"; "A reference tried now costs 1 step plus one for each byte compared, the
    /// first unequal byte included". The byte that a subject too short lacks is not compared. Bytes that are equal once folded are equal under `i`.
    fn refer(&mut self, group: usize, mut state: State<'r>) -> Result<Tried<'r>, NoStepLeft> {
        self.step()?;
        let Some((from, to)) = state.spans[group] else { return Ok(Tried::Failed) };
        let subject = self.subject;
        let wanted = &subject[from..to];
        // Bytes that are all there, all equal and all paid for are taken at once: otherwise billions of steps would take too long.
        let cost = wanted.len() as u64;
        if cost <= self.budget - self.steps && subject[state.at..].starts_with(wanted) {
            self.steps += cost;
            self.trail.steps += cost;
            state.at += wanted.len();
            return Ok(Tried::On(state));
        }
        for wanted in wanted {
            let Some(met) = subject.get(state.at) else { return Ok(Tried::Failed) };
            self.step()?;
            let equal = if self.folds { met.eq_ignore_ascii_case(wanted) } else { met == wanted };
            if !equal {
                return Ok(Tried::Failed);
            }
            state.at += 1;
        }
        Ok(Tried::On(state))
    }

    /// "below the minimum a round; at the maximum go on; if the minimum is reached and the last round took no bytes, go on; else both, a
    /// round first when greedy, going on first when lazy".
    fn decide(&mut self, repeat: &'r Repeat, rounds: u64, last_from: Option<usize>, state: State<'r>) -> Result<Tried<'r>, NoStepLeft> {
        self.step()?;
        let again = push(Task::Decide { repeat, rounds: rounds + 1, last_from: Some(state.at) }, &state.todo);
        let round = State { todo: push(Task::Parts(std::slice::from_ref(&repeat.body)), &again), ..state.clone() };
        if rounds < repeat.least {
            return Ok(Tried::On(round));
        }
        if repeat.most == Some(rounds) || last_from == Some(state.at) {
            return Ok(Tried::On(state));
        }
        let (first, second) = if repeat.greedy { (round, state) } else { (state, round) };
        self.pending.push(State { begin: self.trail.put_off(Some(u8::from(!repeat.greedy))), ..second });
        self.trail.choices.push(u8::from(repeat.greedy));
        Ok(Tried::On(first))
    }
}

impl Trail {
    /// What is kept with a try that is put off here, to be begun with this choice.
    fn put_off(&self, choice: Option<u8>) -> Begin {
        Begin { choices: self.choices.len(), choice, steps: self.steps }
    }

    fn resume(&mut self, begin: Begin) {
        self.choices.truncate(begin.choices);
        self.choices.extend(begin.choice);
        self.steps = begin.steps;
    }
}

/// Document 01, "Places".
pub fn holds(place: Place, subject: &[u8], at: usize) -> bool {
    let end = subject.len();
    let last_newline = at + 1 == end && subject[at] == 0x0A;
    let word = |index: Option<usize>| index.and_then(|index| subject.get(index)).is_some_and(|&byte| sets::is_word(byte));
    let word_edge = word(at.checked_sub(1)) != word(Some(at));
    match place {
        Place::Start => at == 0,
        Place::LineStart => at == 0 || (subject[at - 1] == 0x0A && at != end),
        Place::End => at == end,
        Place::EndOrLastNewline => at == end || last_newline,
        Place::LineEnd => at == end || subject[at] == 0x0A,
        Place::WordEdge => word_edge,
        Place::NoWordEdge => !word_edge,
    }
}
