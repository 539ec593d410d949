//! A rule, held with the areas that the library works in.

use std::fmt;
use std::sync::{Arc, Mutex, PoisonError};

use crate::areas::{Answer, Areas, COMPLETE, EXHAUSTED, FULL, MATCHED, NOT_MATCHED, NO_READING, READING};
use crate::captures::Captures;
use crate::cards::{read_card, write_card};
use crate::checked::Checked;
use crate::errors::{CardError, RuleError, Unknown};
use crate::explanation::{Attempt, Explanation, Failure, Misfit};
use crate::flags::Flags;
use crate::lines::Lines;
use crate::listing::{Listing, Matches, Readings};
use crate::outcome::Outcome;
use crate::raw::{Call, Question};
use crate::refusal::Reason;
use crate::source::Source;
use crate::{agreement, limits};

/// The budget of a rule that is given none. A call clears 64 bytes for each step of its budget, which at the most that a budget can be takes longer than
/// most matches do; and what a budget does not suffice for is told, never overlooked.
pub const BUDGET: u32 = 10_000;

/// So many rows are asked for first, and four times as many whenever there are more.
const FIRST_ROWS: usize = 16;

/// A Perl regular expression with its flags and its budget of steps for each start in a line.
///
/// It owns the areas that the library works in: 64 KiB, and 64 bytes for each step of the budget, or of the largest that a check was given. Threads may share a rule, and then take turns; a clone has
/// areas of its own. Rules and lines are bytes: a `str` is those of its UTF-8, so that a sign beyond ASCII is several bytes, each for itself in a class.
///
/// ```
/// use terravisco::{Flags, Outcome, Rule};
///
/// let rule = Rule::new(r"^tank (?<tank>\w+): (?<litres>\d+) L$", Flags::I)?;
/// match rule.match_line("Tank A1: 820 L") {
///     Outcome::Matched { captures, .. } => assert_eq!(&captures["litres"], b"820"),
///     Outcome::NotMatched { .. } => println!("it does not fit"),
///     Outcome::Exhausted { start, .. } => println!("not known: the budget is used up at {start}"),
///     Outcome::TooLong => println!("not known: over 65,535 bytes"),
/// }
/// # Ok::<(), Box<dyn std::error::Error>>(())
/// ```
pub struct Rule {
    source: Arc<Source>,
    /// Two calls in the same areas would write over each other's compiled rule.
    areas: Mutex<Areas>,
}

impl Rule {
    /// A rule with a budget of [`BUDGET`] steps. The error says what is wrong with it, and where.
    pub fn new(rule: impl AsRef<[u8]>, flags: Flags) -> Result<Rule, RuleError> {
        Rule::with_budget(rule, flags, BUDGET)
    }

    /// A rule with a budget of its own, at most 100,000 steps at each start.
    ///
    /// ```
    /// use terravisco::{Flags, Rule, Unknown};
    ///
    /// let rule = Rule::with_budget("a*", Flags::NONE, 6)?;
    /// assert_eq!(rule.is_match("aa"), Err(Unknown::Exhausted { start: 0, steps: 6 }));
    /// assert_eq!(rule.is_match("a"), Ok(true));
    /// # Ok::<(), Box<dyn std::error::Error>>(())
    /// ```
    pub fn with_budget(rule: impl AsRef<[u8]>, flags: Flags, budget: u32) -> Result<Rule, RuleError> {
        agreement::check();
        let (rule, mut areas) = (rule.as_ref(), Areas::new(budget));
        // A call on the empty line refuses what any call would refuse, and fills the index of names.
        let question = Question { rule, flags: flags.bits(), subject: b"", budget, proposal: b"" };
        if let Some(refusal) = areas.ask(Call::Match, question, &mut [0; limits::ROW], &mut []).refusal() {
            return Err(RuleError::new(refusal, rule));
        }
        let source = Source { rule: rule.to_vec(), flags, budget, groups: count_groups(rule, flags), names: areas.names().to_vec() };
        Ok(Rule { source: Arc::new(source), areas: Mutex::new(areas) })
    }

    /// The rule on a card. Any bytes may be handed in: what is no card is refused.
    pub fn from_card(card: &[u8]) -> Result<Rule, CardError> {
        let card = read_card(card)?;
        Ok(Rule::with_budget(card.rule, card.flags, card.budget).expect("the rule of a card is sound"))
    }

    /// The card of the rule. It is refused, by 4, for a budget over 65,535.
    ///
    /// ```
    /// use terravisco::{Flags, Rule};
    ///
    /// let card = Rule::new(r"^tank \d+$", Flags::I)?.card()?;
    /// assert_eq!(format!("{:?}", Rule::from_card(&card)?), r#"Rule("^tank \\d+$", flags 4, budget 10000)"#);
    /// # Ok::<(), Box<dyn std::error::Error>>(())
    /// ```
    pub fn card(&self) -> Result<Vec<u8>, RuleError> {
        write_card(self.as_bytes(), self.flags(), self.budget())
    }

    // The calls ------------------------------------------------------------------

    /// What a match answers on the line: the leftmost start's first reading, with its steps.
    pub fn match_line<'t>(&self, line: &'t (impl AsRef<[u8]> + ?Sized)) -> Outcome<'t> {
        let (line, mut row) = (line.as_ref(), [0; limits::ROW]);
        let answer = self.ask(Call::Match, line, &mut row, &mut []);
        Outcome::told(&self.source, line, [answer.kind, answer.detail], answer.steps, &row)
    }

    /// The match, or none where the line is not matched; an error where that is not known.
    pub fn captures<'t>(&self, line: &'t (impl AsRef<[u8]> + ?Sized)) -> Result<Option<Captures<'t>>, Unknown> {
        self.match_line(line).known()
    }

    /// Whether the line is matched; an error where that is not known.
    pub fn is_match(&self, line: &(impl AsRef<[u8]> + ?Sized)) -> Result<bool, Unknown> {
        self.captures(line).map(|captures| captures.is_some())
    }

    /// Successive matches, as Perl's `/g` finds them: each begins where the one before ended or behind that, and none is empty where an empty one was.
    /// Where the budget is used up, those found before come first, and then an error.
    ///
    /// ```
    /// use terravisco::{Flags, Rule};
    ///
    /// let rule = Rule::new(r"(?<amount>\d+) (?<unit>L|kg)", Flags::NONE)?;
    /// let mut amounts = Vec::new();
    /// for captures in rule.captures_iter("820 L, 25 kg") {
    ///     amounts.push(captures?["amount"].to_vec());
    /// }
    /// assert_eq!(amounts, [&b"820"[..], b"25"]);
    /// # Ok::<(), Box<dyn std::error::Error>>(())
    /// ```
    pub fn captures_iter<'t>(&self, line: &'t (impl AsRef<[u8]> + ?Sized)) -> Matches<'t> {
        let (answer, found) = self.rows(Call::Scan, line.as_ref(), usize::MAX);
        let ending = match answer.kind {
            COMPLETE => None,
            EXHAUSTED => Some(Unknown::Exhausted { start: answer.detail as usize, steps: answer.steps }),
            _ => Some(Unknown::TooLong),
        };
        Matches::new(found, ending, answer.steps)
    }

    /// Every reading of the line, from every start: each different set of start, end and groups once, and so many at most.
    ///
    /// ```
    /// use terravisco::{Flags, Rule};
    ///
    /// let rule = Rule::new(r"^(?:(\d{1,3},\d{3})|(\d+,\d+)) L$", Flags::NONE)?;
    /// let readings: Vec<_> = rule.readings("1,500 L", 1_000).known()?.map(|reading| format!("{reading:?}")).collect();
    /// assert_eq!(readings, ["0-7 1:0-5", "0-7 2:0-5"]);
    /// # Ok::<(), Box<dyn std::error::Error>>(())
    /// ```
    pub fn readings<'t>(&self, line: &'t (impl AsRef<[u8]> + ?Sized), most: usize) -> Listing<'t> {
        let (answer, readings) = self.rows(Call::List, line.as_ref(), most.max(1));
        let steps = answer.steps;
        match answer.kind {
            COMPLETE => Listing::Complete { readings, steps },
            FULL => Listing::Full { readings, steps },
            EXHAUSTED => Listing::Exhausted { start: answer.detail as usize, readings, steps },
            _ => Listing::TooLong,
        }
    }

    /// Why the line does not fit, if it does not.
    pub fn explain<'t>(&self, line: &'t (impl AsRef<[u8]> + ?Sized)) -> Explanation<'t> {
        let (line, mut marks) = (line.as_ref(), vec![0; self.as_bytes().len()]);
        let answer = self.ask(Call::Explain, line, &mut [], &mut marks);
        match answer.kind {
            MATCHED => Explanation::Matched { steps: answer.steps },
            NOT_MATCHED => {
                let [at, item, start, close_at, close_item] = answer.places;
                let wanted = (0..marks.len()).filter(|&place| marks[place] != 0).collect();
                let (furthest, closest) = (Failure { at, item }, Attempt { start, at: close_at, item: close_item });
                Explanation::NotMatched(Misfit { source: Arc::clone(&self.source), line, steps: answer.steps, furthest, closest, wanted })
            }
            EXHAUSTED => Explanation::Exhausted { start: answer.detail as usize, steps: answer.steps },
            _ => Explanation::TooLong,
        }
    }

    /// Each line of a buffer with what `match_line` answers on it. Lines end at an 0A, the last one also at the buffer's end. A line that is exhausted or
    /// too long has its own outcome, and the others go on.
    ///
    /// ```
    /// use terravisco::{Flags, Rule};
    ///
    /// let rule = Rule::new(r"^tank \d+: (?<litres>\d+) L$", Flags::NONE)?;
    /// let mut litres = Vec::new();
    /// for (_, outcome) in rule.match_lines("tank 7: 820 L\nhall 3\ntank 8: 64 L\n") {
    ///     litres.push(outcome.known()?.map(|captures| captures["litres"].to_vec()));
    /// }
    /// assert_eq!(litres, [Some(b"820".to_vec()), None, Some(b"64".to_vec())]);
    /// # Ok::<(), Box<dyn std::error::Error>>(())
    /// ```
    pub fn match_lines<'r, 't>(&'r self, buffer: &'t (impl AsRef<[u8]> + ?Sized)) -> Lines<'r, 't> {
        Lines::new(self, buffer.as_ref())
    }

    /// Whether a proposal is a reading of the line, within a budget of its own: what another program found with more steps can be checked with few.
    ///
    /// A proposal is the start as two bytes, the low one first, and then a byte for each choice along the path, where there is one: 0 for going on behind a
    /// repeat or 1 for another round, or the number of a branch from 0. Whoever sent it, and whatever its bytes, what is said of it is right.
    ///
    /// The rule is refused, by 35 and 36, if it looks ahead or holds on, or has an alternation of more than 256 branches; and the budget, by 4, if it is over
    /// 100,000. That of the rule itself does not count here.
    ///
    /// ```
    /// use terravisco::{Checked, Flags, Rule, Unknown};
    ///
    /// let rule = Rule::with_budget(r"(\d+)*x|.*", Flags::NONE, 1_000)?;
    /// let line = "12345678901234567890";
    /// assert_eq!(rule.is_match(line), Err(Unknown::Exhausted { start: 0, steps: 1_000 }));
    /// // From 0 on, the second branch, and twenty rounds of its repeat.
    /// let proposal = [&[0, 0, 1][..], &[1; 20], &[0]].concat();
    /// match rule.check(line, &proposal, 1_000)? {
    ///     Checked::Reading { captures, steps } => assert_eq!((captures.range(), steps), (0..20, 43)),
    ///     Checked::NoReading { .. } => println!("that is no reading"),
    ///     Checked::Exhausted { .. } => println!("not known: its path needs more steps"),
    ///     Checked::TooLong => println!("not known: over 65,535 bytes"),
    /// }
    /// # Ok::<(), Box<dyn std::error::Error>>(())
    /// ```
    pub fn check<'t>(&self, line: &'t (impl AsRef<[u8]> + ?Sized), proposal: &[u8], budget: u32) -> Result<Checked<'t>, RuleError> {
        let (line, mut row) = (line.as_ref(), [0; limits::ROW]);
        let mut areas = self.areas.lock().unwrap_or_else(PoisonError::into_inner);
        areas.suffice(budget);
        let answer = areas.ask(Call::Check, Question { budget, proposal, ..self.question(line) }, &mut row, &mut []);
        let steps = answer.steps;
        match (answer.kind, answer.refusal()) {
            (READING, _) => Ok(Checked::Reading { captures: Captures::new(&self.source, line, &row), steps }),
            (NO_READING, _) => Ok(Checked::NoReading { steps }),
            (EXHAUSTED, _) => Ok(Checked::Exhausted { start: answer.detail as usize, steps }),
            (_, Some(refusal)) if refusal.reason != Reason::LineTooLong => Err(RuleError::new(refusal, self.as_bytes())),
            _ => Ok(Checked::TooLong),
        }
    }

    // What it is -----------------------------------------------------------------

    /// The rule's bytes.
    pub fn as_bytes(&self) -> &[u8] {
        &self.source.rule
    }

    /// Its flags.
    pub fn flags(&self) -> Flags {
        self.source.flags
    }

    /// The steps that each start in a line may take.
    pub fn budget(&self) -> u32 {
        self.source.budget
    }

    /// How many groups it has, the whole match counted too, as in the regex crate.
    pub fn captures_len(&self) -> usize {
        1 + self.source.groups
    }

    /// The name of each group, if it has one, beginning with the whole match, which has none.
    pub fn capture_names(&self) -> impl Iterator<Item = Option<&str>> {
        std::iter::once(None).chain(self.source.names())
    }

    // What the calls share ---------------------------------------------------------

    pub(crate) fn source(&self) -> &Arc<Source> {
        &self.source
    }

    fn question<'a>(&'a self, subject: &'a [u8]) -> Question<'a> {
        Question { rule: self.as_bytes(), flags: self.flags().bits(), subject, budget: self.budget(), proposal: b"" }
    }

    /// One call at a time. Areas may hold anything before a call, so that a panic of another thread does no harm.
    pub(crate) fn ask(&self, call: Call, subject: &[u8], result: &mut [u32], marks: &mut [u8]) -> Answer {
        let answer = self.areas.lock().unwrap_or_else(PoisonError::into_inner).ask(call, self.question(subject), result, marks);
        let refusal = answer.refusal();
        assert!(refusal.is_none_or(|refusal| refusal.reason == Reason::LineTooLong), "a sound rule is refused for a line alone: {refusal:?}");
        answer
    }

    /// A call that writes rows, so many at most: it is made again with more room while there is a row more.
    fn rows<'t>(&self, call: Call, line: &'t [u8], most: usize) -> (Answer, Readings<'t>) {
        let mut room = FIRST_ROWS.min(most);
        loop {
            let mut rows = vec![0; limits::ROW * room];
            let answer = self.ask(call, line, &mut rows, &mut []);
            if answer.kind != FULL || room == most {
                rows.truncate(limits::ROW * answer.rows);
                return (answer, Readings::new(&self.source, line, rows));
            }
            room = room.saturating_mul(4).min(most);
        }
    }
}

/// How many groups a sound rule has: its card tells, and no other call does.
fn count_groups(rule: &[u8], flags: Flags) -> usize {
    let card = write_card(rule, flags, 0).expect("the rule is sound");
    read_card(&card).expect("it was just written").groups
}

impl Clone for Rule {
    fn clone(&self) -> Rule {
        Rule { source: Arc::clone(&self.source), areas: Mutex::new(Areas::new(self.budget())) }
    }
}

impl fmt::Debug for Rule {
    fn fmt(&self, out: &mut fmt::Formatter) -> fmt::Result {
        write!(out, "Rule({:?}, flags {}, budget {})", String::from_utf8_lossy(self.as_bytes()), self.flags().bits(), self.budget())
    }
}
