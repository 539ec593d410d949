//! The library's matches and listings against those of PCRE2 on random sound rules, and its name index against PCRE2's name table. PCRE2 lists the readings from a start by a callout at the
//! rule's end that fails each time. `--scans` compares successive matches, with two loops over PCRE2's matches. `--independent` puts the independent
//! matcher in the library's place.

use harness::arguments::arguments_and_switches;
use harness::case::{shown, shown_row, Case};
use harness::contender::Contender;
use harness::differences::{pcre2_refusal_class, Compared, SetAside};
use harness::independent::{self, Answer, Ending, Row};
use harness::pcre2::{Found, Loop, Pattern};
use harness::random::shared::{self, Shared};
use harness::raw::Call;
use harness::report::Group;
use harness::shapes::shape;
use harness::text;

/// Cases with more readings than one in so many steps are left out.
const STEPS_PER_ROW: u32 = 10;
/// Random classes that are tried on every byte.
const CLASSES: u64 = 100;

fn main() -> std::process::ExitCode {
    let (arguments, [is_independent, scans]) = arguments_and_switches(["--independent", "--scans"], 20_000, 1..2);
    let mut tester = Tester {
        group: Group::new(if scans { "successive matches against PCRE2" } else { "matches and listings against PCRE2" }),
        asked: if scans { &[Asked::Scan(Loop::Plain), Asked::Scan(Loop::Documented)] } else { &[Asked::Match, Asked::List] },
        contender: Contender::new(is_independent),
        aside: SetAside::default(),
        rows: 0,
        names: 0,
        inner: 0,
        left_out: 0,
    };
    let make = if scans { shared::scan_case } else { shared::case };
    // Sets and classes on single bytes tell nothing more of successive matches.
    let (sets, classes) = if scans { (Vec::new(), 0) } else { (shared::set_cases(), CLASSES) };
    sets.iter().for_each(|case| tester.judge(case));
    for seed in arguments.seeds.clone() {
        (0..arguments.cases).filter_map(|number| make(seed, number)).for_each(|case| tester.judge(&case));
        (0..classes).flat_map(|number| shared::class_cases(seed, number)).for_each(|case| tester.judge(&case));
    }
    let rows = format!("{} rows; {} names; {} rules look ahead or hold on", tester.rows, tester.names, tester.inner);
    let remark = format!("{rows}; {}; {} left out as too long", tester.aside.told(), tester.left_out);
    tester.group.end(&remark)
}

/// What is asked of both.
#[derive(Clone, Copy)]
enum Asked {
    Match,
    List,
    Scan(Loop),
}

impl Asked {
    fn call(self) -> Call {
        match self {
            Asked::Match => Call::Match,
            Asked::List => Call::List,
            Asked::Scan(_) => Call::Scan,
        }
    }
}

struct Tester {
    group: Group,
    asked: &'static [Asked],
    contender: Contender,
    aside: SetAside,
    rows: usize,
    names: usize,
    /// Rules that look ahead or hold on.
    inner: u64,
    left_out: u64,
}

impl Tester {
    fn judge(&mut self, case: &Shared) {
        let asked = self.asked;
        let Some(answers) = asked.iter().map(|asked| self.ours(asked.call(), case)).collect::<Option<Vec<Answer>>>() else { return };
        let ours = Results { names: names(&answers[0]), rows: answers.into_iter().map(|answer| answer.rows).collect() };
        let compared = Compared { case };
        // The library is held to what PCRE2 answers without what it does beyond document 02.
        match (theirs(asked, case, &compared.plain_rule()), compared.pcre2_class()) {
            (Err(error), _) => self.refused(case, error),
            (Ok(None), _) => self.left_out += 1,
            (Ok(Some(results)), _) if results == ours => self.agreed(case, &compared, &ours),
            (_, Some(class)) => self.aside.count(class),
            (Ok(Some(results)), None) => self.group.fail(&told(case, &ours, &results)),
        }
    }

    /// Where PCRE2 does more, it is asked for that too, and what differs is set aside.
    fn agreed(&mut self, case: &Shared, compared: &Compared, ours: &Results) {
        match compared.pcre2_excess() {
            Some(class) if theirs(self.asked, case, &case.rule).ok().flatten().as_ref() != Some(ours) => self.aside.count(class),
            _ => {
                self.rows += ours.rows[1].len();
                self.names += ours.names.len();
                self.inner += u64::from(shape(&case.tree).has_inner);
                self.group.pass();
            }
        }
    }

    fn refused(&mut self, case: &Shared, error: i32) {
        match pcre2_refusal_class(&case.rule, error) {
            Some(class) => self.aside.count(class),
            None => self.group.fail(&format!("PCRE2 refuses `{}` with its error {error}", text::escaped(&case.rule))),
        }
    }

    /// The library's answer, or none where the case is too long.
    fn ours(&mut self, call: Call, case: &Shared) -> Option<Answer> {
        let rows = if call == Call::Match { 1 } else { (case.budget() / STEPS_PER_ROW) as usize };
        let call = Case::new(call, &case.rule, case.flags, &case.subject, case.budget(), rows);
        let answer = self.contender.answer(&call);
        match answer.ending {
            Ending::Matched | Ending::NotMatched | Ending::Complete => return Some(answer),
            Ending::Full | Ending::Exhausted(_) => self.left_out += 1,
            _ => self.group.fail(&format!("{}\nis sound, and the library answers: {}", call.shown(), shown(&answer))),
        }
        None
    }
}

/// The rows of each call, and the groups that have a name.
#[derive(PartialEq)]
struct Results {
    rows: Vec<Vec<Row>>,
    names: Vec<(usize, Vec<u8>)>,
}

/// The groups that have a name by the index that a call filled.
fn names(answer: &Answer) -> Vec<(usize, Vec<u8>)> {
    let index = answer.names.as_deref().expect("a call that is not refused fills the index");
    independent::named(index).into_iter().map(|(group, name)| (group, name.to_vec())).collect()
}

/// PCRE2's results for a case with this as its rule: none where it gave up, or its error where it refuses the rule.
fn theirs(asked: &[Asked], case: &Shared, rule: &[u8]) -> Result<Option<Results>, i32> {
    let pattern = Pattern::new(rule, case.flags)?;
    let rows: Option<Vec<Vec<Row>>> = asked.iter().map(|&asked| rows_of(asked, &pattern, &case.subject)).collect();
    Ok(rows.map(|rows| Results { rows, names: pattern.names() }))
}

/// The rows that PCRE2 finds, or none where it gave up.
fn rows_of(asked: Asked, pattern: &Pattern, subject: &[u8]) -> Option<Vec<Row>> {
    let rows = |found| match found {
        Found::Rows(rows) => Some(rows),
        Found::Limit => None,
    };
    match asked {
        Asked::Match => rows(pattern.first(subject)),
        Asked::List => (0..=subject.len()).map(|start| rows(pattern.readings(subject, start))).collect::<Option<Vec<_>>>().map(|all| all.concat()),
        Asked::Scan(by) => rows(pattern.successive(subject, by)),
    }
}

fn told(case: &Shared, ours: &Results, theirs: &Results) -> String {
    let name = |(group, name): &(usize, Vec<u8>)| format!("{group}:{}", text::escaped(name));
    let shown = |results: &Results| {
        let rows = |rows: &Vec<Row>| rows.iter().map(shown_row).collect::<Vec<_>>().join("; ");
        let (rows, names): (Vec<String>, Vec<String>) = (results.rows.iter().map(rows).collect(), results.names.iter().map(name).collect());
        format!("{} names {}", rows.join(" | "), names.join(" "))
    };
    let (rule, subject) = (text::escaped(&case.rule), text::escaped(&case.subject));
    format!("`{rule}` flags {} on \"{subject}\"\nlibrary: {}\nPCRE2:   {}", case.flags, shown(ours), shown(theirs))
}
