//! The library's matches against those of Perl on random sound rules: matched or not, start, end, captures, and each field by its name against
//! what Perl's `%+` has of it; with `--scans` its successive matches against those of Perl's `/g`. A difference has to have the
//! marks of a known class, and PCRE2 has to side with the library, unless it has a difference of its own there. `--independent` puts the
//! independent matcher in the library's place: what the library is held against elsewhere is then held against Perl itself.

use harness::arguments::arguments_and_switches;
use harness::case::{shown, shown_row, Case};
use harness::contender::Contender;
use harness::differences::{pcre2_refusal_class, Class, Compared, SetAside};
use harness::independent::{self, Ending, Row};
use harness::pcre2::{Found, Loop, Pattern};
use harness::perl::{self, Answer, Charset, Fields, Question};
use harness::random::shared::{self, Shared};
use harness::raw::{Call, Lookup};
use harness::report::Group;
use harness::shapes::shape;
use harness::text;

/// Random classes that are tried on every byte.
const CLASSES: u64 = 100;
/// Questions for one `perl` process.
const BATCH: usize = 5_000;

fn main() -> std::process::ExitCode {
    let (arguments, [is_independent, scans]) = arguments_and_switches(["--independent", "--scans"], 50_000, 1..2);
    let mut tester = Tester {
        group: Group::new(if scans { "successive matches against Perl" } else { "matches against Perl" }),
        call: if scans { Call::Scan } else { Call::Match },
        contender: Contender::new(is_independent),
        aside: SetAside::default(),
        confirmed: 0,
        left_out: 0,
        rows: 0,
        fields: 0,
        inner: 0,
    };
    let make = if scans { shared::scan_case } else { shared::case };
    // Sets and classes on single bytes tell nothing more of successive matches.
    let (sets, classes) = if scans { (Vec::new(), 0) } else { (shared::set_cases(), CLASSES) };
    tester.batch(sets);
    for seed in arguments.seeds.clone() {
        let numbers: Vec<u64> = (0..arguments.cases).collect();
        for batch in numbers.chunks(BATCH) {
            tester.batch(batch.iter().filter_map(|&number| make(seed, number)).collect());
        }
        tester.batch((0..classes).flat_map(|number| shared::class_cases(seed, number)).collect());
    }
    let aside = format!("{}, {} of them confirmed by PCRE2", tester.aside.told(), tester.confirmed);
    let rows = format!("{} rows; {} fields by name; {} rules look ahead or hold on", tester.rows, tester.fields, tester.inner);
    let remark = format!("{rows}; {aside}; {} left out as too long", tester.left_out);
    tester.group.end(&remark)
}

struct Tester {
    group: Group,
    /// A match or a scan.
    call: Call,
    contender: Contender,
    aside: SetAside,
    confirmed: u64,
    left_out: u64,
    rows: usize,
    fields: usize,
    /// Rules that look ahead or hold on.
    inner: u64,
}

/// A case with what the library answers: its rows, none where it does not match, and the fields of a match.
struct Ours {
    case: Shared,
    rows: Vec<Row>,
    fields: Fields,
}

/// What stands where a group took nothing: no subject has it, so that it cannot be mistaken for a part of the line.
const STANDING: &[u8] = b"a text that stands where no line has a field";

impl Tester {
    fn batch(&mut self, cases: Vec<Shared>) {
        let ours: Vec<Ours> = cases.into_iter().filter_map(|case| self.ours(case)).collect();
        let (mut usual, mut exceeded) = (Vec::new(), Vec::new());
        for ours in &ours {
            match (Compared { case: &ours.case }).perl_excess() {
                None => usual.push(ours),
                Some(class) => exceeded.push((ours, class)),
            }
        }
        let questions: Vec<Question> = usual.iter().map(|ours| self.question(&ours.case, &ours.case.rule, Charset::Ascii)).collect();
        for (ours, answer) in usual.iter().zip(self.answers(&questions)) {
            self.judge(ours, &answer);
        }
        self.without_excess(&exceeded);
    }

    /// Where Perl does more than document 02 says, the library is held to what it answers without that. What it answers with it is asked for too,
    /// and set aside where it differs.
    fn without_excess(&mut self, cases: &[(&Ours, Class)]) {
        let rules: Vec<Vec<u8>> = cases.iter().map(|(ours, _)| Compared { case: &ours.case }.rule_for_perl()).collect();
        let without: Vec<Question> = cases.iter().zip(&rules).map(|((ours, _), rule)| self.question(&ours.case, rule, Charset::Native)).collect();
        let with: Vec<Question> = cases.iter().map(|(ours, _)| self.question(&ours.case, &ours.case.rule, Charset::Ascii)).collect();
        let answers = self.answers(&without).into_iter().zip(self.answers(&with));
        for (&(ours, class), (without, with)) in cases.iter().zip(answers) {
            if ours.is_same(&without) && !ours.is_same(&with) {
                self.set_aside(ours, &with, class);
            } else {
                self.judge(ours, &without);
            }
        }
    }

    /// Perl's answers, or none where it does not run.
    fn answers(&mut self, questions: &[Question]) -> Vec<Answer> {
        perl::answers(questions).unwrap_or_else(|error| {
            self.group.fail(&error);
            Vec::new()
        })
    }

    /// What the library answers. Cases that are too long are left out.
    fn ours(&mut self, case: Shared) -> Option<Ours> {
        // A start has two matches at most, an empty one and then another.
        let room = if self.call == Call::Match { 1 } else { 2 * case.subject.len() + 2 };
        let call = Case::new(self.call, &case.rule, case.flags, &case.subject, case.budget(), room);
        let answer = self.contender.answer(&call);
        match answer.ending {
            Ending::Matched | Ending::NotMatched | Ending::Complete => {
                let fields = if self.call == Call::Match { self.fields(&case, &answer) } else { Fields::new() };
                self.rows += answer.rows.len();
                self.inner += u64::from(shape(&case.tree).has_inner);
                return Some(Ours { case, rows: answer.rows, fields });
            }
            Ending::Exhausted(_) => self.left_out += 1,
            _ => self.group.fail(&format!("{}\nis sound, and the library answers: {}", call.shown(), shown(&answer))),
        }
        None
    }

    /// Each name that the library's index has, with the part of the line that is looked up by it; none of them where the line does not match. What
    /// names a rule has is not told here: the index alone says so.
    fn fields(&mut self, case: &Shared, answer: &independent::Answer) -> Fields {
        let (Some(names), Some(row)) = (answer.names.as_deref(), answer.rows.first()) else { return Fields::new() };
        let mut fields = Fields::new();
        for (_, name) in independent::named(names) {
            let lookup = Lookup { name, names, line: &case.subject, kind: 0, row, standing: STANDING };
            let taken = match self.contender.field(lookup) {
                [0, from, to] => Some(case.subject[from as usize..to as usize].to_vec()),
                [1, 0, to] if to == STANDING.len() as u64 => None,
                other => Some(format!("not a field: {other:?}").into_bytes()),
            };
            fields.insert(name.to_vec(), taken);
        }
        self.fields += fields.len();
        fields
    }

    fn judge(&mut self, ours: &Ours, answer: &Answer) {
        let compared = Compared { case: &ours.case };
        let class = match answer {
            _ if ours.is_same(answer) => return self.group.pass(),
            Answer::Slow => {
                self.left_out += 1;
                return;
            }
            Answer::Failed => compared.perl_failure_class(),
            // The same rows with other fields are of no class.
            Answer::Rows(perls, _) if ours.rows == *perls => None,
            Answer::Rows(perls, _) => {
                let same = ours.rows.iter().zip(perls).take_while(|(row, perls)| row == perls).count();
                compared.perl_class(ours.rows.get(same), perls.get(same))
            }
        };
        match class {
            Some(class) => self.set_aside(ours, answer, class),
            None => self.group.fail(&told(ours, answer)),
        }
    }

    fn set_aside(&mut self, ours: &Ours, answer: &Answer, class: Class) {
        if self.pcre2_sides_with(&ours.rows, &ours.case) {
            self.aside.count(class);
        } else {
            self.group.fail(&format!("{}\nPCRE2 does not side with the library", told(ours, answer)));
        }
    }

    /// Does PCRE2 find the library's rows? Where it differs by a point of its own, it cannot be asked.
    fn pcre2_sides_with(&mut self, ours: &[Row], case: &Shared) -> bool {
        let compared = Compared { case };
        if compared.pcre2_class().is_some() {
            return true;
        }
        let found = match Pattern::new(&compared.plain_rule(), case.flags) {
            Ok(pattern) if self.call == Call::Match => pattern.first(&case.subject),
            Ok(pattern) => pattern.successive(&case.subject, Loop::Plain),
            Err(error) => return pcre2_refusal_class(&case.rule, error).is_some(),
        };
        let sides = found == Found::Rows(ours.to_vec());
        self.confirmed += u64::from(sides);
        sides
    }

    fn question<'c>(&self, case: &'c Shared, rule: &'c [u8], charset: Charset) -> Question<'c> {
        Question { rule, flags: case.flags, charset, subject: &case.subject, groups: case.tree.groups, all: self.call == Call::Scan }
    }
}

impl Ours {
    /// Is Perl's answer these rows with these fields?
    fn is_same(&self, answer: &Answer) -> bool {
        match answer {
            Answer::Rows(rows, fields) => self.rows == *rows && self.fields == *fields,
            Answer::Failed | Answer::Slow => false,
        }
    }
}

fn told(ours: &Ours, answer: &Answer) -> String {
    let perls = match answer {
        Answer::Failed => "failed".to_string(),
        Answer::Slow => "slow".to_string(),
        Answer::Rows(rows, fields) => shown_rows(rows, fields),
    };
    let (rule, subject) = (text::escaped(&ours.case.rule), text::escaped(&ours.case.subject));
    format!("`{rule}` flags {} on \"{subject}\": library {}, Perl {perls}", ours.case.flags, shown_rows(&ours.rows, &ours.fields))
}

fn shown_rows(rows: &[Row], fields: &Fields) -> String {
    let shown: Vec<String> = rows.iter().map(shown_row).collect();
    if shown.is_empty() {
        "not matched".to_string()
    } else {
        format!("{} {}", shown.join("; "), shown_fields(fields))
    }
}

fn shown_fields(fields: &Fields) -> String {
    let shown = |taken: &Option<Vec<u8>>| taken.as_ref().map_or("not set".to_string(), |taken| format!("\"{}\"", text::escaped(taken)));
    fields.iter().map(|(name, taken)| format!("{} {}", text::escaped(name), shown(taken))).collect::<Vec<_>>().join(", ")
}
