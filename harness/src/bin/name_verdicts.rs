//! Whether rules with names are sound, against Perl and PCRE2: random rules in which one name, or what stands around it, was changed. What is refused
//! here for a name, with 12, 13, 25 or 26, the others refuse too, and what is sound here they take; a difference has to have the marks of a known class.

use harness::arguments::arguments;
use harness::differences::{name_class, pcre2_refusal_class, Class, Other, SetAside};
use harness::independent::tree::Rule;
use harness::independent::{self, Refusal};
use harness::pcre2::Pattern;
use harness::perl::{self, Answer, Charset, Question};
use harness::random::{damage, rules, Rng};
use harness::report::Group;
use harness::shapes::shape;
use harness::text;

/// Questions for one `perl` process.
const BATCH: usize = 5_000;
/// The refusals that a name may be given.
const OF_NAMES: [u32; 4] = [12, 13, 25, 26];

/// A rule, and its tree or why it is refused here.
struct Judged {
    rule: Vec<u8>,
    flags: u32,
    read: Result<Rule, Refusal>,
}

fn main() -> std::process::ExitCode {
    let arguments = arguments(40_000, 1..2);
    let mut tester = Tester { group: Group::new("names against Perl and PCRE2"), aside: SetAside::default(), refused: [0; 27], sound: 0 };
    for seed in arguments.seeds.clone() {
        let numbers: Vec<u64> = (0..arguments.cases).collect();
        for batch in numbers.chunks(BATCH) {
            tester.batch(batch.iter().filter_map(|&number| judged(seed, number)).collect());
        }
    }
    let refused: Vec<String> = OF_NAMES.iter().map(|&number| format!("{} of {number}", tester.refused[number as usize])).collect();
    let remark = format!("{} sound, refused {}; {}", tester.sound, refused.join(", "), tester.aside.told());
    tester.group.end(&remark)
}

/// The rule of this seed and number, or none where it has no name, or another fault is met first.
fn judged(seed: u64, number: u64) -> Option<Judged> {
    let rng = &mut Rng::new(seed ^ 0x4A3E, number);
    let flags = rng.below(16) as u32;
    let style = rules::plain_style(rng, flags);
    let rule = damage::with_damaged_name(rng, style)?;
    let read = independent::read(&rule, flags);
    // Perl refuses `\g{01}`, point 6. A byte 85 under `x` is skipped elsewhere, point 15; Perl takes `\g{1a}` for `\g{1}`, and both take `\11` for an octal number, point 7.
    let is_by_name = |place: usize| match rule[place..] {
        [b'\\', b'g', b'{' | b'-', byte, ..] | [b'\\', b'g', byte, ..] => !byte.is_ascii_digit(),
        [b'\\', byte, ..] => byte == b'k',
        _ => true,
    };
    let is_asked = match &read {
        Ok(_) => !rule.windows(4).any(|bytes| bytes == b"\\g{0"),
        Err(refusal) => OF_NAMES.contains(&refusal.number) && is_by_name(refusal.place),
    };
    (is_asked && !rule.contains(&0x85)).then_some(Judged { rule, flags, read })
}

impl Judged {
    /// The class of a difference from another matcher.
    fn class(&self, other: Other) -> Option<Class> {
        match &self.read {
            Ok(tree) if other == Other::Perl => shape(tree).has_repeated_empty_class.then_some(Class::EmptyClass),
            Ok(_) => pcre2_refusal_class(&self.rule, Pattern::new(&self.rule, self.flags).err()?),
            Err(refusal) => name_class(&self.rule, *refusal, other),
        }
    }
}

struct Tester {
    group: Group,
    aside: SetAside,
    refused: [u64; 27],
    sound: u64,
}

impl Tester {
    fn batch(&mut self, cases: Vec<Judged>) {
        let questions: Vec<Question> = cases
            .iter()
            .map(|case| Question { rule: &case.rule, flags: case.flags, charset: Charset::Ascii, subject: b"", groups: 0, all: false })
            .collect();
        match perl::answers(&questions) {
            Err(error) => self.group.fail(&error),
            Ok(answers) => {
                for (case, answer) in cases.iter().zip(answers) {
                    self.judge(case, Other::Perl, !matches!(answer, Answer::Failed));
                    self.judge(case, Other::Pcre2, Pattern::new(&case.rule, case.flags).is_ok());
                }
            }
        }
    }

    /// Compares a verdict with another matcher's.
    fn judge(&mut self, case: &Judged, other: Other, takes: bool) {
        match &case.read {
            Err(refusal) => self.refused[refusal.number as usize] += 1,
            Ok(_) => self.sound += 1,
        }
        if takes == case.read.is_ok() {
            return self.group.pass();
        }
        match case.class(other) {
            Some(class) => self.aside.count(class),
            None => {
                let who = if other == Other::Perl { "Perl" } else { "PCRE2" };
                let verdict = if takes { "takes it" } else { "refuses it" };
                self.group.fail(&format!(
                    "`{}` flags {}: {who} {verdict}, here {:?}",
                    text::escaped(&case.rule),
                    case.flags,
                    case.read.as_ref().err()
                ));
            }
        }
    }
}
