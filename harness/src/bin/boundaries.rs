//! Calls at the limits of documents 01 and 02: each of refusals 1 to 8 at its last good and first bad value, all of them together in their order,
//! subjects of 65,535 bytes, the greatest budget, also within a reference and within what looks ahead or holds on, such parts as deep as they nest and one
//! deeper, every flag setting, rules of 1,000 bytes that `x` mostly skips, the
//! longest names and the most, least lengths beyond what is held, marks of every length around a rule's, as many successive matches as there can be,
//! lines of every length around the limit and result areas around what they need, proposals with as many branches as a check follows and one more, as many
//! choices as a budget allows, and every start around a line's length, and lookups at the edges of an index and of a row.

use harness::case::{shown, Case};
use harness::independent::check::{derivations, refused_by};
use harness::independent::tree::Rule;
use harness::independent::{
    read, Ending, ALL_FLAGS, ENTRY_LENGTH, FLAG_D, FLAG_I, FLAG_X, INDEX_LENGTH, LONGEST_NAME, MOST_GROUPS, PART_LENGTH, ROW_LENGTH, UNSET,
};
use harness::lender::Lender;
use harness::looker::{self, Looker};
use harness::raw::{Call, Lookup};
use harness::report::Group;

const CALLS: [Call; 6] = [Call::Match, Call::List, Call::Explain, Call::Scan, Call::Batch, Call::Check];

fn main() -> std::process::ExitCode {
    let mut group = Group::new("boundaries");
    let mut lender = Lender::default();
    for call in CALLS {
        refusals_in_order(&mut group, &mut lender, call);
        long_rules(&mut group, &mut lender, call);
        long_subjects(&mut group, &mut lender, call);
        greatest_budget(&mut group, &mut lender, call);
        long_reference(&mut group, &mut lender, call);
        rooms(&mut group, &mut lender, call);
        flags(&mut group, &mut lender, call);
        long_rules_with_blanks(&mut group, &mut lender, call);
        names(&mut group, &mut lender, call);
        index_lengths(&mut group, &mut lender, call);
        nesting(&mut group, &mut lender, call);
        far_ahead(&mut group, &mut lender, call);
    }
    least_lengths(&mut group, &mut lender);
    marks(&mut group, &mut lender);
    far_attempts(&mut group, &mut lender);
    most_matches(&mut group, &mut lender);
    line_lengths(&mut group, &mut lender);
    parts(&mut group, &mut lender);
    many_lines(&mut group, &mut lender);
    most_branches(&mut group, &mut lender);
    refused_checks(&mut group, &mut lender);
    starts(&mut group, &mut lender);
    long_paths(&mut group, &mut lender);
    lookups_by_index(&mut group);
    lookups_by_row(&mut group);
    group.end("")
}

fn judge(group: &mut Group, lender: &mut Lender, case: &Case) {
    let case = &with_proposal(case);
    let faults = lender.compare(case, &case.expected());
    let shown =
        if case.subject.len() + case.rule.len() > 500 { format!("a case with {} bytes of subject", case.subject.len()) } else { case.shown() };
    group.judge(&shown, &faults);
}

/// A check that is given no proposal gets the one of the first derivation that there is, within its budget, or else a start and a choice of each kind.
fn with_proposal(case: &Case) -> Case {
    if case.call != Call::Check || !case.proposal.is_empty() {
        return case.clone();
    }
    let proposed = |rule: &Rule| {
        let starts = if case.subject.len() > 1_000 { 0..=0 } else { 0..=case.subject.len() };
        starts.flat_map(|start| derivations(rule, &case.subject, start, u64::from(case.budget)).0).next()
    };
    let rule = read(&case.rule, case.flags).ok().filter(|rule| case.budget <= 100_000 && refused_by(rule).is_none());
    let proposal = rule.as_ref().and_then(proposed).map_or(vec![0, 0, 1, 0], |derivation| derivation.proposal);
    Case { proposal, ..case.clone() }
}

/// All 256 ways to break some of the eight limits by one: the lowest number is given, and nothing is changed. An explanation is lent no result area
/// and so never refused by 7; in place of that one, its marks have no room, which refuses nothing. A day's lines are never refused by 2: the line is.
fn refusals_in_order(group: &mut Group, lender: &mut Lender, call: Call) {
    for broken in 0u32..256 {
        let is_broken = |number: u32| broken >> (number - 1) & 1 == 1;
        let run = lender.run(&with_limits_broken(call, |number| usize::from(is_broken(number))));
        let mut faults = run.faults;
        let is_given = |number| !matches!((call, number), (Call::Explain, 7) | (Call::Batch, 2));
        let expected = (1..=8).find(|&number| is_broken(number) && is_given(number));
        let told = match run.answer.ending {
            Ending::Refused(refusal) => Some(refusal.number),
            _ => None,
        };
        let steps = match call {
            _ if expected.is_some() => 0,
            Call::Batch => 0,
            Call::Check => 1,
            _ => 65_536,
        };
        if told != expected || run.answer.steps != steps {
            faults.push(format!("expected refusal {expected:?} and {steps} steps, the library answers {}", shown(&run.answer)));
        }
        if expected.is_none() && call == Call::Batch {
            let outcomes: Vec<[u32; 4]> = run.answer.parts.iter().map(|part| part.outcome).collect();
            let outcome = if is_broken(2) { [3, 2, 0, 0] } else { [1, 0, 65_536, 0] };
            faults.extend((outcomes != [outcome]).then(|| format!("the line's outcome is {outcomes:?}")));
        }
        group.judge(&format!("limits broken: {broken:08b}"), &faults);
    }
}

/// A call with each limit just kept, or broken by one: `breaks` gives 1 for the numbers of those.
fn with_limits_broken(call: Call, breaks: impl Fn(u32) -> usize) -> Case {
    let budget = if breaks(4) == 1 { 100_001 } else { 100 };
    let room = if call == Call::Batch { PART_LENGTH } else { ROW_LENGTH };
    Case {
        call,
        rule: vec![b'b'; 1_000 + breaks(1)],
        flags: if breaks(3) == 1 { ALL_FLAGS + 1 } else { ALL_FLAGS },
        subject: vec![b'a'; 65_535 + breaks(2)],
        budget,
        rule_area: 16_384 - breaks(5),
        work_area: 16 * budget as usize - breaks(6),
        result_area: room - breaks(7),
        name_index: INDEX_LENGTH - breaks(8),
        marks: 1_000 * (1 - breaks(7)),
        // A start at the line's end, and nothing to choose.
        proposal: vec![0xFF; 2],
    }
}

/// Rules of 1,000 bytes that take much room when they are read.
fn long_rules(group: &mut Group, lender: &mut Lender, call: Call) {
    let rules = [
        "a".repeat(1_000),
        "a|".repeat(500),
        "|".repeat(1_000),
        "[^a]".repeat(250),
        "a?".repeat(500),
        "(?:)".repeat(250),
        "(?:|)".repeat(200),
        "\\b".repeat(500),
        "a{1,255}?".repeat(111),
        format!("{}{}", "()".repeat(MOST_GROUPS), "\\1".repeat(500 - MOST_GROUPS)),
        format!("{}{}{}", "(".repeat(24), "x".repeat(952), ")".repeat(24)),
        format!("{}{}", (10..42).map(|number| format!("(?<abcdefghijklm_{number}>)")).collect::<String>(), "\\g{abcdefghijklm_41}".repeat(14)),
        format!("{}{}{}", "(?:".repeat(24), "|".repeat(904), ")".repeat(24)),
        "\\R".repeat(500),
        "\\R*+".repeat(250),
        "a++".repeat(333),
        "a?+".repeat(333),
        "(?=)".repeat(250),
        "(?!b)".repeat(200),
        "(?>|a)".repeat(166),
        "(?=a)*+".repeat(142),
        format!("{}{}{}", "(?=".repeat(24), "\\R?+".repeat(226), ")".repeat(24)),
    ];
    for rule in &rules {
        judge(group, lender, &Case::new(call, rule.as_bytes(), 0, b"ab", 1_000, 3));
    }
}

/// 65,535 bytes, with walks that stay within the budget and with one that does not.
fn long_subjects(group: &mut Group, lender: &mut Lender, call: Call) {
    let mut subject = vec![b'a'; 65_535];
    for rule in [&br"\z"[..], br"\A(?:a{255}){128}", br"b", br"a\z", br"\n$", br"^a{255}|a{255}\z", br"(a)\1{200}\z"] {
        judge(group, lender, &Case::new(call, rule, 0, &subject, 1_000, 3));
    }
    for rule in [&br"(?=a)a\z"[..], br"(?!aa)(a)", br"(?>a|b)\z", br"a{9,200}+b", br"\R", br"a(?!(?=a))", br"(?=(a{200})\z)\1"] {
        judge(group, lender, &Case::new(call, rule, 0, &subject, 1_000, 3));
    }
    subject[65_534] = b'\n';
    for rule in [&br"a$"[..], br"^\z", br"\n^", br"[^a]"] {
        judge(group, lender, &Case::new(call, rule, 2, &subject, 1_000, 3));
    }
    for rule in [&br"a*"[..], br"(a)*", br"(?:a|b)*", br"a*?$", br"(a+)\1"] {
        judge(group, lender, &Case::new(call, rule, 0, &subject, 100_000, 1));
        judge(group, lender, &Case::new(call, rule, 0, &subject[..30_000], 100_000, 1));
    }
}

/// The greatest budget, used up to its last step, one short of the need, and on a rule without end.
fn greatest_budget(group: &mut Group, lender: &mut Lender, call: Call) {
    // `a*` on n bytes reaches its end with 2n + 3 steps.
    for length in [49_997, 49_998, 49_999] {
        judge(group, lender, &Case::new(call, b"a*", 0, &vec![b'a'; length], 100_000, 1));
    }
    for rule in [&br"(a*)*b"[..], br"(?:a|aa)+$", br"(a|b|ab)*?c"] {
        judge(group, lender, &Case::new(call, rule, 0, &[b'a'; 40], 100_000, 5));
    }
}

/// The three openings nest as groups do; `\R` and a possessive `+` nest nothing. One level less than there can be, the most, and more, of one kind and
/// mixed, closed and not.
fn nesting(group: &mut Group, lender: &mut Lender, call: Call) {
    let kinds = [&["(?>"][..], &["(?="], &["(?!"], &["(", "(?="], &["(?:", "(?!", "(?>"], &["(?!", "(?!", "(?<n", "("]];
    for openings in kinds {
        for depth in [23, 24, 25, 26] {
            // A name is used once.
            let named = |level: usize, opening: &str| if opening == "(?<n" { format!("(?<n{level}>") } else { opening.to_string() };
            let opened: String = openings.iter().cycle().take(depth).enumerate().map(|(level, opening)| named(level, opening)).collect();
            for inside in ["a", "", "\\R", "a*+", "\\R++", "(?=a)", "(?>", "(?!a"] {
                for closed in [depth, depth + 1, depth - 1] {
                    let rule = format!("{opened}{inside}{}", ")".repeat(closed));
                    judge(group, lender, &Case::new(call, rule.as_bytes(), 0, b"a\r\n", 300, 3));
                }
            }
        }
    }
}

/// What looks far ahead or holds on to much: captures at the other end of a long line, and the greatest budget used up to its last step inside it, at its
/// inner end and behind it.
fn far_ahead(group: &mut Group, lender: &mut Lender, call: Call) {
    let line = |length: usize| [vec![b'a'; length], b"b\r\n".to_vec()].concat();
    // `a*+` and `(?=a*)` take 2n + 5 steps on n bytes, with those of the end.
    for length in 49_995..50_000 {
        for rule in [&b"a*+"[..], b"(?=a*)", b"(?>(a*))", b"(?!a*+a)"] {
            judge(group, lender, &Case::new(call, rule, 0, &vec![b'a'; length], 100_000, 1));
        }
    }
    for rule in [&br"^(?=a*(b)(\R))a"[..], br"^(?>a*(b))\R", br"^a*+b\R\z", br"^(?!a*+b\n)a*+(b)", br"^(?=a*+(?=(b)))(a)(?!\1)\2"] {
        for length in [1, 20_000, 33_000, 49_000] {
            judge(group, lender, &Case::new(call, rule, 0, &line(length), 100_000, 2));
        }
    }
}

/// A reference of 26,662 bytes: budgets up to it, into it, up to its last byte and up to the rule's end.
fn long_reference(group: &mut Group, lender: &mut Lender, call: Call) {
    let run = |length| vec![b'a'; length];
    let subject = [run(10_001), run(26_662), run(26_662)].join(&b',');
    // The reference begins after 73,335 steps and takes 26,663; `$` and the rule's end have the last two of 100,000.
    for budget in [73_335, 73_336, 73_337, 90_000, 99_997, 99_998, 99_999, 100_000] {
        judge(group, lender, &Case::new(call, br"^a*,(a*),\1$", 0, &subject, budget, 1));
    }
}

/// Result areas around a whole number of rows; an explanation is lent none of them.
fn rooms(group: &mut Group, lender: &mut Lender, call: Call) {
    let around = |rows: usize| (rows * ROW_LENGTH).saturating_sub(1)..=rows * ROW_LENGTH + 1;
    for numbers in (0..=3).flat_map(around).chain([66, 132]) {
        for rule in ["", "a|a|(a)", "(a?)*"] {
            judge(group, lender, &Case { result_area: numbers, ..Case::new(call, rule.as_bytes(), 0, b"a", 100, 1) });
        }
    }
}

/// All flag settings on rules that tell each flag, and settings from the first unknown bit on, which are refused whatever bits lie below.
fn flags(group: &mut Group, lender: &mut Lender, call: Call) {
    for flags in (0..64).chain([64, 255, 256, 65_536, 1 << 31, (1 << 31) + 15, u32::MAX]) {
        for (rule, subject) in [(&b"a.b"[..], &b"A\nB"[..]), (b"^b $", b"a\nb"), (b"[^a] #\n*", b"A a"), (b"(a) \\1", b"aA"), (b"( ?:a", b"a")] {
            judge(group, lender, &Case::new(call, rule, flags, subject, 100, 2));
        }
    }
}

/// "1: rule over 1,000 bytes" counts the rule as it is written, and so does a place: what `x` skips is part of both.
fn long_rules_with_blanks(group: &mut Group, lender: &mut Lender, call: Call) {
    for length in [999, 1_000, 1_001] {
        for (before, filling, behind) in [
            ("", " ", "a"),
            ("a", "\t", ""),
            ("", "\n", ")"),
            ("a*", "\x0B", "*"),
            ("a#", "(", ""),
            ("#", "#", "\na"),
            ("#", "\\", "\n)"),
            ("(", "\r", ""),
        ] {
            let rule = format!("{before}{}{behind}", filling.repeat(length - before.len() - behind.len()));
            judge(group, lender, &Case::new(call, rule.as_bytes(), FLAG_X, b"a", 1_000, 3));
        }
        judge(group, lender, &Case::new(call, &b"a ".repeat(501)[..length], FLAG_X, b"a", 1_000, 3));
    }
}

/// Names of 16 and 17 bytes in groups and in each form of a reference, and as many groups with names as there can be, one less and one more, with
/// short names and with long ones.
fn names(group: &mut Group, lender: &mut Lender, call: Call) {
    for length in [1, 2, 15, 16, 17, 18, 255, 256, 257, 272, 900] {
        let name = "_z9".repeat(length)[..length].to_string();
        for (opening, closing) in [("\\k<", ">"), ("\\k{", "}"), ("\\k'", "'"), ("\\g{", "}")] {
            let reference = format!("{opening}{name}{closing}");
            for rule in [reference.clone(), format!("(?<{}>a){reference}", &name[..length.min(LONGEST_NAME)]), format!("{reference}|(?<n>a)")] {
                judge(group, lender, &Case::new(call, rule.as_bytes(), 0, b"aa", 100, 2));
            }
        }
        for rule in [format!("(?<{name}>a)"), format!("(?<{name}"), format!("(?<{name}>"), format!("(?<n>a)(?<{name}>a)")] {
            judge(group, lender, &Case::new(call, rule.as_bytes(), 0, b"aa", 100, 2));
        }
    }
    // In a rule of 1,000 bytes as many as that have names of so many bytes, with two digits at the end.
    let longest = (1_000 / (MOST_GROUPS + 3) - "(?<00>a?)".len()).min(LONGEST_NAME - 2);
    for groups in MOST_GROUPS - 1..=MOST_GROUPS + 2 {
        for (before, behind) in [("n", ""), (&"a23456789_bcdef"[..longest], ""), ("_", ")(")] {
            let rule: String = (0..groups).map(|number| format!("(?<{before}{number:02}>a?{behind})")).collect();
            judge(group, lender, &Case::new(call, rule.as_bytes(), 0, b"aa", 1_000, 2));
            // The last name once more: the first of all groups, or one too many.
            let twice = format!("(?<{before}{:02}>){rule}", groups - 1);
            judge(group, lender, &Case::new(call, twice.as_bytes(), 0, b"aa", 1_000, 2));
        }
    }
    // The longest name for the last group, and references to that and to the groups beside it.
    for groups in MOST_GROUPS - 1..=MOST_GROUPS + 1 {
        for reference in ["", "\\k<a23456789_bcdefZ>", &format!("\\{MOST_GROUPS}"), &format!("\\g{{{}}}", MOST_GROUPS + 1), "\\g{-1}"] {
            let rule = format!("{}(?<a23456789_bcdefZ>a){reference}", "(b?)".repeat(groups - 1));
            judge(group, lender, &Case::new(call, rule.as_bytes(), 0, b"baa", 1_000, 2));
        }
    }
    for flags in [0, FLAG_I, FLAG_X, FLAG_I | FLAG_X] {
        for rule in [
            "(?<a>a)(?<A>b)\\k<A>\\g{a}",
            "(?<a>a)\\k<A>",
            "(?< a>a)",
            "( ?<a>a)",
            "(?<a> a)\\k<a> {1}",
            "(?<a>)\\k {a}",
            "(?<a>)\\g{a }",
            "(?<#>)#\n",
        ] {
            judge(group, lender, &Case::new(call, rule.as_bytes(), flags, b"abBA", 100, 2));
        }
    }
}

/// An index that is short is refused after the result area and before the rule is read; bytes behind what it needs stay as they are.
fn index_lengths(group: &mut Group, lender: &mut Lender, call: Call) {
    let enough = INDEX_LENGTH;
    for name_index in [0, 1, 16, 17, 18, 543, 544, 545, enough - 1, enough, enough + 1, enough + ENTRY_LENGTH, 2 * enough, 5_000] {
        for rule in ["", "(?<n>a)", "()(?<n>a)|(?<m>b)", "(?<n>a", "(?<n>a)(?<n>b)", "b"] {
            let case = Case::new(call, rule.as_bytes(), 0, b"a", 100, 1);
            judge(group, lender, &Case { name_index, result_area: ROW_LENGTH - 1, ..case.clone() });
            judge(group, lender, &Case { name_index, budget: 1, ..case.clone() });
            judge(group, lender, &Case { name_index, ..case });
        }
    }
}

/// Least lengths up to and beyond what is held, in repeats that nest and in parts that follow one another: none of them is 0 where a number is too small
/// for it.
fn least_lengths(group: &mut Group, lender: &mut Lender) {
    for (bound, levels) in [(2, 23), (4, 16), (16, 16), (64, 11), (128, 5), (255, 23), (256, 1)] {
        for inside in ["a", "a?", "", "ab|", "^", "[^\\d\\D]"] {
            let nested = format!("{}{inside}{}", "(?:".repeat(levels), format!("){{{bound}}}").repeat(levels));
            for rule in
                [format!("(?:{nested})*"), format!("(?:{nested}{nested})+?"), format!("(?:{nested}|b){{0,}}"), format!("(?:{nested}|b?){{0,}}")]
            {
                judge(group, lender, &Case::new(Call::Match, rule.as_bytes(), FLAG_D, b"ab", 300, 1));
            }
        }
    }
}

/// Marks of every length around the rule's, after each answer: written as far as they go, and for "not matched" alone.
fn marks(group: &mut Group, lender: &mut Lender) {
    let tank = &br"^tank (\w+): (\d+) L$"[..];
    for (rule, subject, budget) in [
        (tank, &b"tank A1 820 L"[..], 100),
        (tank, b"tank A1: 820 L", 100),
        (tank, b"tank A1 820 L", 16),
        (br"^tank (\w+: (\d+) L$", b"tank A1 820 L", 100),
        (b"", b"", 100),
        (b"a", b"", 100),
        (br"(?<a>a)\k<a>", b"ab", 100),
    ] {
        for marks in 0..=rule.len() + 40 {
            judge(group, lender, &Case { marks, ..Case::new(Call::Explain, rule, 0, subject, budget, 1) });
        }
    }
    // The longest rules: each of their items fails, from the first to the last or the other way round; the last alone; and one byte too many.
    let many =
        [format!("{}b", "a?".repeat(499)), "a|".repeat(499) + "aa", format!("{}a", "[^a]*?".repeat(166)), "a".repeat(1_000), "a".repeat(1_001)];
    for rule in &many {
        for marks in [0, 1, 998, 999, 1_000, 1_001, 1_002, 2_000] {
            for subject in [&b""[..], b"b", &[b'a'; 999]] {
                judge(group, lender, &Case { marks, ..Case::new(Call::Explain, rule.as_bytes(), 0, subject, 2_000, 1) });
            }
        }
    }
}

/// The closest attempt at the beginning, within and at the end of the longest line, and one over all of it.
fn far_attempts(group: &mut Group, lender: &mut Lender) {
    for start in [0, 1, 32_767, 32_768, 65_529, 65_530, 65_534, 65_535] {
        let subject = [&vec![b'a'; start][..], b"tank ", &vec![b'a'; 65_535 - start]].concat();
        judge(group, lender, &Case::new(Call::Explain, br"tank \d", 0, &subject[..65_535], 1_000, 1));
    }
    for (rule, length) in [(&br"\A(?:a{255}){128}b"[..], 32_640), (br"\A(?:a{255}){128}b", 32_641), (br"^((?:a{100}){100})\1b", 20_000)] {
        judge(group, lender, &Case::new(Call::Explain, rule, 0, &vec![b'a'; length], 100_000, 1));
    }
}

/// As many matches as a line can have, each with the least budget: on the longest line twice as many tries as it has starts, with a row more, just
/// enough and one less.
fn most_matches(group: &mut Group, lender: &mut Lender) {
    let subject = vec![b'a'; 65_535];
    for rows in [1, 2, 65_535, 65_536, 65_537] {
        judge(group, lender, &Case::new(Call::Scan, b"", 0, &subject, 1, rows));
        judge(group, lender, &Case::new(Call::Scan, b"a", 0, &subject, 2, rows));
    }
    // Two matches from each start.
    for rows in [1_999, 2_000, 2_001, 2_002] {
        for (rule, budget) in [(&b"a??"[..], 5), (b"|a", 4), (b"(|.)", 6), (b"(?:|a)", 3)] {
            judge(group, lender, &Case::new(Call::Scan, rule, 0, &subject[..1_000], budget, rows));
        }
    }
    for rule in [&br"(?:a{255}){10}"[..], br"a{255}$", br"\A|\z", br"\Z\n?", br"^", br"$"] {
        for flags in [0, 2] {
            let line = [&subject[..3_000], b"\n", &subject[..3_000], b"\n"].concat();
            judge(group, lender, &Case::new(Call::Scan, rule, flags, &line, 10_000, 9));
        }
    }
}

/// Lines of each length around the limit, first, last and between others, with and without an 0A behind them.
fn line_lengths(group: &mut Group, lender: &mut Lender) {
    for length in [65_534, 65_535, 65_536, 65_537, 131_072] {
        let long = vec![b'a'; length];
        for (before, behind) in [(&b""[..], &b"\nb"[..]), (b"b\n", b""), (b"b\n", b"\n\nb\n")] {
            let buffer = [before, &long, behind].concat();
            for rule in ["b", r"a\z", "(", "(?<n>b)"] {
                judge(group, lender, &Case::new(Call::Batch, rule.as_bytes(), 0, &buffer, 10, 4));
            }
        }
        let all_long = [&long[..], &long, &long].join(&b'\n');
        judge(group, lender, &Case::new(Call::Batch, br"a\z", 0, &all_long, 10, 3));
    }
}

/// Result areas of each length around what no, one, two and three lines need: 7 exactly if lines outnumber parts.
fn parts(group: &mut Group, lender: &mut Lender) {
    for buffer in ["", "\n", "a", "a\n", "\r\n", "\n\n", "a\nb", "\na\n", "a\n\nb", "\n\n\n"] {
        let around = |parts: usize| (parts * PART_LENGTH).saturating_sub(1)..=parts * PART_LENGTH + 1;
        for numbers in (0..=3).flat_map(around).chain([66, 70, ROW_LENGTH, 2 * ROW_LENGTH, 3 * ROW_LENGTH, 4 * PART_LENGTH]) {
            for rule in ["", "a", "(?<n>a)|(b)", "a**", "a{9}"] {
                judge(group, lender, &Case { result_area: numbers, ..Case::new(Call::Batch, rule.as_bytes(), 0, buffer.as_bytes(), 9, 1) });
            }
        }
    }
}

/// More bytes in all than a line may have, 0A alone among them, with a part too few, enough and one more.
fn many_lines(group: &mut Group, lender: &mut Lender) {
    for (buffer, lines) in [(b"\n".repeat(65_536), 65_536), (b"a\nb\r\n\n".repeat(12_000), 36_000), (b"ab\n".repeat(25_000), 25_000)] {
        for parts in [lines - 1, lines, lines + 1] {
            for rule in ["", "b", "(?<n>a)|b"] {
                judge(group, lender, &Case::new(Call::Batch, rule.as_bytes(), 0, &buffer, 5, parts));
            }
        }
    }
}

/// As many branches as a check follows, one less and one more, each proposed by its number, and the number behind the last; in brackets, in each other and
/// beside each other.
fn most_branches(group: &mut Group, lender: &mut Lender) {
    for branches in [2, 3, 254, 255, 256, 257, 258, 400] {
        let bars = "|".repeat(branches - 1);
        for number in [0, 1, 2, 127, 128, 253, 254, 255] {
            for rule in
                [bars.clone(), format!("a?({bars})"), format!("(?:{bars}){{2}}"), format!("(?:{bars})(?:{bars})"), format!("a|(?:{bars})|{bars}")]
            {
                for choices in [&[][..], &[number], &[number; 2], &[1, number], &[number, 0, number], &[number; 3]] {
                    judge(group, lender, &Case::check(rule.as_bytes(), 0, b"a", 20, &[&[0, 0], choices].concat()));
                }
            }
            // Each branch takes as many letters as its number says.
            let counted: Vec<String> = (0..branches.min(30)).map(|letters| "a".repeat(letters)).collect();
            judge(group, lender, &Case::check(counted.join("|").as_bytes(), 0, &[b'a'; 30], 100, &[0, 0, number]));
        }
    }
}

/// What a check alone is refused for, behind, before and inside what every call is: 1 to 8 come first, then the rule's own, then 35, then 36. Nothing is
/// written by one that is refused, however much room there is.
fn refused_checks(group: &mut Group, lender: &mut Lender) {
    let (many, most) = ("|".repeat(256), "|".repeat(255));
    let forms = ["(?=a)", "(?!a)", "(?>a)", "\\R", "a*+", "a{2}+", "(?:b(?=a))*", "((?!))?+"];
    let others = ["", "\\1", "(", "[z-a]", "a**", "()*", "[A-z]", "(a)\\1", "\\q"];
    for flags in [0, FLAG_D, FLAG_X, FLAG_I] {
        for bars in [&many, &most, ""] {
            for form in forms.iter().chain(&[""]) {
                for other in others {
                    for rule in [format!("{bars}{form}{other}"), format!("{other}{form}(?:{bars})"), format!("(?:{form}{bars}){other}")] {
                        let case = Case::check(rule.as_bytes(), flags, b"a", 30, &[0, 0, 0]);
                        judge(group, lender, &case);
                        judge(group, lender, &Case { result_area: 3 * ROW_LENGTH, name_index: INDEX_LENGTH + 5, ..case.clone() });
                        judge(group, lender, &Case { result_area: ROW_LENGTH - 1, name_index: INDEX_LENGTH - 1, ..case.clone() });
                        judge(group, lender, &Case { name_index: INDEX_LENGTH - 1, ..case.clone() });
                        judge(group, lender, &Case { work_area: 16 * 30 - 1, ..case });
                    }
                }
            }
        }
    }
}

/// Every start around a line's length, on lines of every length around a byte's and a number's limit, with no step, one, and enough.
fn starts(group: &mut Group, lender: &mut Lender) {
    for length in [0, 1, 2, 254, 255, 256, 257, 511, 512, 513, 32_767, 32_768, 65_279, 65_280, 65_534, 65_535] {
        let subject = vec![b'a'; length];
        for start in [0, 1, 255, 256, length.saturating_sub(1), length, length + 1, length + 256, 65_535].into_iter().filter(|&start| start <= 65_535)
        {
            for rule in ["", "a", r"\z", "(a)"] {
                for budget in [0, 1, 9] {
                    judge(group, lender, &Case::check(rule.as_bytes(), 0, &subject, budget, &(start as u16).to_le_bytes()));
                }
            }
        }
    }
}

/// Paths as long as a budget allows and longer, choices left over by the thousand, and proposals longer than any path.
fn long_paths(group: &mut Group, lender: &mut Lender) {
    let choices = |rounds: usize, more: &[u8]| [&[0, 0][..], &vec![1; rounds], more].concat();
    // `a*` takes 2n + 2 steps along n rounds.
    for rounds in [49_998, 49_999, 50_000] {
        for more in [&[0][..], &[], &[0, 0], &[1], &[2]] {
            judge(group, lender, &Case::check(b"a*", 0, &[b'a'; 50_000], 100_000, &choices(rounds, more)));
        }
    }
    for length in [65_535, 65_536, 100_000, 300_000] {
        for rule in ["", "a*", "(?:a|b)*", "(?:)*", "a{3}"] {
            judge(group, lender, &Case::check(rule.as_bytes(), 0, &[b'a'; 65_535], 100_000, &choices(length, &[])));
            judge(group, lender, &Case::check(rule.as_bytes(), 0, b"aaa", 10, &choices(length, &[])));
        }
    }
    // A reference of 26,662 bytes along the path, up to each of its edges.
    let run = |length| vec![b'a'; length];
    let subject = [run(10_001), run(26_662), run(26_662)].join(&b',');
    let proposal = [&[0, 0][..], &vec![1; 10_001], &[0], &vec![1; 26_662], &[0]].concat();
    for budget in [73_335, 73_336, 73_337, 90_000, 99_997, 99_998, 99_999, 100_000] {
        judge(group, lender, &Case::check(br"^a*,(a*),\1$", 0, &subject, budget, &proposal));
    }
}

/// Which entry counts, in indices of every length up to two entries more than count: the last whole one among those, and of two that have the name the
/// first.
fn lookups_by_index(group: &mut Group) {
    let looker = &mut Looker::default();
    // Every group has a span of its own.
    let row: Vec<u32> = [0, LINE as u32].into_iter().chain((1..=MOST_GROUPS as u32).flat_map(|number| [number, number + 1])).collect();
    let entry = |name: &[u8], padding: u8| {
        let mut entry = vec![padding; ENTRY_LENGTH];
        entry[0] = name.len() as u8;
        entry[1..=name.len()].copy_from_slice(name);
        entry
    };
    for entries in 1..=MOST_GROUPS + 2 {
        for padding in [0, b'n', 0xFF] {
            let mut names = entry(b"m", padding).repeat(entries - 1);
            names.extend(entry(b"n", padding));
            for length in [names.len() - ENTRY_LENGTH, names.len() - ENTRY_LENGTH + 1, names.len() - 1, names.len()] {
                judge_lookup(group, looker, Lookup { names: &names[..length], ..asked(b"n", &row) });
                judge_lookup(group, looker, Lookup { names: &[&names[..length], &entry(b"n", 0)].concat(), ..asked(b"n", &row) });
            }
        }
    }
    // A name of each length against each length byte, with the bytes that fit.
    for byte in (0..=18).chain([31, 32, 33, 63, 64, 65, 127, 128, 254, 255]) {
        for length in 0..=18 {
            let names: Vec<u8> = std::iter::once(byte).chain([b'a'; 16]).chain(entry(b"a", 0)).collect();
            judge_lookup(group, looker, Lookup { names: &names, ..asked(&[b'a'; 18][..length], &row) });
        }
    }
}

/// More than the groups that a rule can have.
const LINE: usize = MOST_GROUPS + 8;

/// A line that matched, and a standing text.
fn asked<'a>(name: &'a [u8], row: &'a [u32]) -> Lookup<'a> {
    Lookup { name, names: b"\x01n\0\0\0\0\0\0\0\0\0\0\0\0\0\0\0", line: &[b'x'; LINE], kind: 0, row, standing: b"standing" }
}

/// Each number of a row at each value that tells whether a rule is broken, rows that are longer or shorter than a row, and every kind.
fn lookups_by_row(group: &mut Group) {
    let looker = &mut Looker::default();
    let good: Vec<u32> = [10, 30].into_iter().chain((0..MOST_GROUPS).flat_map(|pair| if pair % 2 == 0 { [12, 20] } else { [UNSET; 2] })).collect();
    let length = LINE as u32;
    for kind in (0..=6).chain([256, 65_536, 1 << 31, u32::MAX]) {
        judge_lookup(group, looker, Lookup { kind, ..asked(b"n", &good) });
    }
    for at in 0..ROW_LENGTH {
        for value in [0, 9, 10, 11, 12, 13, 19, 20, 21, 29, 30, 31, length - 1, length, length + 1, 65_535, 1 << 31, UNSET - 1, UNSET] {
            let mut row = good.clone();
            row[at] = value;
            judge_lookup(group, looker, asked(b"n", &row));
            // The same with the pair's other number: both of them moved, or both unset.
            row[at ^ 1] = value;
            judge_lookup(group, looker, asked(b"n", &row));
        }
    }
    for numbers in (0..=4).chain([64, 65, 66, 67]).chain(ROW_LENGTH - 2..=ROW_LENGTH + 2).chain([2 * ROW_LENGTH]) {
        for more in [0, 15, UNSET] {
            let mut row = good.clone();
            row.resize(numbers, more);
            judge_lookup(group, looker, asked(b"n", &row));
        }
    }
    // On an empty line only empty spans fit, and only unset ones where there is no span.
    let (zeros, unset) = (vec![0; ROW_LENGTH], vec![UNSET; ROW_LENGTH]);
    for (row, line) in [(zeros.clone(), 0), (zeros.clone(), 1), (unset.clone(), LINE), ([&zeros[..2], &unset[2..]].concat(), 0)] {
        judge_lookup(group, looker, Lookup { line: &[b'x'; LINE][..line], ..asked(b"n", &row) });
        judge_lookup(group, looker, Lookup { line: &[b'x'; LINE][..line], standing: b"", ..asked(b"n", &row) });
    }
}

fn judge_lookup(group: &mut Group, looker: &mut Looker, lookup: Lookup) {
    let faults = looker.compare(&lookup);
    group.judge(&looker::shown(&lookup), &faults);
}
