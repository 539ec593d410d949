//! The cases of the benchmark, by what they show.

use super::table::grouped;
use super::Case;
use crate::independent::{FLAG_I, FLAG_X};
use crate::random::Rng;
use crate::raw::Call;

/// The gateway's budget.
const GATEWAY: u32 = 1_000;
const LONGEST_SUBJECT: usize = 65_535;
/// A text in which none of the rules below finds anything, though some of their words begin like some of its.
const TEXT: &[u8] = b"the tank is filled with milk and the pump runs until the level is near the end of its scale ";
const WORDS: &str = "alpha|bravo|charlie|delta|echo|foxtrot|golf|hotel|india|juliett|kilo|lima|mike|november|oscar|papa|quebec|romeo|sierra|tango";

pub fn all() -> Vec<Case> {
    let kinds = [
        gateway(),
        short(),
        long_scans(),
        skipped_scans(),
        alternations(),
        classes(),
        class_heavy(),
        references(),
        plain_walks(),
        ignoring_case(),
        with_spaces(),
        with_names(),
        catastrophes(),
        holding_on(),
        listings(),
    ];
    kinds.into_iter().flatten().collect()
}

/// The cases whose name has this in it; all for the empty text.
pub fn named(words: &str) -> Vec<Case> {
    all().into_iter().filter(|case| case.name.contains(words)).collect()
}

/// A case; its name tells the budget if that is not the gateway's.
fn case(call: Call, name: &str, rule: &str, subject: &[u8], budget: u32, room: usize) -> Case {
    let mut name = name.replace('|', "\\|");
    if budget != GATEWAY {
        name += &format!(", budget {}", grouped(u64::from(budget)));
    }
    Case { name, call, rule: rule.into(), flags: 0, subject: subject.to_vec(), budget, room, match_limit: None }
}

/// The case under a flag, which its name tells.
fn under(flag: u32, letter: char, case: Case) -> Case {
    Case { name: format!("{}, under `{letter}`", case.name), flags: flag, ..case }
}

/// A match, named by its rule.
fn matching(what: &str, rule: &str, subject: &[u8], budget: u32) -> Case {
    case(Call::Match, &format!("{what}: `{rule}`, {} bytes", grouped(subject.len() as u64)), rule, subject, budget, 1)
}

/// The text as often as it takes, and at its very end this.
pub fn text_and(length: usize, end: &str) -> Vec<u8> {
    let before = TEXT.iter().copied().cycle().take(length - end.len());
    before.chain(end.bytes()).collect()
}

fn gateway() -> Vec<Case> {
    let one = |what, rule, line: &str| matching(what, rule, line.as_bytes(), GATEWAY);
    vec![
        case(Call::Match, "gateway: empty rule, empty line", "", b"", GATEWAY, 1),
        one("gateway", r"^(?:(\d{1,3},\d{3})|(\d+,\d+)) L$", "1234567,5 L"),
        one("gateway", r"^(\d{4})-(\d\d)-(\d\d) (\w+)=(\d+)$", "2024-05-17 tank07=1500"),
        one("gateway", r"^([^;]*);([^;]*);([^;]*);([^;]*)$", "17.05.2024;tank 07;1500 L;4,2 C"),
        one("gateway", r"temp=(-?\d+\.\d) level=(\d+)%", "hall 3 tank 07 pump on valve open since 06:15 by hand temp=4.2 level=87% ok"),
        one(
            "gateway, not matched",
            r"(?:ERROR|ALARM|FAULT) [A-Z]\d{3}",
            "hall 3 tank 07 pump on valve open since 06:15 by hand ALARM none temp=4.2 level=87% ERR 0 FAULTS 0",
        ),
    ]
}

/// Calls with hardly any walk. What a library prepares in order to walk faster is paid here, and brings nothing in.
fn short() -> Vec<Case> {
    let on = |call, what, rule, line: &str, room| case(call, &format!("{what}: `{rule}` on `{line}`"), rule, line.as_bytes(), GATEWAY, room);
    vec![
        on(Call::Match, "short", "a", "a", 1),
        on(Call::Match, "short, not matched", "a", "b", 1),
        on(Call::Match, "short", r"\d+", "12", 1),
        matching("short, not matched", "x?y", &text_and(20, ""), GATEWAY),
        case(Call::Match, "short: alternation of twenty words, the last one alone on 5 bytes", &twenty_words(), b"tango", GATEWAY, 1),
        on(Call::List, "short listing", "(a|b)", "ab", 2),
        case(Call::List, "short listing: `a*` on the empty line", "a*", b"", GATEWAY, 1),
    ]
}

fn long_scans() -> Vec<Case> {
    vec![
        matching("long scan, missing", "needle", &text_and(LONGEST_SUBJECT, "."), GATEWAY),
        matching("long scan, at the end", r"\d+,\d+", &text_and(LONGEST_SUBJECT, "12,5"), GATEWAY),
        matching("long scan, at the end", "[#-&]", &text_and(LONGEST_SUBJECT, "#"), GATEWAY),
        matching("scan that nearly every byte can begin", r".\d", &text_and(4_000, "4"), GATEWAY),
    ]
}

/// Rules of several shapes that no start but the last few, or the first, can begin with.
fn skipped_scans() -> Vec<Case> {
    let scan = |what, rule, end| matching(what, rule, &text_and(LONGEST_SUBJECT, end), GATEWAY);
    let few_rows = r"listing: `(\d+),`, 2 rows at the end of 65,535 bytes";
    vec![
        scan("skipped scan, group", r"(\d+),(\d+)", "12,5"),
        scan("skipped scan, branches", r"(?:\d+|#),x", "12,x"),
        scan("skipped scan, no minimum", r"-?\d+\.\d", "-4.2"),
        scan("skipped scan, missing at start 0", "^#", "."),
        scan("skipped scan, missing at start 0", r"\A\d", "."),
        case(Call::List, few_rows, r"(\d+),", &text_and(LONGEST_SUBJECT, "12,"), GATEWAY, 2),
    ]
}

fn twenty_words() -> String {
    format!("(?:{WORDS})")
}

fn alternations() -> Vec<Case> {
    let one = |name, length| case(Call::Match, name, &twenty_words(), &text_and(length, "tango"), GATEWAY, 1);
    vec![
        one("alternation of twenty words, the last one at the end of 80 bytes", 80),
        one("alternation of twenty words, the last one at the end of 65,535 bytes", LONGEST_SUBJECT),
    ]
}

fn classes() -> Vec<Case> {
    let setting = b"plant.hall3.tank_07.pump = speed 1450 rpm, mode auto;";
    vec![
        matching("classes", r"^[A-Za-z_][A-Za-z0-9_]*(?:\.[A-Za-z_][A-Za-z0-9_]*)*\s*[=:]\s*[^;#]+;", setting, GATEWAY),
        matching("classes", "[[:alpha:]]+[[:digit:]]+[[:punct:]]", &text_and(4_000, "tank07;"), GATEWAY),
        matching("classes", "[a-f]*[d-k]*x", &[&b"abcdef".repeat(30)[..], b".x"].concat(), 10_000),
    ]
}

/// Bytes of all kinds that classes are made for, in an order without any; behind them an `x`, which none of them is.
fn mixed(length: usize) -> Vec<u8> {
    let kinds: [&[u8]; 7] = [b"aeiou", b"bcdfgklmnprstvz", b"AEIOU", b"BCDFGKLMNPRSTVZ", b"0123456789", b".,;:-_+()", b" \t\n\xA0\xC9\xE9"];
    let rng = &mut Rng::new(4, 0);
    let mut byte = || {
        let kind = rng.weighted(&[20, 30, 8, 12, 12, 8, 10]);
        *rng.pick(kinds[kind])
    };
    (1..length).map(|_| byte()).chain([b'x']).collect()
}

/// Walks that ask of nearly every step whether a byte is in a class: small and large ones, complemented, of sets, of ranges and of single bytes.
fn class_heavy() -> Vec<Case> {
    let heavy = |rule| matching("class-heavy", rule, &mixed(16_000), GATEWAY);
    let sets = r"[[:alpha:]\d_][[:^space:]][^[:^lower:]z][\h.,;-]+x";
    vec![
        heavy(r"(?:[aeiou][^aeiou]|[[:upper:]][[:^digit:]]|[\w.-]\W)*x"),
        heavy(r"[^\d\s][^a-m][^[:punct:]][^A-Z]x"),
        heavy(sets),
        heavy(r"(?:[b-df-hj-np-tv-z][aeiou]){2,}[^\w]x"),
        heavy(r"[\w.-]+[^\x00-\x1F\x80-\xFF]x"),
        under(FLAG_I, 'i', heavy(r"(?:[aeiou][^aeiou]|[b-dF-Hj-m][[:^lower:]]|[\d.-]\W)*x")),
        under(FLAG_I, 'i', heavy(sets)),
        under(FLAG_I, 'i', heavy(r"(?:[^aeiou\d]|[A-C][^X-Z])+?[0-4]x")),
    ]
}

/// The same kinds of rules as above, on lines whose letters are of either case.
fn ignoring_case() -> Vec<Case> {
    let one = |rule, line: &[u8]| under(FLAG_I, 'i', matching("ignoring case", rule, line, GATEWAY));
    let words = case(
        Call::Match,
        "ignoring case: alternation of twenty words at the end of 4,000 bytes",
        &twenty_words(),
        &text_and(4_000, "TanGo"),
        GATEWAY,
        1,
    );
    vec![
        one(
            r"(?:error|alarm|fault) [a-z]\d{3}",
            b"hall 3 tank 07 pump on valve open since 06:15 by hand ALARM none temp=4.2 level=87% ERR 0 FAULTS 0",
        ),
        one("needle", &text_and(LONGEST_SUBJECT, "NeEdLE")),
        under(FLAG_I, 'i', words),
        one(r"\b(\w+) \1\b", &text_and(1_000, "pump PUMP")),
        one("^(a*)b\\1$", &[vec![b'a'; 200], vec![b'B'], vec![b'A'; 200]].concat()),
    ]
}

/// Rules of the gateway with spaces and comments in them: what these cost is reading them.
fn with_spaces() -> Vec<Case> {
    let one = |rule, line: &str| under(FLAG_X, 'x', matching("with spaces", rule, line.as_bytes(), GATEWAY));
    vec![
        one(r"^ (?: ( \d{1,3} , \d{3} ) | ( \d+ , \d+ ) ) \  L $", "1234567,5 L"),
        one(r"^ (\d{4}) - (\d\d) - (\d\d) \  (\w+) = (\d+) $  # the date, what was measured, and the value", "2024-05-17 tank07=1500"),
    ]
}

/// Rules of the gateway with names, one that refers by name, and one with as many names as there can be, each of which is compared with all before it.
fn with_names() -> Vec<Case> {
    let one = |rule, line: &str| matching("with names", rule, line.as_bytes(), GATEWAY);
    let most: String = (1..=32).map(|number| format!("(?<of_the_tank_{number:02}>a)")).collect();
    vec![
        one(r"^(?<year>\d{4})-(?<month>\d\d)-(?<day>\d\d) (?<what>\w+)=(?<value>\d+)$", "2024-05-17 tank07=1500"),
        one(r"^(?<tank>\w+) (?<litres>\d+) L \k<tank>$", "tank07 1500 L tank07"),
        case(Call::Match, "with names: 32 names of 14 bytes, 32 bytes", &most, &[b'a'; 32], GATEWAY, 1),
    ]
}

fn references() -> Vec<Case> {
    let equal = [vec![b'a'; 200], vec![b'b'], vec![b'a'; 200]].concat();
    vec![
        matching("reference", r"\b(\w+) \1\b", &text_and(1_000, "pump pump"), GATEWAY),
        matching("reference", r#"(["']).*?\1"#, br#"set name of tank 07 to "it's the milk of hall 3" and go on"#, GATEWAY),
        matching("reference", r"^(a*)b\1$", &equal, GATEWAY),
    ]
}

/// Walks with no run in them: groups, branches, counted and lazy repeats, node by node.
fn plain_walks() -> Vec<Case> {
    let before_cb = |bytes: &[u8], times| [&bytes.repeat(times)[..], b"cb"].concat();
    vec![
        matching("groups", "(?:(a)|(b))*d", &[&b"ab".repeat(100)[..], b"cd"].concat(), 10_000),
        matching("counted repeats", "(?:(?:a{1,3}){1,3}){1,9}b", &before_cb(b"a", 9), 100_000),
        matching("lazy repeats", "(a+?)*b", &before_cb(b"a", 12), 100_000),
    ]
}

/// PCRE2's limit counts the choices that it keeps for later, not steps. Those below let it do as much as a budget of 100,000 steps lets the
/// library: on lines that both walk to the end, 3 choices go with 11 steps of the first rule, and with 8 of the second.
fn catastrophes() -> Vec<Case> {
    let walked = [&[b'a'; 12][..], b"cb"].concat();
    let cut = |rule, match_limit| Case { match_limit: Some(match_limit), ..matching("catastrophe, cut off", rule, &[b'a'; 30], 100_000) };
    vec![
        matching("catastrophe, walked through", "(a*)*b", &walked, 100_000),
        matching("catastrophe, walked through", "(a|a)*b", &walked, 100_000),
        cut("(a*)*b", 27_273),
        cut("(a|a)*b", 37_500),
    ]
}

/// Walks up to the budget that go back over held parts and looking ahead again and again.
fn holding_on() -> Vec<Case> {
    let cut = |rule| Case { match_limit: Some(37_500), ..matching("holding on, cut off", rule, &[b'a'; 30], 100_000) };
    ["((?>a*)|a)*b", "((?>a)|a)*b", "(a++|a)*b", "((?=(a))a|a)*b", "((?!b)a|a)*b", "((?>(a)|b)|a)*b"].into_iter().map(cut).collect()
}

fn listings() -> Vec<Case> {
    let mut cases = Vec::new();
    for (rows, budget) in [(10, GATEWAY), (100, GATEWAY), (1_000, 10_000), (20_000, 100_000)] {
        let name = format!("listing: `^(.*)`, {} rows from one start", grouped(rows as u64));
        cases.push(case(Call::List, &name, "^(.*)", &vec![b'a'; rows - 1], budget, rows));
    }
    for length in [4, 14, 45, 200] {
        let rows = length * (length + 1) / 2;
        let name = format!("listing: `(a+)`, {} rows from {length} starts", grouped(rows as u64));
        cases.push(case(Call::List, &name, "(a+)", &vec![b'a'; length], GATEWAY, rows));
    }
    let same_span = "listing: `^(a*)(a*)(a*)$`, 990 rows from one start, all of one span";
    cases.push(case(Call::List, same_span, "^(a*)(a*)(a*)$", &[b'a'; 43], 100_000, 990));
    let twice = "listing: `^(?:.*|.*)`, 1,000 rows from one start, each met twice";
    cases.push(case(Call::List, twice, "^(?:.*|.*)", &[b'a'; 999], 10_000, 1_000));
    cases
}
