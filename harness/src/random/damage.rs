//! Rules that are mostly refused: sound ones with bytes changed, cut or doubled, or with blanks at odd places, rules at the limits, pieces of names
//! in any order, and bytes that are no rule at all.

use super::rules::{self, Style};
use super::Rng;
use crate::independent::{LONGEST_NAME, MOST_GROUPS};

/// Bytes that mean something in a rule.
const MEANT: &[u8] = b"\\\\\\()[]{}|*+?^$.-:,=!<>'0123456789abcdghknoswxzABDEGKLNQRSUVWXZ_# \t\n\x00\x85\xFF";

/// A rule with one to three faults.
pub fn damaged(rng: &mut Rng, style: Style) -> Vec<u8> {
    let mut rule = rules::rule(rng, style);
    let times = rng.between(1, 3);
    for _ in 0..times {
        damage(rng, &mut rule);
    }
    rule
}

/// A rule with blanks or comments anywhere: behind a backslash, inside braces, in a class, between a repeat and its `?`, between `(` and `?`.
pub fn with_odd_blanks(rng: &mut Rng, style: Style) -> Vec<u8> {
    let mut rule = rules::rule(rng, style);
    let times = rng.between(1, 3);
    for _ in 0..times {
        let places: Vec<usize> = (0..=rule.len()).filter(|&at| !style.plain || !is_in_name(&rule, at)).collect();
        // Mostly right behind a byte after which it makes a difference.
        let telling: Vec<usize> = places.iter().copied().filter(|&at| at > 0 && b"\\({[?*+}:,x1<k'>=!R".contains(&rule[at - 1])).collect();
        let at = if telling.is_empty() || rng.percent(40) { *rng.pick(&places) } else { *rng.pick(&telling) };
        let blank = *rng.pick(&[" ", " ", "\t", "\n", "\x0B", "#", "#\n", "# )\n"]);
        rule.splice(at..at, blank.bytes());
    }
    rule
}

/// Is this place between `[:` and `:]`? With a byte there that is no letter, the `[` is a literal here, and other matchers refuse it.
fn is_in_name(rule: &[u8], at: usize) -> bool {
    let last = |mark: &[u8; 2]| rule[..at].windows(2).rposition(|pair| pair == mark);
    rule.get(at - at.min(1)..=at).is_some_and(|pair| pair == b"[:" || pair == b":]") || last(b"[:") > last(b":]")
}

fn damage(rng: &mut Rng, rule: &mut Vec<u8>) {
    let at = rng.between(0, rule.len());
    let to = rng.between(at, rule.len().min(at + 4));
    match rng.below(6) {
        0 => rule.truncate(at),
        1 => {
            rule.drain(at..to);
        }
        2 => {
            let part = rule[at..to].to_vec();
            rule.splice(to..to, part);
        }
        3 | 4 => rule.insert(at, *rng.pick(MEANT)),
        _ => {
            if at < rule.len() {
                rule[at] = if rng.percent(80) { *rng.pick(MEANT) } else { rng.byte() };
            }
        }
    }
}

/// A few meant bytes in any order: short, so that every order of faults is met.
pub fn jumble(rng: &mut Rng) -> Vec<u8> {
    let length = rng.between(0, 9);
    (0..length).map(|_| *rng.pick(MEANT)).collect()
}

/// What names are made of, and what they may clash with: openings, references, bytes that close them, and what is or is not part of a name.
const PIECES: [&str; 44] = [
    "(?<a>", "(?<a>", "(?<b>", "(?<A>", "(?<_>", "(?<", "(?<", "(?<=", "(?<!", "(?'a'", "(?P<a>", "(?", "(", "(?:", ")", ")", ")", ">", "}", "'",
    "a", "a", "b", "_", "1", " ", "-", "\\k<a>", "\\k{a}", "\\k'b'", "\\g{a}", "\\g{_}", "\\k", "\\k<", "\\k{", "\\k'", "\\g{", "\\g", "\\1", "[",
    "]", "\\", "*", "|",
];

/// A few of these pieces in any order.
pub fn names(rng: &mut Rng) -> Vec<u8> {
    let pieces = rng.between(1, 7);
    (0..pieces).flat_map(|_| rng.pick(&PIECES).bytes()).collect()
}

/// A rule that other matchers read too, in which one name or what stands around it was changed; none where the rule made has no name.
pub fn with_damaged_name(rng: &mut Rng, style: Style) -> Option<Vec<u8>> {
    let mut rule = rules::rule(rng, style);
    let is_letter = |at: usize| rule.get(at).is_some_and(|&byte| byte.is_ascii_alphabetic() || byte == b'_');
    let is_opening = |at: &usize| match rule[*at..] {
        [b'(', b'?', b'<', ..] | [b'\\', b'k', ..] => true,
        [b'\\', b'g', b'{', ..] => is_letter(at + 3),
        _ => false,
    };
    let openings: Vec<usize> = (0..rule.len()).filter(is_opening).collect();
    let from = *rng.pick(if openings.is_empty() { return None } else { &openings });
    let closing = rule[from + 3..].iter().position(|byte| b">}'".contains(byte))?;
    let at = from + rng.between(2, closing + 3);
    match rng.below(6) {
        0 => {
            rule.remove(at);
        }
        1 => rule[at] = *rng.pick(b"aAZ_09-<>{}'=! \t\xE9"),
        2 => {
            let name = rng.pick(&rules::GROUP_NAMES).bytes();
            rule.splice(from + 3..from + 3 + closing, name);
        }
        3 => {
            let length = rng.between(14, 36);
            rule.splice(from + 3..from + 3, "n".repeat(length).into_bytes());
        }
        _ => rule.insert(at, *rng.pick(b"aAZ_09-<>{}'=!  \t\xE9")),
    }
    Some(rule)
}

/// Bytes of any value.
pub fn noise(rng: &mut Rng) -> Vec<u8> {
    let length = rng.between(0, 24);
    (0..length).map(|_| rng.byte()).collect()
}

/// A rule at one of the limits: groups, nesting, bounds, the length, names, or long runs of digits.
pub fn at_limit(rng: &mut Rng) -> Vec<u8> {
    let groups = rng.between(MOST_GROUPS - 1, MOST_GROUPS + 2);
    let depth = rng.between(23, 26);
    let opening = *rng.pick(&["(", "(?:", "(?>", "(?=", "(?!"]);
    let digits = "9".repeat(rng.between(1, 25));
    let name: String =
        (0..rng.between(LONGEST_NAME - 1, LONGEST_NAME + 2)).map(|index| char::from(if index == 0 { b'n' } else { *rng.pick(b"aZ09_") })).collect();
    let text = match rng.below(13) {
        0 => "()".repeat(groups),
        1 => format!("{}a{}", opening.repeat(depth), ")".repeat(rng.between(depth - 1, depth))),
        2 => format!(
            "{}{}{}",
            "()".repeat(groups),
            "(?:".repeat(depth - 1),
            rng.pick(&["(", "(?:", "(?a", "(?<a>", "(?<", "[", "a", "(?=", "(?>", "\\R", "a++"])
        ),
        3 => format!("a{{{}}}", rng.between(250, 260)),
        4 => format!("a{{{},{}}}?", rng.between(0, 257), rng.between(0, 257)),
        5 => format!("()\\{digits}"),
        6 => format!("a{{{digits}}}\\x{{{digits}}}"),
        7 => format!("{}\\g{{-{}}}", "()".repeat(rng.between(1, MOST_GROUPS)), rng.between(0, MOST_GROUPS + 2)),
        8 => format!("(?<{name}>a)\\k{{{}}}", if rng.percent(80) { &name } else { &name[..LONGEST_NAME - 1] }),
        9 => format!("{}\\g{{{name}}}", if rng.percent(50) { format!("(?<{name}>a)") } else { String::new() }),
        10 => (1..=groups).map(|group| format!("(?<n{}>a?)", group - usize::from(rng.percent(1)))).collect(),
        11 => {
            let before = if rng.percent(50) { "()".repeat(groups) } else { "(".repeat(depth) };
            format!("{before}(?<{}{}", rng.pick(&["a", "1", ""]), rng.pick(&[">", ""]))
        }
        _ => "ab|".repeat(400)[..rng.between(995, 1_005)].to_string(),
    };
    text.into_bytes()
}
