//! All short rules against the independent matcher: every escape with every byte, every named set with every byte, with and without `i`, and every
//! rule of up to four bytes over those that mean something, also over those that mean something under `x`; every beginning of a name with up to four
//! bytes behind it, up to four pieces with names in every order, up to four pieces that the depot profile takes or refuses, up to four pieces that look
//! ahead or hold on, and such parts around and before up to three others. Each is matched or listed, and explained, with marks of each length up to one
//! more than the rule has bytes, and scanned for successive matches. Where faults hide in the order of refusals, a short rule shows them.

use harness::case::Case;
use harness::independent::{FLAG_D, FLAG_I, FLAG_M, FLAG_S, FLAG_X};
use harness::lender::Lender;
use harness::raw::Call;
use harness::report::Group;

const MEANT: &[u8] = b"\\()[]{}|*?^$-:,01ab.gcxd";
/// What `x` skips is among them, and all beside which it must not stand.
const MEANT_UNDER_X: &[u8] = b" #\n\\()[]{}|*?:1ac^";

/// What may stand in a name, close it, or come behind it.
const MEANT_IN_NAMES: &[u8] = b"a_1Z<>{}')\\ =";
const PIECES: [&str; 14] = ["(?<a>", "(?<b>", "(?<", "\\k<a>", "\\g{b}", "\\k'", "\\1", "(", ")", ")", "|", "*", "[", "a>"];
/// What the depot profile takes, and what it refuses.
const PROFILE_PIECES: [&str; 18] =
    ["a", "[a-z]", "[Z-a]", "[0-\\x39]", "[z-a]", "\\1", "\\2", "^", "?", "*", "+", "{2,}", "{0}", "(?:", "(", ")", ")", "|"];

/// What looks ahead or holds on, and what makes a difference inside it, behind it or before it.
const INNER_PIECES: [&str; 15] = ["(?=", "(?!", "(?>", "\\R", "(", ")", "|", "*", "+", "?", "{2}", "a", "b", "\\1", " "];
/// What stands between the brackets of such a part, and what follows its bracket.
const INSIDE: [&str; 14] = ["a", "b", "(a)", "(b|)", "a*", "b?+", ".+?", "|", "\\R", "\\1", "$", "(?=(a))", "(?!a)", "(?>a|ab)"];
const BEHIND: [&str; 14] = ["", "a", "b", ".", "\\1", "\\R", "|a", "(a)*", "?", "??", "*", "+?", "{2}", "*+"];

const NAMES: [&str; 16] =
    ["alpha", "upper", "lower", "alnum", "xdigit", "blank", "cntrl", "ascii", "print", "graph", "punct", "digit", "word", "space", "h", ""];

fn main() -> std::process::ExitCode {
    let mut tester = Tester { group: Group::new("all short rules"), lender: Lender::default(), number: 0 };
    tester.escapes();
    tester.named_sets();
    tester.rules(MEANT, 0, &mut Vec::new(), 4);
    tester.rules(MEANT_UNDER_X, FLAG_X, &mut Vec::new(), 4);
    for opening in [&b"(?<"[..], b"\\k", b"\\k<", b"\\g{", b"(?<a>\\g{"] {
        tester.rules(MEANT_IN_NAMES, 0, &mut opening.to_vec(), 4);
        tester.rules(MEANT_IN_NAMES, FLAG_X, &mut opening.to_vec(), 2);
    }
    tester.pieces(&PIECES, &[0, FLAG_I, FLAG_X], &mut Vec::new(), 4);
    tester.pieces(&PROFILE_PIECES, &[FLAG_D, FLAG_D, FLAG_D | FLAG_I, FLAG_D | FLAG_X], &mut Vec::new(), 4);
    tester.pieces(&INNER_PIECES, &[0, FLAG_D, FLAG_I, FLAG_X], &mut Vec::new(), 4);
    for opening in ["(?=", "(?!", "(?>", "(?:(?=", "(a(?!"] {
        tester.inner(opening, &mut Vec::new(), 3);
    }
    tester.group.end("")
}

struct Tester {
    group: Group,
    lender: Lender,
    /// How many rules there were so far.
    number: usize,
}

impl Tester {
    /// The call, and the explanation and the successive matches of the same.
    fn judge(&mut self, case: &Case) {
        let marks = self.number % (case.rule.len() + 2);
        self.number += 1;
        self.judge_call(case);
        self.judge_call(&Case { call: Call::Explain, marks, ..case.clone() });
        self.judge_call(&Case { call: Call::Scan, ..case.clone() });
    }

    fn judge_call(&mut self, case: &Case) {
        let faults = self.lender.compare(case, &case.expected());
        if faults.is_empty() {
            self.group.pass();
        } else {
            self.group.fail_with(|| format!("{}\n{}", case.shown(), faults.join("\n")));
        }
    }

    /// A backslash and any byte, alone and in a class, on every single byte if the rule is sound.
    fn escapes(&mut self) {
        for letter in 0..=255 {
            self.on_every_byte(&[b'\\', letter]);
            self.on_every_byte(&[b'[', b'\\', letter, b']']);
            self.on_every_byte(&[b'\\', b'c', letter]);
            self.on_every_byte(format!("\\x{letter:02x}").as_bytes());
            self.on_every_byte(format!("\\o{{{letter:o}}}").as_bytes());
            self.on_every_byte(format!("[\\{letter:o}]").as_bytes());
        }
    }

    fn named_sets(&mut self) {
        for name in NAMES {
            for form in [format!("[[:{name}:]]"), format!("[[:^{name}:]]"), format!("[^[:{name}:]]"), format!("[a[:{name}:]-]")] {
                self.on_every_byte(form.as_bytes());
            }
        }
    }

    /// The rule on each of the 256 subjects of one byte, with and without `i` and under any of the other flags; once if it is refused.
    fn on_every_byte(&mut self, rule: &[u8]) {
        for byte in 0..=255 {
            let others = [0, 1, 2, 3, 8, 9, 10, 11][usize::from(byte) % 8];
            for flags in [others, others | FLAG_I] {
                self.judge(&Case::new(Call::Match, rule, flags, &[byte], 20, 1));
            }
            if harness::independent::read(rule, 0).is_err() {
                return;
            }
        }
    }

    /// Every rule that begins so and goes on with up to so many of these bytes, under this flag and any of `s`, `m` and `i`.
    fn rules(&mut self, meant: &[u8], flag: u32, rule: &mut Vec<u8>, more: usize) {
        let others = rule.iter().map(|&byte| u32::from(byte)).sum::<u32>() % 8;
        self.judge(&Case::new(Call::List, rule, flag | others, b"a1A", 60, 2));
        if more > 0 {
            for &byte in meant {
                rule.push(byte);
                self.rules(meant, flag, rule, more - 1);
                rule.pop();
            }
        }
    }

    /// Every rule of this opening, up to so many of the pieces inside it, its brackets, and one of the endings. Each has a group for a reference.
    fn inner(&mut self, opening: &str, inside: &mut Vec<&str>, more: usize) {
        let closing = ")".repeat(opening.matches('(').count());
        for behind in BEHIND {
            let rule = format!("{opening}{}{closing}{behind}|()", inside.concat());
            let (call, flags) = ([Call::List, Call::Match][self.number % 2], [0, FLAG_I, FLAG_X, FLAG_S | FLAG_M][self.number % 4]);
            let (subject, budget) = ([&b"aab\r\n"[..], b"ab\n", b"baab"][self.number % 3], [25, 100, 400][self.number / 3 % 3]);
            self.judge(&Case::new(call, rule.as_bytes(), flags, subject, budget, 3));
        }
        if more > 0 {
            for piece in INSIDE {
                inside.push(piece);
                self.inner(opening, inside, more - 1);
                inside.pop();
            }
        }
    }

    /// Every rule that begins so and goes on with up to so many of the pieces, under one of the flag settings.
    fn pieces(&mut self, pieces: &[&str], flags: &[u32], rule: &mut Vec<u8>, more: usize) {
        self.judge(&Case::new(Call::Match, rule, flags[rule.len() % flags.len()], b"aaa", 60, 1));
        if more > 0 {
            for piece in pieces {
                rule.extend(piece.bytes());
                self.pieces(pieces, flags, rule, more - 1);
                rule.truncate(rule.len() - piece.len());
            }
        }
    }
}
