//! Rule cards changed in every small way, with the library against the independent matcher: every truncation, every byte behind a card, each byte with each
//! of its 255 other values, each byte left out or doubled, each record left out, doubled or in its neighbour's place. Then limits: rules of every
//! length, every number of records with lengths around what they hold, areas and budgets at their last good and first bad value, and all refusals
//! together in their order.

use harness::cards::{Asked, CardCase, CardLender, Told};
use harness::independent::{ALL_FLAGS, FLAG_I, FLAG_X};
use harness::report::Group;

fn main() -> std::process::ExitCode {
    let mut tester = Tester { group: Group::new("rule cards changed in every small way"), lender: CardLender::default() };
    for (rule, flags, budget) in texts() {
        let card = tester.card(&rule, flags, budget);
        tester.truncations(&card);
        tester.bytes_behind(&card);
        tester.changed_bytes(&card);
        tester.moved_bytes(&card);
        tester.records(&card);
    }
    tester.rule_lengths();
    tester.lengths();
    tester.flags_and_groups();
    tester.areas();
    tester.writing_in_order();
    tester.reading_in_order();
    tester.group.end("")
}

/// Rules for cards, small and large: with padding and without, with bytes that are kinds of records, so that a card cut otherwise still has kinds.
fn texts() -> Vec<(Vec<u8>, u32, u32)> {
    let class = |length: usize| [b"[", &b"a-z\x01\x02\x03".repeat(200)[..length - 2], b"]"].concat();
    let comment = |length: usize| [b"(a)#", &b"\x01\x02\x03 (".repeat(200)[..length - 4]].concat();
    vec![
        (Vec::new(), 0, 0),
        (Vec::new(), ALL_FLAGS, 65_535),
        (b"a".to_vec(), 0, 1_000),
        (vec![0], 0, 0x0302),
        (br"(\d+),(\d+)".to_vec(), 0, 1_000),
        (br"(?<litres>\d+) l (?<of>\w)".to_vec(), FLAG_I, 0x0101),
        (b"\x01\x02\x03\x00\x00\x03".to_vec(), 1, 0x0202),
        (b"\x03".repeat(31), 2, 3),
        (b"\x02".repeat(32), 3, 0x0203),
        (b"\x01".repeat(33), 0, 0x0300),
        ([&b"\x01\x00\x00\x00\x00"[..], &b"\x03\x00\x00".repeat(20)].concat(), FLAG_X, 1),
        (class(64), FLAG_I, 65_535),
        (class(65), 0, 256),
        (class(1_000), 0, 1),
        (comment(1_000), FLAG_X, 0xFFFE),
    ]
}

struct Tester {
    group: Group,
    lender: CardLender,
}

impl Tester {
    fn judge(&mut self, case: &CardCase) {
        let faults = self.lender.compare(case);
        if faults.is_empty() {
            self.group.pass();
        } else {
            self.group.fail_with(|| format!("{}\n{}", case.shown(), faults.join("\n")));
        }
    }

    fn read(&mut self, card: &[u8]) {
        self.judge(&CardCase::read(card));
    }

    /// The card of a sound rule, which is written and read back.
    fn card(&mut self, rule: &[u8], flags: u32, budget: u32) -> Vec<u8> {
        let case = CardCase::write(rule, flags, budget);
        self.judge(&case);
        let Ok(Told::Written(card)) = case.expected() else { panic!("the rules for cards are sound") };
        self.read(&card);
        card
    }

    fn truncations(&mut self, card: &[u8]) {
        for length in 0..card.len() {
            self.read(&card[..length]);
        }
    }

    fn bytes_behind(&mut self, card: &[u8]) {
        for byte in 0..=255 {
            self.read(&[card, &[byte]].concat());
        }
        for behind in [&b"\x00\x00"[..], b"\x03\x00\x00", card] {
            self.read(&[card, behind].concat());
        }
    }

    fn changed_bytes(&mut self, card: &[u8]) {
        let mut changed = card.to_vec();
        for at in 0..card.len() {
            for byte in (0..=255).filter(|&byte| byte != card[at]) {
                changed[at] = byte;
                self.read(&changed);
            }
            changed[at] = card[at];
        }
    }

    /// Each byte left out, each doubled, and each kind put in at each place.
    fn moved_bytes(&mut self, card: &[u8]) {
        for at in 0..card.len() {
            self.read(&[&card[..at], &card[at + 1..]].concat());
            self.read(&[&card[..=at], &card[at..]].concat());
            for byte in 0..=4 {
                self.read(&[&card[..at], &[byte], &card[at..]].concat());
            }
        }
    }

    /// Each record left out, doubled, or changed with the one behind it.
    fn records(&mut self, card: &[u8]) {
        let (head, rest) = card.split_at(5);
        let (rule, length) = rest.split_at(rest.len() - 3);
        let records: Vec<&[u8]> = std::iter::once(head).chain(rule.chunks(33)).chain([length]).collect();
        for at in 0..records.len() {
            self.read(&[&records[..at], &records[at + 1..]].concat().concat());
            self.read(&[&records[..=at], &records[at..]].concat().concat());
            let mut swapped = records.clone();
            swapped.swap(at, (at + 1) % records.len());
            self.read(&swapped.concat());
        }
    }

    /// Rules of every length up to one that is too long, as they are written and read back; those that are too long have a card by its form.
    fn rule_lengths(&mut self) {
        for length in 0..=1_000 {
            self.card(&vec![b' '; length], FLAG_X, length as u32);
        }
        for length in (1_001..=1_100).chain([2_000, 32_000, 65_535]) {
            self.judge(&CardCase::write(&vec![b' '; length], FLAG_X, 0));
            self.read(&form(&[FLAG_X as u8, 0, 0, 0], &vec![b' '; length], length));
        }
    }

    /// Every number of kind 2 up to two too many, with lengths around what they hold, and others that look alike in one byte.
    fn lengths(&mut self) {
        for records in 0..=34 {
            let bytes = vec![0; 32 * records];
            let around = (32 * records).saturating_sub(35)..=32 * records + 35;
            for length in around.chain([0, 255, 256, 1_000, 1_001, 1_024, 32_768, 65_535]).filter(|&length| length < 65_536) {
                self.read(&form(&[0, 1, 0, 0], &bytes, length));
            }
        }
    }

    /// Every flag byte, and every number of groups for rules that have each number of them.
    fn flags_and_groups(&mut self) {
        for flags in 0..=255 {
            self.read(&form(&[flags, 0, 0, 1], b"(a) ", 4));
            self.judge(&CardCase::write(b"(a) ", u32::from(flags), 0));
            self.judge(&CardCase::write(b"(a) ", u32::from(flags) << 8 | 1, 0));
        }
        for groups in 0..=70 {
            let rule = b"()".repeat(groups);
            self.judge(&CardCase::write(&rule, 0, 7));
            for number in 0..=255 {
                self.read(&form(&[0, 7, 0, number], &rule, rule.len()));
            }
        }
    }

    /// Areas and budgets around their limits.
    fn areas(&mut self) {
        for rule in ["", "(a)", "(a", "a**"] {
            let card = form(&[0, 1, 0, u8::from(rule == "(a)")], rule.as_bytes(), rule.len());
            for rule_area in [0, 1, 16_383, 16_384, 16_385, 20_000] {
                for written_area in [0, 1, 8, 999, 1_000, 1_001, 1_063, 1_064, 1_065, 3_000] {
                    self.judge(&CardCase { rule_area, written_area, ..CardCase::read(&card) });
                    self.judge(&CardCase { rule_area, written_area, ..CardCase::read(&card[1..]) });
                    self.judge(&CardCase { rule_area, written_area, ..CardCase::write(rule.as_bytes(), 0, 1) });
                }
            }
            for budget in [0, 1, 255, 256, 257, 65_534, 65_535, 65_536, 65_537, 99_999, 100_000, 100_001, 1 << 24, u32::MAX] {
                self.judge(&CardCase::write(rule.as_bytes(), 0, budget));
            }
        }
    }

    /// All ways to break some of what is tested in writing: "9, first ..; then 1, 3 to 5 and the rule's own".
    fn writing_in_order(&mut self) {
        for broken in 0u32..64 {
            let is_broken = |number: u32| broken >> [9, 1, 3, 4, 5, 20].iter().position(|&other| other == number).unwrap_or(31) & 1 == 1;
            let mut rule = vec![b'a'; 1_000 + usize::from(is_broken(1))];
            rule[0] = if is_broken(20) { b'(' } else { b'a' };
            let (flags, budget) = (if is_broken(3) { ALL_FLAGS + 1 } else { ALL_FLAGS }, 65_535 + u32::from(is_broken(4)));
            let case = CardCase {
                rule_area: 16_384 - usize::from(is_broken(5)),
                written_area: 1_064 - usize::from(is_broken(9)),
                ..CardCase::write(&rule, flags, budget)
            };
            self.in_order(&case, [9, 1, 3, 4, 5, 20].into_iter().find(|&number| is_broken(number)));
        }
    }

    /// All ways to break some of what is tested in reading: "9, first ..; 30 .., 31 .., 32 .., 33 .., tested in this order; then 1, 3 to 5 and the
    /// rule's own ..; last 34". Where a kind is unknown and the card is cut short, the cutting meets the kind first here.
    fn reading_in_order(&mut self) {
        const ORDER: [u32; 10] = [9, 30, 31, 32, 33, 1, 3, 5, 20, 34];
        for broken in 0u32..1_024 {
            let is_broken = |number: u32| broken >> ORDER.iter().position(|&other| other == number).unwrap_or(31) & 1 == 1;
            let mut rule = vec![b'a'; if is_broken(1) { 1_001 } else { 1_000 }];
            rule[0] = if is_broken(20) { b'(' } else { b'a' };
            let length = rule.len();
            if is_broken(33) {
                rule.push(1);
            }
            let head = [if is_broken(3) { ALL_FLAGS as u8 + 1 } else { 0 }, 0, 0, u8::from(is_broken(34))];
            let mut card = form(&head, &rule, length);
            if is_broken(32) {
                card.splice(0..0, [1, 0, 0, 0, 0]);
            }
            if is_broken(30) {
                card.splice(0..0, [4]);
            }
            if is_broken(31) {
                card.pop();
            }
            let case =
                CardCase { rule_area: 16_384 - usize::from(is_broken(5)), written_area: 1_000 - usize::from(is_broken(9)), ..CardCase::read(&card) };
            self.in_order(&case, ORDER.into_iter().find(|&number| is_broken(number)));
        }
    }

    /// The first refusal of the order is given by both, with place 0.
    fn in_order(&mut self, case: &CardCase, expected: Option<u32>) {
        let given = case.expected().err().map(|refusal| (refusal.number, refusal.place));
        let mut faults = self.lender.compare(case);
        if given != expected.map(|number| (number, 0)) {
            faults.push(format!("the independent matcher gives {given:?}, expected {expected:?}"));
        }
        let what = if matches!(case.asked, Asked::Read { .. }) { "reading" } else { "writing" };
        self.group.judge(&format!("{what} in order: {}", case.shown()), &faults);
    }
}

/// A card by its form, whatever it says: the first record's body, these rule bytes and a length.
fn form(head: &[u8; 4], bytes: &[u8], length: usize) -> Vec<u8> {
    let mut card = vec![1];
    card.extend(head);
    for chunk in bytes.chunks(32) {
        card.push(2);
        card.extend(chunk);
        card.extend(vec![0; 32 - chunk.len()]);
    }
    card.push(3);
    card.extend((length as u16).to_le_bytes());
    card
}
