//! Random rule cards: rules to be written, cards as they are written, and such in which bytes, records or what they say were changed; areas of every
//! length around what is needed.

use super::calls::length;
use super::rules::{self, Style};
use super::{calls, sound, Rng};
use crate::cards::{Asked, CardCase};
use crate::independent::cards::{CARD_AREA, RULE_BYTES};
use crate::independent::{self, RULE_AREA};

/// The case of this seed and number.
pub fn case(seed: u64, number: u64) -> CardCase {
    let rng = &mut Rng::new(seed ^ 0xCA2D, number);
    let (rule, flags) = rule(rng, seed, number);
    let rule_area = length(rng, RULE_AREA);
    if rng.percent(25) {
        let budget = if rng.percent(90) { rng.below(65_536) as u32 } else { *rng.pick(&[0, 65_535, 65_536, 65_537, 100_000, 1 << 24, u32::MAX]) };
        return CardCase { asked: Asked::Write { rule, flags, budget }, rule_area, written_area: length(rng, CARD_AREA) };
    }
    CardCase { asked: Asked::Read { card: card(rng, &rule, flags) }, rule_area, written_area: length(rng, RULE_BYTES) }
}

/// Mostly a sound rule, else one of any kind, or one that is about as long as a rule may be.
fn rule(rng: &mut Rng, seed: u64, number: u64) -> (Vec<u8>, u32) {
    let flags = super::flags(rng);
    match rng.weighted(&[70, 25, 5]) {
        0 => (sound::rule(rng, flags, |rng| Style { depth: 3, ..rules::any_style(rng, flags) }, &[("", "")]).0, flags),
        1 => {
            let case = calls::case(seed, number);
            (case.rule, case.flags)
        }
        // Nothing but literals, and padding of every length behind the limit.
        _ => (vec![*rng.pick(b"a\x01\x02\x03"); rng.between(960, 1_060)], flags),
    }
}

/// A card of this rule, mostly changed at one place or two.
fn card(rng: &mut Rng, rule: &[u8], flags: u32) -> Vec<u8> {
    let groups = independent::read(rule, flags).map_or(0, |read| read.groups);
    let mut said =
        Said { flags: flags as u8, budget: [rng.byte(), rng.byte()], groups: groups as u8, rule: rule.to_vec(), length: rule.len() as u16 };
    if rng.percent(35) {
        said.change(rng);
    }
    let mut records = said.records();
    if rng.percent(25) {
        change_records(rng, &mut records);
    }
    let mut card = records.concat();
    if rng.percent(40) {
        change_bytes(rng, &mut card);
    }
    card
}

/// What the records of a card say.
struct Said {
    flags: u8,
    budget: [u8; 2],
    groups: u8,
    rule: Vec<u8>,
    length: u16,
}

impl Said {
    /// Changes the number of groups, the flags, the length, or what pads the last rule bytes.
    fn change(&mut self, rng: &mut Rng) {
        match rng.weighted(&[35, 15, 30, 20]) {
            0 => self.groups = if rng.percent(60) { self.groups.wrapping_add(*rng.pick(&[1, 255, 32])) } else { rng.byte() },
            1 => self.flags = rng.byte(),
            2 => self.length = self.length.wrapping_add(*rng.pick(&[1, u16::MAX, 32, 31, u16::MAX - 31, 256, 1 << 15])),
            _ => {
                let room = self.rule.len().next_multiple_of(32) - self.rule.len();
                let more = rng.between(0, room);
                self.rule.extend((0..more).map(|_| *rng.pick(&[0, 0, 0, 1, b'a', 255])));
            }
        }
    }

    fn records(&self) -> Vec<Vec<u8>> {
        let mut records = vec![vec![1, self.flags, self.budget[0], self.budget[1], self.groups]];
        for bytes in self.rule.chunks(32) {
            let mut record = vec![0; 33];
            record[0] = 2;
            record[1..=bytes.len()].copy_from_slice(bytes);
            records.push(record);
        }
        let [low, high] = self.length.to_le_bytes();
        records.push(vec![3, low, high]);
        records
    }
}

/// Leaves a record out, has one twice, changes the place of two, or puts others in.
fn change_records(rng: &mut Rng, records: &mut Vec<Vec<u8>>) {
    let (at, other) = (rng.below(records.len()), rng.below(records.len()));
    match rng.below(5) {
        0 => {
            records.remove(at);
        }
        1 => records.insert(other, records[at].clone()),
        2 => records.swap(at, other),
        3 => {
            let record = any_record(rng);
            records.insert(at, record);
        }
        _ => {
            let many = rng.between(0, 6);
            *records = (0..many).map(|_| any_record(rng)).collect();
        }
    }
}

/// A record of a kind that there is, or seldom of another, with any body.
fn any_record(rng: &mut Rng) -> Vec<u8> {
    let (kind, length) = *rng.pick(&[(1, 4), (1, 4), (2, 32), (2, 32), (3, 2), (3, 2), (0, 2), (4, 4), (255, 32)]);
    let is_bare = rng.percent(50);
    let body = (0..length).map(|_| if is_bare { 0 } else { rng.byte() });
    std::iter::once(kind).chain(body).collect()
}

/// Cuts a card off, adds bytes, changes one, puts one in or takes one out; or makes bytes that are no card.
fn change_bytes(rng: &mut Rng, card: &mut Vec<u8>) {
    let at = rng.between(0, card.len());
    let kind = *rng.pick(&[0, 1, 2, 3, 4]);
    let byte = if rng.percent(50) { kind } else { rng.byte() };
    match rng.weighted(&[25, 20, 25, 10, 10, 10]) {
        0 => card.truncate(at),
        1 => {
            let more = if rng.percent(50) { 1 } else { rng.between(1, 40) };
            card.extend(vec![byte; more]);
        }
        2 if at < card.len() => card[at] = byte,
        3 if at < card.len() => {
            card.remove(at);
        }
        4 => card.insert(at, byte),
        _ => {
            let bytes = rng.between(0, 80);
            *card = (0..bytes).map(|_| if rng.percent(50) { *rng.pick(&[1, 2, 3]) } else { rng.byte() }).collect();
        }
    }
}
