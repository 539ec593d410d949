//! The depot profile: document 02, request k). "Flag bit 4 asks for a narrower rule".

use super::reader::Refusal;
use super::tree::{Alternation, Form, Inner, Kind, Part, Repeat};

/// "no references (27), no repeat without upper bound over a body of least length 0 (28), no range whose ends aren't both digits, both upper or both
/// lower letters (29)".
const REFERENCE: u32 = 27;
const EMPTY_ROUNDS: u32 = 28;
pub const MIXED_RANGE: u32 = 29;

/// "above 65,536 it is held at 65,536".
const MOST_HELD: u64 = 65_536;

/// Are both ends digits, both upper or both lower letters? The bytes decide, however they are written.
pub fn is_plain_range(low: u8, high: u8) -> bool {
    let kinds: [fn(&u8) -> bool; 3] = [u8::is_ascii_digit, u8::is_ascii_uppercase, u8::is_ascii_lowercase];
    kinds.iter().any(|is_kind| is_kind(&low) && is_kind(&high))
}

/// "27 then 28 are tested after 13, lowest place first, 28's place being the repeat's."
pub fn refused_by(whole: &Alternation) -> Option<Refusal> {
    let mut found = Found::default();
    found.alternation(whole);
    let lowest = |number: u32, places: &[usize]| places.iter().min().map(|&place| Refusal { number, place });
    lowest(REFERENCE, &found.references).or(lowest(EMPTY_ROUNDS, &found.repeats))
}

/// The places of what the profile forbids.
#[derive(Default)]
struct Found {
    references: Vec<usize>,
    repeats: Vec<usize>,
}

impl Found {
    fn alternation(&mut self, alternation: &Alternation) {
        alternation.branches.iter().flatten().for_each(|part| self.part(part));
    }

    fn part(&mut self, part: &Part) {
        match part {
            Part::Item(item) => self.references.extend(matches!(item.kind, Kind::Reference(_)).then_some(item.at)),
            Part::Group(group) => self.alternation(&group.inside),
            Part::Inner(inner) => self.alternation(&inner.inside),
            Part::Repeat(repeat) => {
                let can_be_empty = repeat.most.is_none() && least_length(&repeat.body) == 0;
                self.repeats.extend(can_be_empty.then_some(repeat.at));
                self.part(&repeat.body);
            }
        }
    }
}

/// "a byte item 1, a place 0, a repeat its minimum times its body's, an alternation the smallest branch, parts that follow one another their sum, a
/// reference 0". 02 l): "Looking ahead .. has least length 0".
fn least_length(part: &Part) -> u64 {
    let length = match part {
        Part::Item(item) => u64::from(matches!(item.kind, Kind::Byte(_))),
        Part::Group(group) => least_of_branches(&group.inside),
        Part::Inner(Inner { form: Form::Ahead | Form::NotAhead, .. }) => 0,
        Part::Inner(held) => least_of_branches(&held.inside),
        Part::Repeat(repeat) => {
            let Repeat { body, least, .. } = &**repeat;
            least * least_length(body)
        }
    };
    length.min(MOST_HELD)
}

fn least_of_branches(alternation: &Alternation) -> u64 {
    let branches = alternation.branches.iter().map(|branch| branch.iter().map(least_length).sum::<u64>());
    branches.min().expect("there is always a branch")
}
