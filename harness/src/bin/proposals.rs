//! Proposals of derivations, on random rules with the library. Every reading of a listing is proposed and accepted, with its row, within a budget of the
//! steps along its path, and with one step less it is exhausted; and proposals are damaged in every byte and cut at every length, with the independent
//! follower. `--cases N --seeds A..B` runs others, `--independent` puts the follower in the library's place: it is held to the walk.

use std::collections::HashSet;
use std::process::ExitCode;

use harness::arguments::arguments_and_switch;
use harness::case::{shown, Case};
use harness::contender::Contender;
use harness::independent::check::{derivations, Derivation};
use harness::independent::{Answer, Ending, Row};
use harness::lender::Run;
use harness::random::{checks, Rng};
use harness::raw::Call;
use harness::report::Group;

/// A longer walk, or more rows, and the listing is left out.
const MOST_STEPS: u32 = 1_000;
const MOST_ROWS: usize = 60;
/// Of the derivations that have the same row as one before, so many are proposed too.
const MORE_OF_A_ROW: usize = 6;
/// Of a rule's proposals one is damaged, if it is no longer than this: every byte of each.
const LONGEST_DAMAGED: usize = 40;

fn main() -> ExitCode {
    let (arguments, is_independent) = arguments_and_switch("--independent", 3_000, 1..3);
    let mut readings = Group::new("readings of listings, proposed and checked");
    let mut damaged = Group::new("proposals damaged in every byte and cut at every length");
    let (mut contender, mut counts) = (Contender::new(is_independent), Counts::default());
    for seed in arguments.seeds.clone() {
        for number in 0..arguments.cases {
            let rng = &mut Rng::new(seed ^ 0x9809, number);
            let line = Line::random(rng);
            counts.rules += 1;
            if let Some(found) = line.proposed(&mut contender, &mut readings, &mut counts) {
                line.damaged(rng, &found, &mut contender, &mut damaged, &mut counts);
            }
        }
    }
    let Counts { rules, listed, rows, other_derivations, kinds: [accepted, not, exhausted] } = counts;
    let told = format!("{rules} rules, {listed} listed to their end, {rows} rows, {other_derivations} other derivations of one of them");
    let ends = [
        readings.end(&format!("seeds {:?}: {told}", arguments.seeds)),
        damaged.end(&format!("{accepted} a reading, {not} no reading, {exhausted} exhausted")),
    ];
    if ends.iter().all(|end| *end == ExitCode::SUCCESS) {
        ExitCode::SUCCESS
    } else {
        ExitCode::FAILURE
    }
}

#[derive(Default)]
struct Counts {
    rules: u64,
    listed: u64,
    rows: usize,
    other_derivations: u64,
    /// Damaged ones that are a reading, that are none, and that are exhausted.
    kinds: [u64; 3],
}

/// A rule and a line.
struct Line {
    rule: Vec<u8>,
    flags: u32,
    subject: Vec<u8>,
    /// By the independent matcher: none where a walk is too long.
    derivations: Option<Vec<Derivation>>,
}

impl Line {
    fn random(rng: &mut Rng) -> Line {
        let (rule, flags, tree, subject) = checks::followed(rng);
        let found = (0..=subject.len()).map(|start| derivations(&tree, &subject, start, u64::from(MOST_STEPS)));
        let derivations = found.map(|(found, is_all)| is_all.then_some(found)).collect::<Option<Vec<_>>>().map(|each| each.concat());
        Line { rule, flags, subject, derivations }
    }

    fn check(&self, budget: u64, proposal: &[u8]) -> Case {
        Case::check(&self.rule, self.flags, &self.subject, budget as u32, proposal)
    }

    /// Proposes each row of the library's own listing; gives the derivations if the listing came to its end.
    fn proposed(&self, contender: &mut Contender, group: &mut Group, counts: &mut Counts) -> Option<Vec<Derivation>> {
        let case = Case::new(Call::List, &self.rule, self.flags, &self.subject, MOST_STEPS, MOST_ROWS);
        let listing = contender.run(&case).answer;
        let derivations = self.derivations.clone().filter(|_| listing.ending == Ending::Complete)?;
        counts.listed += 1;
        counts.rows += listing.rows.len();
        let mut met: HashSet<Row> = HashSet::new();
        let (firsts, others): (Vec<&Derivation>, Vec<&Derivation>) = derivations.iter().partition(|derivation| met.insert(derivation.row));
        // Each row of the listing is that of a derivation, and in this order.
        let rows: Vec<Row> = firsts.iter().map(|derivation| derivation.row).collect();
        let same = (rows != listing.rows).then(|| "the listing has other rows than the derivations".to_string());
        group.judge(&case.shown(), &same.into_iter().collect::<Vec<_>>());
        counts.other_derivations += others.len().min(MORE_OF_A_ROW) as u64;
        for derivation in firsts.into_iter().chain(others.into_iter().take(MORE_OF_A_ROW)) {
            self.round_trip(derivation, contender, group);
        }
        Some(derivations)
    }

    /// Accepted within just its steps, with its row, and exhausted with one less.
    fn round_trip(&self, derivation: &Derivation, contender: &mut Contender, group: &mut Group) {
        let Derivation { proposal, steps, row } = derivation;
        let accepted = Answer { steps: *steps, rows: vec![*row], ..Answer::bare(Ending::Reading) };
        let spent = Answer { steps: steps - 1, ..Answer::bare(Ending::Exhausted(row[0] as usize)) };
        for (budget, wanted) in [(*steps, accepted), (*steps - 1, spent)] {
            let case = self.check(budget, proposal);
            let run = contender.run(&case);
            let mut faults = run.faults;
            let told = Answer { names: None, ..run.answer };
            if told != wanted {
                faults.push(format!("library: {}\nwanted:  {}", shown(&told), shown(&wanted)));
            }
            // The follower is held to the same.
            let follower = Answer { names: None, ..case.expected() };
            if follower != wanted {
                faults.push(format!("follower: {}\nwanted:   {}", shown(&follower), shown(&wanted)));
            }
            group.judge(&case.shown(), &faults);
        }
    }

    /// One of the proposals with each of its bytes changed, cut at each length, and added to.
    fn damaged(&self, rng: &mut Rng, derivations: &[Derivation], contender: &mut Contender, group: &mut Group, counts: &mut Counts) {
        let short: Vec<&Derivation> = derivations.iter().filter(|derivation| derivation.proposal.len() <= LONGEST_DAMAGED).collect();
        if short.is_empty() {
            return;
        }
        let Derivation { proposal, steps, .. } = *rng.pick(&short);
        // In a tenth of the cases all other values.
        let values: Vec<u8> = if rng.percent(10) { (0..=255).collect() } else { vec![0, 1, 2, 3, 254, 255] };
        for at in 0..proposal.len() {
            for value in values.iter().copied().chain([proposal[at].wrapping_add(1), proposal[at].wrapping_sub(1)]) {
                let mut changed = proposal.clone();
                changed[at] = value;
                self.held_to_follower(rng, &changed, *steps, contender, group, counts);
            }
            let (before, behind) = proposal.split_at(at);
            self.held_to_follower(rng, before, *steps, contender, group, counts);
            self.held_to_follower(rng, &[before, &behind[1..]].concat(), *steps, contender, group, counts);
            for more in [0, 1, proposal[at]] {
                self.held_to_follower(rng, &[before, &[more], behind].concat(), *steps, contender, group, counts);
            }
        }
        for more in [&[0][..], &[1], &[255], &[0, 0]] {
            self.held_to_follower(rng, &[proposal, more].concat(), *steps, contender, group, counts);
        }
    }

    /// Within more steps than it can need here, within those of the path that was damaged, or within fewer.
    fn held_to_follower(&self, rng: &mut Rng, proposal: &[u8], steps: u64, contender: &mut Contender, group: &mut Group, counts: &mut Counts) {
        let budget = match rng.weighted(&[50, 25, 25]) {
            0 => steps + 200,
            1 => steps,
            _ => rng.number() % (steps + 1),
        };
        let case = self.check(budget, proposal);
        let expected = case.expected();
        let kind = match expected.ending {
            Ending::Reading => 0,
            Ending::NoReading => 1,
            _ => 2,
        };
        counts.kinds[kind] += 1;
        let Run { answer, mut faults } = contender.run(&case);
        if answer != expected {
            faults.push(format!("library:  {}\nfollower: {}", shown(&answer), shown(&expected)));
        }
        if faults.is_empty() {
            group.pass();
        } else {
            group.fail_with(|| format!("{}\n{}", case.shown(), faults.join("\n")));
        }
    }
}
