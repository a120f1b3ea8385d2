//! Idle steps as the samples put them in: the records pass as before, what is put in is idle and nothing else has become so,
//! and there are such steps of every sort at every place.

mod common;

use common::{assert_each_met, count_seen, judged, some_draft};
use samples::draft::{Body, Draft};
use samples::outcome::{Outcome, Tally};
use samples::random::Random;
use samples::trimming::idle::padded;
use samples::trimming::{idle_count, stream, to_share, Padded, SHARES};
use samples::widening::{is_wider, resolution_at, rested_on};
use std::collections::BTreeMap;

/// Which steps the last one rests on.
fn kept(draft: &Draft) -> Vec<bool> {
    rested_on(draft, draft.steps.len() - 1)
}

/// The kept steps without the numbers that they cite.
fn kept_statements(draft: &Draft) -> Vec<(u8, Vec<u16>, u64)> {
    let kept = kept(draft).into_iter().zip(&draft.steps);
    let bodies = kept.filter_map(|(is_kept, step)| Body::read(step).filter(|_| is_kept));
    bodies
        .map(|body| (body.kind, body.literals, body.bound))
        .collect()
}

#[test]
fn padded_records_have_the_answers_that_they_had() {
    let mut random = Random::new(91);
    let mut met = Tally::default();
    for turn in 0..400 {
        let draft = some_draft(&mut random);
        let count = turn % 40;
        let longer = padded(&draft, count, &mut random);
        let mut wanted = judged(&draft);
        wanted.step_count += count as u64;
        assert_eq!(judged(&longer), wanted, "{longer:?}");
        met.add(Outcome::of(&wanted));
    }
    println!("{met}");
    assert!(met.of(Outcome::Least) > 200 && met.of(Outcome::NoneExists) > 40);
}

#[test]
fn what_is_put_in_is_idle_and_nothing_else_becomes_so() {
    let mut random = Random::new(92);
    for turn in 0..400 {
        let draft = some_draft(&mut random);
        let count = turn % 40;
        let longer = padded(&draft, count, &mut random);
        assert_eq!(longer.steps.len(), draft.steps.len() + count);
        assert_eq!(idle_count(&longer), idle_count(&draft) + count);
        assert_eq!(kept_statements(&longer), kept_statements(&draft));
    }
}

#[test]
fn so_many_steps_for_each_that_is_kept() {
    let mut random = Random::new(93);
    for share in SHARES {
        for Padded { draft, .. } in stream(93).take(100) {
            let kept = draft.steps.len() - idle_count(&draft);
            let longer = to_share(&draft, share, &mut random);
            let wanted = (share * kept).max(draft.steps.len());
            assert_eq!(longer.steps.len(), wanted);
            assert_eq!(longer.steps.len() - idle_count(&longer), kept);
        }
    }
}

/// An idle step in its record.
struct Seen<'a> {
    draft: &'a Draft,
    kept: &'a [bool],
    place: usize,
    step: Body,
}

impl Seen<'_> {
    /// How many of its two premises are kept; nothing of other kinds.
    fn kept_premises(&self) -> Option<usize> {
        let body = resolution_at(self.draft, self.place)?;
        let premises = (0..2).map(|part| body.citation(part).unwrap() as usize - 1);
        Some(premises.filter(|premise| self.kept[*premise]).count())
    }

    fn is_cited(&self) -> bool {
        let number = Some(self.place as u32 + 1);
        let behind = self.place + 1..self.draft.steps.len();
        let mut resolutions = behind.filter_map(|place| resolution_at(self.draft, place));
        resolutions.any(|body| (0..2).any(|part| body.citation(part) == number))
    }
}

/// What an idle step may have, and how it is seen.
type Feature = (&'static str, fn(&Seen) -> bool);

const FEATURES: [Feature; 15] = [
    ("copy", |s| s.step.kind == 1),
    ("cost", |s| s.step.kind == 2),
    ("independent set", |s| s.step.kind == 3),
    ("resolution", |s| s.step.kind == 4),
    ("weights", |s| s.step.kind == 5),
    ("no kept premise", |s| s.kept_premises() == Some(0)),
    ("one kept premise", |s| s.kept_premises() == Some(1)),
    ("two kept premises", |s| s.kept_premises() == Some(2)),
    ("wider resolution", |s| is_wider(s.draft, &s.step)),
    ("cited by an idle step", |s| s.is_cited()),
    ("first step", |s| s.place == 0),
    ("step before the last", |s| {
        s.place + 2 == s.draft.steps.len()
    }),
    ("idle step before it", |s| {
        s.place > 0 && !s.kept[s.place - 1]
    }),
    ("kept step before it", |s| {
        s.place > 0 && s.kept[s.place - 1]
    }),
    ("no literals", |s| s.step.literals.is_empty()),
];

#[test]
fn idle_steps_of_every_sort() {
    let mut met = [0; FEATURES.len()];
    for Padded { draft, .. } in stream(94).take(300) {
        let kept = kept(&draft);
        for place in (0..kept.len()).filter(|place| !kept[*place]) {
            let seen = Seen {
                draft: &draft,
                kept: &kept,
                place,
                step: Body::read(&draft.steps[place]).unwrap(),
            };
            count_seen(&mut met, FEATURES.iter().map(|(_, is_seen)| is_seen(&seen)));
        }
    }
    assert_each_met(&met, &FEATURES.map(|(name, _)| name));
}

#[test]
fn the_stream_has_every_answer_with_every_share() {
    let mut met: BTreeMap<&str, Tally> = BTreeMap::new();
    let (mut whole, mut kept, mut steps) = (0, 0, 0);
    for Padded { draft, what } in stream(95).take(1_500) {
        met.entry(what)
            .or_default()
            .add(Outcome::of(&judged(&draft)));
        let idle = idle_count(&draft);
        whole += usize::from(idle == 0);
        kept += draft.steps.len() - idle;
        steps += draft.steps.len();
    }
    println!("{whole} without idle steps, {kept} of {steps} steps kept");
    assert!(whole > 50 && 2 * kept < steps);
    assert_eq!(met.len(), 4);
    for (what, tally) in met {
        println!("{what}: {tally}");
        let passed = [Outcome::Least, Outcome::NoneExists, Outcome::Within];
        assert!(passed.iter().all(|outcome| tally.of(*outcome) > 20));
        assert_eq!(
            passed
                .map(|outcome| tally.of(outcome))
                .iter()
                .sum::<usize>(),
            tally.sum()
        );
    }
}

#[test]
fn the_same_seed_gives_the_same_records() {
    let files = |seed| stream(seed).take(30).map(|padded| padded.draft.files());
    assert!(files(96).eq(files(96)));
    assert!(!files(96).eq(files(97)));
}
