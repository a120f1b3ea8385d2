//! Wider resolutions as the samples make them: records keep their answers, what the steps state is true, they come with every
//! feature, and one literal or bound beyond what is allowed is refused where it stands.

mod common;

use common::{
    assert_each_met, changed_steps, count_seen, first_difference, is_entailed, judged, plain_draft,
    resolution_faults, some_draft, FEW,
};
use samples::damage::{self, Way};
use samples::draft::{code_bytes, Body, Draft};
use samples::examples::example;
use samples::outcome::{Outcome, Tally};
use samples::random::Random;
use samples::weights::branch::{copy, resolution};
use samples::widening::records::{join, widen};
use samples::widening::{count, is_wider, one_off, premises, resolution_at, rested_on, KIND};

const NONE: u64 = u64::MAX;

/// The pass over a record changes its steps and nothing of its answer; what is put in besides makes more steps.
#[test]
fn widened_records_have_the_answers_that_they_had() {
    let mut random = Random::new(71);
    let (mut met, mut widened) = (Tally::default(), 0);
    for _ in 0..500 {
        let mut draft = plain_draft(&mut random);
        assert_eq!(count(&draft, draft.steps.len()), 0);
        let mut wanted = judged(&draft);
        widened += usize::from(widen(&mut draft, &mut random).is_some());
        assert_eq!(judged(&draft), wanted, "{draft:?}");
        join(&mut draft, &mut random);
        wanted.step_count = draft.steps.len() as u64;
        assert_eq!(judged(&draft), wanted, "{draft:?}");
        met.add(Outcome::of(&wanted));
    }
    println!("{widened} widened by the pass alone, {met}");
    assert!(widened > 350);
    assert!(met.of(Outcome::Least) > 200 && met.of(Outcome::NoneExists) > 50);
}

#[test]
fn what_wider_resolutions_state_is_true() {
    let mut random = Random::new(72);
    let mut checked = 0;
    for _ in 0..500 {
        let mut draft = plain_draft(&mut random);
        if draft.variables() > FEW {
            continue;
        }
        join(&mut draft, &mut random);
        for step in wider(&draft).map(|place| resolution_at(&draft, place).unwrap()) {
            assert!(is_entailed(&draft, &step), "{step:?} {draft:?}");
            checked += 1;
        }
    }
    println!("{checked} steps checked");
    assert!(checked > 800);
}

/// The places of the wider resolutions.
fn wider(draft: &Draft) -> impl Iterator<Item = usize> + '_ {
    let all = 0..draft.steps.len();
    all.filter(|place| resolution_at(draft, *place).is_some_and(|body| is_wider(draft, &body)))
}

/// A wider resolution with what it rests on, and what rests on it.
struct Seen<'a> {
    draft: &'a Draft,
    step: Body,
    premises: [Body; 2],
    citing: Vec<Body>,
    last_rests_on_it: bool,
}

impl<'a> Seen<'a> {
    fn new(draft: &'a Draft, place: usize, rested_on: &[bool]) -> Self {
        let step = resolution_at(draft, place).unwrap();
        let behind = (place + 1..draft.steps.len()).filter_map(|other| resolution_at(draft, other));
        let number = place as u32 + 1;
        let cites = |body: &Body| (0..2).any(|part| body.citation(part) == Some(number));
        Seen {
            draft,
            premises: premises(draft, &step).unwrap(),
            citing: behind.filter(cites).collect(),
            last_rests_on_it: rested_on[place],
            step,
        }
    }

    fn lesser(&self) -> u64 {
        self.premises[0].bound.min(self.premises[1].bound)
    }

    fn is_lower(&self) -> bool {
        self.step.bound < self.lesser()
    }

    fn pivot(&self) -> u16 {
        self.step.pivot().unwrap()
    }

    /// Neither premise asks for these.
    fn further(&self) -> Vec<u16> {
        let asked = |code: &u16| {
            let held = self.premises.iter().any(|premise| premise.holds(*code));
            held && code / 2 != self.pivot()
        };
        let mut further = self.step.literals.clone();
        further.retain(|code| !asked(code));
        further
    }

    /// A further literal of another variable than the pivot.
    fn some(&self, wanted: fn(&Self, u16) -> bool) -> bool {
        let further = self.further().into_iter();
        let mut others = further.filter(|code| code / 2 != self.pivot());
        others.any(|code| wanted(self, code))
    }

    fn is_end(&self, code: u16, end: Option<&u16>) -> bool {
        end == Some(&code) && self.step.literals.len() > 1
    }

    /// A step that cites this one holds one of its further literals, or does not.
    fn some_citing(&self, holds: bool) -> bool {
        let further = self.further();
        let mut citing = self.citing.iter();
        citing.any(|body| further.iter().any(|code| body.holds(*code) == holds))
    }
}

/// What a step may have, and how it is seen.
type Feature = (&'static str, fn(&Seen) -> bool);

const FEATURES: [Feature; 22] = [
    ("further positive literal", |s| {
        s.some(|_, code| code % 2 == 0)
    }),
    ("further negative literal", |s| {
        s.some(|_, code| code % 2 == 1)
    }),
    ("further literal before all others", |s| {
        s.some(|s, code| s.is_end(code, s.step.literals.first()))
    }),
    ("further literal behind all others", |s| {
        s.some(|s, code| s.is_end(code, s.step.literals.last()))
    }),
    ("pivot kept as true", |s| s.step.holds(2 * s.pivot())),
    ("pivot kept as false", |s| s.step.holds(2 * s.pivot() + 1)),
    ("nothing but further literals", |s| {
        s.further() == s.step.literals && !s.step.literals.is_empty()
    }),
    ("literal of every variable", |s| {
        s.step.literals.len() == s.draft.variables() && !s.further().is_empty()
    }),
    ("four further literals", |s| s.further().len() >= 4),
    ("wider and as high as may be", |s| !s.is_lower()),
    ("lower and not wider", |s| s.further().is_empty()),
    ("wider and lower", |s| {
        s.is_lower() && !s.further().is_empty()
    }),
    ("bound one below the lesser", |s| {
        s.is_lower() && s.step.bound == s.lesser() - 1
    }),
    ("bound 0", |s| s.is_lower() && s.step.bound == 0),
    ("lesser none, bound one below", |s| {
        s.lesser() == NONE && s.step.bound == NONE - 1
    }),
    ("lesser none, bound no cost", |s| {
        s.lesser() == NONE && s.is_lower() && s.step.bound > 1 << 42
    }),
    ("lesser none, bound a cost", |s| {
        s.lesser() == NONE && (1..1 << 42).contains(&s.step.bound)
    }),
    ("bounds over 32 bits", |s| {
        s.is_lower() && s.step.bound > 1 << 32 && s.lesser() < 1 << 42
    }),
    ("carried on", |s| s.some_citing(true)),
    ("resolved away", |s| s.some_citing(false)),
    ("the last step rests on it", |s| s.last_rests_on_it),
    ("both premises wider too", |s| {
        let mut premises = s.premises.iter();
        premises.all(|premise| is_wider(s.draft, premise))
    }),
];

#[test]
fn steps_come_with_every_feature() {
    let mut random = Random::new(73);
    let mut met = [0; FEATURES.len()];
    for _ in 0..600 {
        let draft = some_draft(&mut random);
        let rested_on = rested_on(&draft, draft.steps.len() - 1);
        for place in wider(&draft) {
            let seen = Seen::new(&draft, place, &rested_on);
            count_seen(&mut met, FEATURES.map(|(_, is_seen)| is_seen(&seen)));
        }
    }
    assert_each_met(&met, &FEATURES.map(|(name, _)| name));
}

/// A literal left out, turned round or added, or another bound: the step is refused by 17 or 18 where a premise asks for the
/// literal or the bound is above, and passes elsewhere, whatever the steps behind it do.
#[test]
fn one_literal_or_bound_off() {
    let mut random = Random::new(74);
    let mut met = Tally::default();
    for _ in 0..60 {
        let draft = some_draft(&mut random);
        for (place, changed) in one_off(&draft) {
            let (answer, number) = (judged(&changed), place as u64 + 1);
            let step = resolution_at(&changed, place).unwrap();
            match resolution_faults(&changed, &step).first() {
                Some(fault) => assert_eq!((answer.number, answer.place), (*fault, number)),
                None => {
                    let behind = answer.place > number || answer.number == 19;
                    assert!(!answer.refuses() || behind, "{answer:?} {changed:?}");
                }
            }
            met.add(Outcome::of(&answer));
        }
    }
    println!("{met}");
    for number in [17, 18, 19] {
        assert!(met.of(Outcome::Refused(number)) > 200, "{number}");
    }
    for outcome in [Outcome::Least, Outcome::NoneExists, Outcome::Within] {
        assert!(met.of(outcome) > 50, "{outcome}");
    }
}

/// The faults of each changed step, by what they are named after.
const WANTED: [(&str, &[&[u32]]); 14] = [
    ("8 both ways and pivot", &[&[8, 16]]),
    ("8 both ways and literal missing", &[&[8, 17]]),
    ("8 both ways and bound above", &[&[8, 18]]),
    ("16 pivot, and nothing missing", &[&[16]]),
    ("16 pivot and literal missing", &[&[16, 17]]),
    ("16 pivot and bound above", &[&[16, 18]]),
    ("16 pivot, literal and bound", &[&[16, 17, 18]]),
    ("17 literal missing and bound above", &[&[17, 18]]),
    ("16 pivot before a later form", &[&[16], &[8]]),
    ("17 literal before a later form", &[&[17], &[8]]),
    ("17 literal before a later pivot", &[&[17], &[16]]),
    ("18 bound before a later form", &[&[18], &[8]]),
    ("18 bound before a later pivot", &[&[18], &[16]]),
    ("18 bound before a later literal", &[&[18], &[17]]),
];

#[test]
fn faults_that_show_an_order_have_all_their_faults() {
    let ordered = damage::all_aimed().filter(|fault| matches!(fault.way, Way::Resolve(_)));
    assert_eq!(ordered.count(), WANTED.len());
    let mut random = Random::new(75);
    let mut made = [0; WANTED.len()];
    for _ in 0..100 {
        let draft = some_draft(&mut random);
        for (made, (name, numbers)) in made.iter_mut().zip(WANTED) {
            let fault = damage::all_aimed().find(|fault| fault.aimed == name);
            let (after, done) = damage::changed(&[*fault.unwrap()], &draft, &mut random);
            if !done {
                continue;
            }
            let changed = changed_steps(&draft, &after);
            let found = changed.iter().map(|step| resolution_faults(&after, step));
            let wanted = numbers.iter().map(|n| n.iter().copied().collect());
            assert!(found.eq(wanted), "{name}: {after:?}");
            let (answer, place) = (judged(&after), first_difference(&draft.steps, &after.steps));
            let told = (numbers[0][0], place);
            assert_eq!((answer.number, answer.place), told, "{name}: {after:?}");
            *made += 1;
        }
    }
    println!("made {made:?}");
    assert!(made.iter().all(|made| *made > 20));
}

/// Both examples: the fourth step holds "3 true", which the third has, or does not.
#[test]
fn examples_with_wider_resolutions() {
    for (name, fourth) in [("R1", vec![2, 6]), ("R2", vec![2])] {
        let draft = branched(fourth);
        let (example, files) = (example(name), draft.files());
        assert_eq!(files.sheet, example.sheet);
        assert_eq!(files.record, example.record);
        assert_eq!(reference::line(&judged(&draft)) + "\n", example.line);
    }
    assert_eq!(wider(&branched(vec![2, 6])).count(), 4);
}

fn branched(fourth: Vec<u16>) -> Draft {
    let mut draft = Draft {
        loss: None,
        costs: vec![3, 5, 2],
        clauses: [[2, 4], [2, 5]].map(|clause| code_bytes(&clause)).into(),
        claim: 3,
        assignment: vec![1],
        steps: Vec::new(),
    };
    let lower = |bound: u64, step: Body| Body { bound, ..step };
    let [first, second] = [0, 1].map(|place| copy(&draft, place));
    let both = [(&first, 1), (&second, 2)];
    let third = lower(8, resolution(both, 2, vec![2, 4, 6]));
    let fifth = lower(7, resolution(both, 2, vec![2, 5, 7]));
    let fourth = lower(3, resolution([(&third, 3), (&second, 2)], 2, fourth));
    let sixth = lower(5, resolution([(&first, 1), (&fifth, 5)], 2, vec![2, 7]));
    let seventh = resolution([(&fourth, 4), (&sixth, 6)], 3, vec![2]);
    let eighth = Body::cost(&draft, vec![3]);
    let ninth = resolution([(&seventh, 7), (&eighth, 8)], 1, Vec::new());
    let steps = [
        first, second, third, fourth, fifth, sixth, seventh, eighth, ninth,
    ];
    assert!(steps[2..7].iter().all(|step| step.kind == KIND));
    draft.steps = steps.iter().map(Body::bytes).collect();
    draft
}
