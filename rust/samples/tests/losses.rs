//! Standing losses in the samples: every sort of them is met, and what changes a loss, a claim or a bound for it does what it
//! is called.

mod common;

use common::{changed_steps, judged, some_draft};
use planner::padding::{Kind, Mix};
use planner::{format, search, MOST_VARIABLES, NONE};
use samples::damage::{self, Damage};
use samples::draft::{code_bytes, read_u16, sheet_parts, Body, Draft, Files, Head};
use samples::examples::example;
use samples::random::Random;
use samples::weights::branch::{copy, resolution};
use samples::weights::{sums, Weights};
use samples::{
    long, long_widened, long_with_loss, long_with_weights, sheets, stream, widening, Sample,
};
use std::collections::BTreeMap;

/// As many variables as there may be, and every one of them and the loss as dear.
fn is_dearest(sheet: &[u8]) -> bool {
    let parts = sheet_parts(sheet).expect("a valid sheet");
    let most = parts.loss == Some(u32::MAX) && parts.costs.len() == MOST_VARIABLES;
    most && parts.costs.iter().all(|cost| *cost == u32::MAX)
}

#[test]
fn losses_of_every_sort_are_met() {
    let mut met: BTreeMap<(&str, bool), usize> = BTreeMap::new();
    for sample in stream(21).take(40_000) {
        if !reference::sheet_is_valid(&sample.sheet) {
            continue;
        }
        let answer = reference::judge(&sample.sheet, &sample.record);
        let parts = sheet_parts(&sample.sheet).expect("a valid sheet");
        let key = (sheets::loss_sort(parts.loss), answer.refuses());
        *met.entry(key).or_default() += 1;
    }
    println!("by the loss, and whether it is refused: {met:?}");
    for refused in [false, true] {
        let counts = sheets::LOSS_SORTS.map(|sort| met[&(sort, refused)]);
        let all: usize = counts.iter().sum();
        assert!((40..60).contains(&(100 * counts[0] / all)), "{counts:?}");
        assert!(counts.iter().all(|count| 20 * count > all), "{counts:?}");
    }
}

/// Any two of their costs leave 32 bits, and the loss and any of them do.
#[test]
fn some_wide_sheets_cost_as_much_as_they_may() {
    let mut random = Random::new(24);
    let mut dearest = 0;
    for _ in 0..100 {
        let problem = sheets::wide(&mut random);
        let sheet = format::sheet(&problem);
        if is_dearest(&sheet) {
            let plan = search::plan(&problem);
            assert!(reference::judge(&sheet, &plan.record()).accepts());
            dearest += 1;
        }
    }
    assert!((10..40).contains(&dearest), "{dearest}");
}

/// What the names say of the parts before and after.
type Said = fn(&Draft, &Draft) -> bool;

const SAID: [(&str, Said); 25] = [
    ("2 mark and one variable too many", |_, after| {
        after.loss.is_some() && after.variables() == MOST_VARIABLES + 1
    }),
    ("11 claim without the loss", |before, after| {
        let [right, wrong] = claims(before, after);
        after.standing_loss() > 0 && right == wrong + after.standing_loss()
    }),
    ("11 claim with the loss twice", |before, after| {
        let [right, wrong] = claims(before, after);
        after.standing_loss() > 0 && wrong == right + after.standing_loss()
    }),
    ("11 loss changed", |before, after| {
        before.loss.is_some()
            && after.loss.is_some()
            && before.standing_loss() != after.standing_loss()
    }),
    ("11 mark and a loss added", |before, after| {
        before.loss.is_none() && after.standing_loss() > 0
    }),
    ("11 mark and its loss taken away", |before, after| {
        before.standing_loss() > 0 && after.loss.is_none()
    }),
    ("12 loss as the bound", |before, after| {
        one_bound(before, after) == [NONE, after.standing_loss()]
    }),
    ("12 none and the loss in 64 bits", |before, after| {
        one_bound(before, after) == [NONE, after.standing_loss() - 1]
    }),
    ("13 bound without the loss", is_without),
    ("15 bound without the loss", is_without),
    ("24 bound without the loss", is_without),
    ("13 bound with the loss twice", is_twice),
    ("15 bound with the loss twice", is_twice),
    ("24 bound with the loss twice", is_twice),
    ("15 loss for each clause", |before, after| {
        let [right, wrong] = one_bound(before, after);
        let cited = changed_steps(before, after)[0].cited().len() as u64;
        cited > 1 && wrong - right == (cited - 1) * after.standing_loss()
    }),
    ("18 loss added to the lesser", |before, after| {
        let step = changed_steps(before, after).remove(0);
        let needed = widening::Needed::of(after, &step).unwrap();
        after.standing_loss() > 0 && step.bound == needed.bound + after.standing_loss()
    }),
    ("24 loss before the division", |before, after| {
        let (step, total, divisor) = weighted(before, after);
        let sum = (total + i128::from(after.standing_loss())).max(0);
        let reached = |bound: i128| bound * divisor >= sum;
        let bound = i128::from(step.bound);
        reached(bound) && (bound == 0 || !reached(bound - 1))
    }),
    ("24 total below zero taken off the loss", |before, after| {
        let (step, total, divisor) = weighted(before, after);
        let off = i128::from(after.standing_loss()) - i128::from(step.bound);
        total < 0 && off > 0 && (step.bound == 0 || off == -total / divisor)
    }),
    ("13 loss changed, and the claim with it", claim_follows),
    ("15 loss changed, and the claim with it", claim_follows),
    ("24 loss changed, and the claim with it", claim_follows),
    ("accepted mark with a loss of 0 added", |before, after| {
        (before.loss, after.loss) == (None, Some(0)) && same_answer(before, after)
    }),
    (
        "accepted mark with a loss of 0 taken away",
        |before, after| (before.loss, after.loss) == (Some(0), None) && same_answer(before, after),
    ),
    (
        "accepted loss changed, and the record with it",
        |before, after| before.standing_loss() != after.standing_loss() && is_dearer(before, after),
    ),
    (
        "accepted most variables and the largest loss",
        |before, after| {
            let most = after.variables() == MOST_VARIABLES && after.loss == Some(u32::MAX);
            most && is_dearer(before, after)
        },
    ),
];

/// The claims, where nothing else is another.
fn claims(before: &Draft, after: &Draft) -> [u64; 2] {
    assert_eq!(before.steps, after.steps);
    assert_eq!((&before.costs, before.loss), (&after.costs, after.loss));
    [before.claim, after.claim]
}

/// The bounds of the one step that was changed, in nothing else.
fn one_bound(before: &Draft, after: &Draft) -> [u64; 2] {
    let [old, new] = [(after, before), (before, after)].map(|(one, other)| {
        let mut steps = changed_steps(one, other);
        assert_eq!(steps.len(), 1);
        steps.remove(0)
    });
    let bound = old.bound;
    assert_eq!(
        Body {
            bound,
            ..new.clone()
        }
        .bytes(),
        old.bytes()
    );
    [old.bound, new.bound]
}

fn is_without(before: &Draft, after: &Draft) -> bool {
    let [right, wrong] = one_bound(before, after);
    after.standing_loss() > 0 && right == wrong + after.standing_loss()
}

fn is_twice(before: &Draft, after: &Draft) -> bool {
    let [right, wrong] = one_bound(before, after);
    after.standing_loss() > 0 && wrong == right + after.standing_loss()
}

/// The changed step of kind 5, its total and its divisor.
fn weighted(before: &Draft, after: &Draft) -> (Body, i128, i128) {
    let step = changed_steps(before, after).remove(0);
    let divisor = Weights::read(&step.tail).unwrap().divisor;
    let total = sums(after, &step).unwrap().total();
    (step, total, divisor.into())
}

/// There is one step more, and the claim is the assignment's cost again.
fn claim_follows(before: &Draft, after: &Draft) -> bool {
    let more = after.steps.len() == before.steps.len() + 1;
    let follows = before.claim == NONE || after.claim == after.assignment_cost();
    more && follows && before.standing_loss() != after.standing_loss()
}

fn same_answer(before: &Draft, after: &Draft) -> bool {
    let (one, other) = (before.files(), after.files());
    one.record == other.record
        && one.sheet.len().abs_diff(other.sheet.len()) == 4
        && judged(before) == judged(after)
}

/// The answer is the same but for its cost, which the loss raises or lowers.
fn is_dearer(before: &Draft, after: &Draft) -> bool {
    let (mut wanted, answer) = (judged(before), judged(after));
    if wanted.cost != NONE {
        wanted.cost = wanted.cost - before.standing_loss() + after.standing_loss();
    }
    wanted == answer
}

#[test]
fn changes_do_what_they_are_called() {
    let mut random = Random::new(22);
    let mut met: BTreeMap<&str, usize> = BTreeMap::new();
    for _ in 0..400 {
        let draft = some_draft(&mut random);
        for (name, said) in SAID {
            let (after, done) = damage::changed(&[fault(name)], &draft, &mut random);
            if done {
                assert!(said(&draft, &after), "{name}: {draft:?} {after:?}");
                *met.entry(name).or_default() += 1;
            }
        }
    }
    println!("{met:?}");
    assert!(SAID.iter().all(|(name, _)| met[name] >= 10));
}

fn fault(name: &str) -> Damage {
    let found = damage::LOSSES.iter().find(|fault| fault.aimed == name);
    *found.expect("a fault of that name")
}

/// What the names say of the sheet's bytes before and after.
type SaidOfBytes = fn(&[u8], &[u8]) -> bool;

const OF_BYTES: [(&str, SaidOfBytes); 7] = [
    ("2 mark and no variables", |before, after| {
        read_u16(after, 0) == Some(0x8000) && after[2..] == before[2..]
    }),
    ("2 loss left out", |before, after| is_cut(before, after, 0)),
    ("2 loss of one byte", |before, after| {
        is_cut(before, after, 1)
    }),
    ("2 loss of two bytes", |before, after| {
        is_cut(before, after, 2)
    }),
    ("2 loss of three bytes", |before, after| {
        is_cut(before, after, 3)
    }),
    ("3 loss put in, and the pairs left", |before, after| {
        is_taken_out(after, before)
    }),
    ("3 loss taken out, and the pairs left", is_taken_out),
];

fn is_cut(before: &[u8], after: &[u8], left: usize) -> bool {
    let costs = 4 * Head::read(before).unwrap().variables;
    before[1] >= 0x80 && before[..4 + costs + left] == *after
}

/// The one has a mark and a loss, and the other all the rest.
fn is_taken_out(marked: &[u8], unmarked: &[u8]) -> bool {
    let loss = 4 + 4 * Head::read(unmarked).unwrap().variables;
    let [mut rest, other] = [marked, unmarked].map(<[u8]>::to_vec);
    rest.drain(loss..loss + 4);
    rest[1] ^= 0x80;
    marked[1] >= 0x80 && rest == other
}

#[test]
fn changes_of_bytes_do_what_they_are_called() {
    assert_eq!(SAID.len() + OF_BYTES.len(), damage::LOSSES.len());
    let mut random = Random::new(23);
    let mut met: BTreeMap<&str, usize> = BTreeMap::new();
    for _ in 0..200 {
        let draft = some_draft(&mut random);
        let before = draft.files();
        for (name, said) in OF_BYTES {
            if let Some(Files { sheet, record }) =
                damage::apply(&[fault(name)], &draft, &mut random)
            {
                assert!(said(&before.sheet, &sheet), "{name}: {before:?} {sheet:?}");
                assert_eq!(record, before.record);
                *met.entry(name).or_default() += 1;
            }
        }
    }
    println!("{met:?}");
    assert!(OF_BYTES.iter().all(|(name, _)| met[name] >= 10));
}

/// What the benchmark measures has no mark, whatever the other samples have.
#[test]
fn long_samples_are_unmarked() {
    let longs = [
        Mix::Mixed,
        Mix::Resolution,
        Mix::Long,
        Mix::LongOf(Kind::Linear),
    ];
    let longs = longs.map(|mix| long(5, 20_000, mix)).into_iter();
    let widened = [Mix::Mixed, Mix::Resolution].map(|mix| long_widened(None, 5, 20_000, mix));
    let weighted = (1..20).map(|seed| long_with_weights(None, seed, 20_000));
    for Sample { sheet, .. } in longs.chain(widened).chain(weighted) {
        assert!(!Head::read(&sheet).unwrap().is_marked);
    }
}

/// The same but for the loss, which the claim and the bounds have.
#[test]
fn long_samples_may_have_a_loss() {
    for mix in [Mix::Mixed, Mix::Long, Mix::LongOf(Kind::Linear)] {
        let [plain, marked] = [None, Some(7)].map(|loss| long_with_loss(loss, 5, 100_000, mix));
        assert_eq!(plain, long(5, 100_000, mix));
        let [without, with] = [&plain, &marked].map(|sample| {
            let Sample { sheet, record, .. } = sample.clone();
            Draft::read(&Files { sheet, record }).unwrap()
        });
        assert_eq!((with.loss, &with.clauses), (Some(7), &without.clauses));
        assert_eq!(with.steps.len(), without.steps.len());
        assert!(
            judged(&with).accepts() && is_dearer(&without, &with),
            "{mix:?}"
        );
    }
}

/// Weights and widening are drawn by the bounds, so that other steps may come of a loss; the sheet is the same but for it.
#[test]
fn other_long_samples_may_have_a_loss() {
    let weighted = [None, Some(7)].map(|loss| long_with_weights(loss, 5, 20_000));
    let widened = [None, Some(7)].map(|loss| long_widened(loss, 5, 20_000, Mix::Mixed));
    for [plain, marked] in [weighted, widened] {
        let [without, with] = [&plain, &marked].map(|sample| sheet_parts(&sample.sheet).unwrap());
        assert_eq!((without.loss, with.loss), (None, Some(7)));
        assert_eq!(without.costs, with.costs);
        assert_eq!(without.clauses, with.clauses);
        let [without, with] =
            [plain, marked].map(|sample| reference::judge(&sample.sheet, &sample.record));
        assert!(without.accepts() && with.accepts());
        assert_eq!(without.cost + 7, with.cost);
    }
}

/// The plan of L1: the steps that close it, with the loss in the bound of the cost.
fn classroom() -> Draft {
    let mut draft = Draft {
        loss: Some(4),
        costs: vec![3, 5],
        clauses: [[2, 4], [2, 5]].map(|clause| code_bytes(&clause)).into(),
        claim: 4 + 3,
        assignment: vec![1],
        steps: Vec::new(),
    };
    let [first, second] = [0, 1].map(|place| copy(&draft, place));
    let third = resolution([(&first, 1), (&second, 2)], 2, vec![2]);
    let fourth = Body::cost(&draft, vec![3]);
    let fifth = resolution([(&third, 3), (&fourth, 4)], 1, Vec::new());
    assert_eq!((fourth.bound, fifth.bound), (7, 7));
    let steps = [first, second, third, fourth, fifth];
    draft.steps = steps.iter().map(Body::bytes).collect();
    draft
}

/// The step of L2, whose bound has the loss halved with the total.
fn halved() -> Draft {
    let mut draft = Draft {
        loss: Some(4),
        costs: vec![1; 3],
        clauses: [[2, 4], [2, 6], [4, 6]]
            .map(|clause| code_bytes(&clause))
            .into(),
        claim: 4 + 2,
        assignment: vec![3],
        steps: Vec::new(),
    };
    let entries = (1..=3).map(|number| (number, 1)).collect();
    let weights = Weights {
        divisor: 2,
        entries,
    };
    let mut step = weights.step(&draft, Vec::new()).unwrap();
    assert_eq!((sums(&draft, &step).unwrap().total(), step.bound), (3, 6));
    step.bound = (3 + 4_u64).div_ceil(2);
    draft.steps.push(step.bytes());
    draft
}

#[test]
fn examples_with_a_loss() {
    for (name, draft) in [("L1", classroom()), ("L2", halved())] {
        let (example, files) = (example(name), draft.files());
        assert_eq!(files.sheet, example.sheet);
        assert_eq!(files.record, example.record);
        assert_eq!(reference::line(&judged(&draft)) + "\n", example.line);
    }
}
