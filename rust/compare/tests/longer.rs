//! Records that pass beside a sheet, judged beside a longer one, which has the same costs, the same loss, and the same clauses
//! with more behind them. The proved checker and the reference one say to it what is told beforehand: from the answer beside the
//! shorter sheet and its number of clauses, the record's claim and assignment, and the literals of the added clauses. A difference
//! prints the files.

use compare::{hex, judge, setting};
use planner::padding::Mix;
use planner::{MOST_CLAUSES, NONE};
use reference::Answer;
use samples::draft::{Draft, Files};
use samples::examples::{examples, Example};
use samples::longer::{every_shape, stream, to_the_most, unalike, Effect, Longer, SHAPES};
use samples::outcome::Outcome;
use samples::random::Random;
use samples::sheets::{loss_sort, LOSS_SORTS};
use samples::{greatest, long_widened, long_with_loss, long_with_weights, Sample};
use std::collections::{BTreeMap, BTreeSet};

/// How many pairs of sheets are compared, unless COMPARE_COUNT says otherwise; from which seed, unless COMPARE_SEED does.
const COUNT: usize = 50_000;
const SEED: u64 = 2;

const BROKEN_RULE: u32 = 10;
const TOO_MANY_CLAUSES: u32 = 2;

/// The answers of the records that pass.
const PASSED: [Outcome; 3] = [Outcome::Least, Outcome::NoneExists, Outcome::Within];
const BROKEN: Outcome = Outcome::Refused(BROKEN_RULE);

/// Variable v has bit v - 1 of the assignment, and the codes 2 v and 2 v + 1.
fn is_true(assignment: &[u8], code: u16) -> bool {
    let place = usize::from(code / 2) - 1;
    let is_set = assignment[place / 8] >> (place % 8) & 1 == 1;
    is_set == code.is_multiple_of(2)
}

/// What the record gets beside the longer sheet, if this is what it got beside the shorter one: the same, where its assignment
/// satisfies the added clauses or it claims "none", and else 10 at the first of them that it breaks.
fn foretold(pair: &Longer, answer: &Answer) -> Answer {
    let Draft {
        assignment,
        clauses,
        claim,
        ..
    } = &pair.draft;
    let mut added = pair.added.iter();
    let broken = added.position(|clause| !clause.iter().any(|code| is_true(assignment, *code)));
    match broken.filter(|_| *claim != NONE) {
        None => *answer,
        Some(place) => refused(BROKEN_RULE, clauses.len() + 1 + place),
    }
}

fn refused(number: u32, place: usize) -> Answer {
    Answer {
        number,
        place: place as u64,
        cost: 0,
        open_count: 0,
        step_count: 0,
        gap: 0,
    }
}

/// Which sort of loss the shorter sheet has, and which the longer one.
type Losses = [&'static str; 2];

/// How often each sort of pair was tried.
#[derive(Default)]
struct Met {
    /// By what was added, and the answers beside the shorter and the longer sheet.
    answers: BTreeMap<(&'static str, Outcome, Outcome), usize>,
    /// By the losses, and the answer beside the longer sheet.
    losses: BTreeMap<(Losses, Outcome), usize>,
    /// The steps of the records, by their kinds.
    steps: BTreeMap<u8, usize>,
    /// Records that claim "none", where the assignment that they have, all false, breaks an added clause.
    broken_under_none: usize,
}

impl Met {
    fn add(&mut self, pair: &Longer, answer: &Answer, longer: &Answer) {
        let [before, after] = [answer, longer].map(Outcome::of);
        let losses = [pair.draft.loss, pair.loss].map(loss_sort);
        *self.answers.entry((pair.what, before, after)).or_default() += 1;
        *self.losses.entry((losses, after)).or_default() += 1;
        for step in &pair.draft.steps {
            *self.steps.entry(step[0]).or_default() += 1;
        }
        let is_none = before == Outcome::NoneExists;
        let is_broken = |clause: &Vec<u16>| clause.iter().all(|code| code.is_multiple_of(2));
        self.broken_under_none += usize::from(is_none && pair.added.iter().any(is_broken));
    }

    fn print(&self) {
        let count: usize = self.answers.values().sum();
        println!("{count} pairs; steps by kind: {:?}", self.steps);
        println!("none, and a clause is broken: {}", self.broken_under_none);
        for ((what, before, after), count) in &self.answers {
            println!("{what}: {before} to {after}: {count}");
        }
        for (([before, after], outcome), count) in &self.losses {
            println!("loss {before} to {after}: {outcome}: {count}");
        }
    }

    /// Every sort of pair was tried so often at least, and no other.
    fn assert_each(&self, few: usize) {
        self.print();
        let met: BTreeSet<_> = self.answers.keys().copied().collect();
        assert_eq!(met, every_answer());
        let met: BTreeSet<_> = self.losses.keys().copied().collect();
        assert_eq!(met, every_loss());
        let kinds: Vec<u8> = self.steps.keys().copied().collect();
        assert_eq!(kinds, [1, 2, 3, 4, 5]);
        let answers = self.answers.values().chain(self.losses.values());
        let least = answers.min().expect("something was tried");
        assert!(*least >= few, "a sort was tried {least} times, under {few}");
        assert!(self.broken_under_none >= few);
    }
}

/// What can be added, and how the answers can go together then.
fn every_answer() -> BTreeSet<(&'static str, Outcome, Outcome)> {
    let mut all = BTreeSet::new();
    for (what, effect, _) in SHAPES {
        for before in PASSED {
            let stays = before == Outcome::NoneExists || *effect != Effect::Break;
            let breaks = before != Outcome::NoneExists && *effect != Effect::Hold;
            // Whoever keeps the sheet's clauses keeps them twice.
            let breaks = breaks && *what != "the sheet's own again";
            all.extend(stays.then_some((*what, before, before)));
            all.extend(breaks.then_some((*what, before, BROKEN)));
        }
    }
    all
}

/// The losses that are alike: each sort with itself, and no mark with a mark of 0. Each comes with every answer.
fn every_loss() -> BTreeSet<(Losses, Outcome)> {
    let mut losses: Vec<Losses> = LOSS_SORTS.iter().map(|sort| [*sort; 2]).collect();
    let [unmarked, zero, ..] = LOSS_SORTS;
    losses.extend([[unmarked, zero], [zero, unmarked]]);
    let outcomes = PASSED.into_iter().chain([BROKEN]);
    let with = |outcome| losses.iter().map(move |losses| (*losses, outcome));
    outcomes.flat_map(with).collect()
}

fn read(sheet: Vec<u8>, record: Vec<u8>) -> Draft {
    Draft::read(&Files { sheet, record }).expect("both files are good")
}

/// The answers of both checkers, where they are the same.
fn same(sheet: &[u8], record: &[u8], what: &str) -> Answer {
    let (ours, wanted) = (judge(sheet, record), reference::judge(sheet, record));
    assert!(
        ours == wanted,
        "{what}\n{ours:?}\nthe reference checker {wanted:?}\nsheet {}\nrecord {}",
        hex(sheet),
        hex(record)
    );
    ours
}

/// Both checkers say to the longer sheet what was foretold. Answers what they say.
fn on_a_pair(pair: &Longer, met: &mut Met) -> Answer {
    let Files { sheet, record } = pair.draft.files();
    let answer = same(&sheet, &record, pair.what);
    assert!(!answer.refuses(), "{answer:?}");
    let longer = pair.sheet();
    let (ours, wanted) = (same(&longer, &record, pair.what), foretold(pair, &answer));
    assert!(
        ours == wanted,
        "{}\n{ours:?}\nforetold {wanted:?}\nsheet {}\nlonger {}\nrecord {}",
        pair.what,
        hex(&sheet),
        hex(&longer),
        hex(&record)
    );
    met.add(pair, &answer, &ours);
    ours
}

#[test]
fn on_generated_pairs() {
    let count = setting("COMPARE_COUNT", COUNT);
    let seed = setting("COMPARE_SEED", SEED);
    let mut met = Met::default();
    for pair in stream(seed).take(count) {
        on_a_pair(&pair, &mut met);
    }
    println!("seed {seed}");
    // Fewer pairs need not meet every sort.
    let few = count / 5_000;
    if few > 0 {
        met.assert_each(few);
    }
}

/// Records with changes that no refusal meets, and those between them that nothing was done to.
#[test]
fn on_records_that_pass_among_damaged_ones() {
    let count = setting("COMPARE_COUNT", COUNT);
    let seed = setting("COMPARE_SEED", SEED);
    let mut random = Random::new(seed);
    let (mut met, mut aims) = (Met::default(), BTreeSet::new());
    let samples = samples::stream(seed).take(count);
    let passed = samples.filter(|sample| !judge(&sample.sheet, &sample.record).refuses());
    for (turn, sample) in passed.enumerate() {
        let draft = read(sample.sheet, sample.record);
        let pairs = every_shape(&draft, &mut random);
        on_a_pair(&pairs[turn % pairs.len()], &mut met);
        aims.insert(sample.aimed);
    }
    met.print();
    println!("seed {seed}, {} sorts of records", aims.len());
    assert!(aims.len() > 20 || count < COUNT);
}

#[test]
fn on_every_example() {
    let (mut met, mut random) = (Met::default(), Random::new(SEED));
    for Example { sheet, record, .. } in examples() {
        if judge(&sheet, &record).refuses() {
            continue;
        }
        let draft = read(sheet, record);
        for _ in 0..20 {
            for pair in every_shape(&draft, &mut random) {
                on_a_pair(&pair, &mut met);
            }
        }
    }
    met.print();
    let answers: BTreeSet<_> = met.answers.keys().copied().collect();
    assert_eq!(answers, every_answer());
}

/// As many clauses as a sheet may have, of which none is broken, the last, the first, or one between. One more is refused for
/// itself, and then nothing is said of the record.
#[test]
fn on_as_many_clauses_as_there_may_be() {
    let mut random = Random::new(SEED);
    let (mut met, mut breaking) = (Met::default(), BTreeSet::new());
    for (turn, mut pair) in stream(SEED + 1).step_by(SHAPES.len()).take(60).enumerate() {
        let room = MOST_CLAUSES - pair.draft.clauses.len();
        let between = random.between(1, room - 2);
        let broken = [None, Some(room - 1), Some(0), Some(between)][turn % 4];
        pair.added = to_the_most(&pair.draft, broken, &mut random);
        pair.what = "all that fit";
        let answer = on_a_pair(&pair, &mut met);
        if answer.refuses() {
            let first = broken.map(|place| pair.draft.clauses.len() + 1 + place);
            assert_eq!(Some(answer.place as usize), first);
            breaking.insert(turn % 4);
        }
        pair.added.push(Vec::new());
        let record = pair.draft.files().record;
        let one_more = same(&pair.sheet(), &record, "one clause too many");
        assert_eq!(one_more, refused(TOO_MANY_CLAUSES, 0));
    }
    met.print();
    assert_eq!(breaking, BTreeSet::from([1, 2, 3]));
    let stayed = |outcome| met.answers.get(&("all that fit", outcome, outcome));
    assert!(PASSED.into_iter().all(|outcome| stayed(outcome) > Some(&3)));
}

/// A step of kind 2 without literals, whose bound is the loss: behind the others it leaves a record within.
fn weak_step(loss: Option<u32>) -> Vec<u8> {
    let bound = u64::from(loss.unwrap_or(0));
    [&[2, 0, 0, 0][..], &bound.to_le_bytes()].concat()
}

/// Thousands of steps of all kinds, and bounds as large as can be; each record as it is, and with a weak last step.
#[test]
fn on_longer_records() {
    let (mut met, mut random) = (Met::default(), Random::new(SEED));
    let mut long = Vec::new();
    for loss in [None, Some(0), Some(u32::MAX)] {
        long.push(long_with_loss(loss, 3, 60_000, Mix::Mixed));
        long.push(long_with_weights(loss, 5, 12_000));
        long.push(long_widened(loss, 6, 30_000, Mix::Mixed));
    }
    let greatest = greatest::samples().into_iter();
    let accepted = greatest.filter(|(_, outcome)| *outcome == Outcome::Least);
    long.extend(accepted.map(|(sample, _)| sample));
    for Sample { sheet, record, .. } in long {
        let mut draft = read(sheet, record);
        for _ in 0..2 {
            for pair in every_shape(&draft, &mut random) {
                on_a_pair(&pair, &mut met);
            }
            draft.steps.push(weak_step(draft.loss));
        }
    }
    met.print();
    assert!(met.steps.keys().eq(&[1, 2, 3, 4, 5]));
    assert!(met.steps.values().all(|steps| *steps > 10_000));
    let before = |outcome| met.answers.keys().any(|(_, before, _)| *before == outcome);
    assert!(before(Outcome::Least) && before(Outcome::Within));
}

/// What is foretold is not true of sheets that are not alike: another answer is met then, by each change. So these tests could
/// fail.
#[test]
fn nothing_is_foretold_of_sheets_that_are_not_alike() {
    let mut random = Random::new(SEED);
    let mut other: BTreeMap<&str, [usize; 2]> = BTreeMap::new();
    for pair in stream(SEED + 2).take(1_000) {
        let Files { sheet, record } = pair.draft.files();
        let wanted = foretold(&pair, &judge(&sheet, &record));
        for (what, change) in unalike::CHANGES {
            let mut unlike = pair.clone();
            if change(&mut unlike, &mut random).is_some() {
                let answer = same(&unlike.sheet(), &record, what);
                other.entry(what).or_default()[usize::from(answer == wanted)] += 1;
            }
        }
    }
    println!("not as foretold, and as foretold: {other:?}");
    assert_eq!(other.len(), unalike::CHANGES.len());
    assert!(other.values().all(|[unlike, _]| *unlike > 100));
}
