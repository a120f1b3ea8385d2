//! The proved trimmer of records and the reference one give the same answers and leave the same buffers: on every example, and
//! on many generated, padded and damaged records, with marks and outputs that are too short, fit and are too long. What they
//! write is also judged and trimmed again. A difference prints both files.

use compare::{hex, judge, setting, trim};
use planner::format::STEP_COUNT;
use planner::padding::Mix;
use reference::{Answer, Written};
use samples::damage;
use samples::draft::{read_u32, Draft, Files};
use samples::examples::{example, examples, Example};
use samples::outcome::{Outcome, Tally};
use samples::random::Random;
use samples::trimming::idle::padded;
use samples::trimming::{idle_count, stream, to_share, Padded};
use samples::weights::branch::resolution;
use samples::widening::rested_on;
use samples::{greatest, long_widened, long_with_loss, long_with_weights, Sample};

/// How many records are compared, unless COMPARE_COUNT says otherwise; from which seed, unless COMPARE_SEED does. Each is
/// trimmed into many buffers.
const COUNT: usize = 10_000;
const SEED: u64 = 2;

/// The refusals of marks that are too few, and of an output that is too short.
const FEW_MARKS: u32 = 27;
const SHORT_OUTPUT: u32 = 28;

/// So many bytes lie on either side of each buffer, to be left alone.
const MARGIN: usize = 16;

/// What was met: each answer, and records with idle steps and without.
#[derive(Default)]
struct Met {
    outcomes: Tally,
    padded: usize,
    whole: usize,
}

impl Met {
    fn print(&self) {
        let Met { padded, whole, .. } = self;
        println!("{}", self.outcomes);
        println!("{padded} with idle steps, {whole} without");
    }

    /// Everything that short files can meet was met so often at least.
    fn assert_each(&self, few: usize) {
        self.print();
        let buffers = [FEW_MARKS, SHORT_OUTPUT].map(Outcome::Refused);
        for outcome in Outcome::of_short_files().chain(buffers) {
            let count = self.outcomes.of(outcome);
            assert!(count >= few, "{outcome} met {count} times, under {few}");
        }
        assert!(self.padded >= few && self.whole >= few);
    }
}

/// What a call leaves: its answer, and both buffers with the bytes around them.
#[derive(Debug, PartialEq, Eq)]
struct Left {
    answer: Written,
    marks: Vec<u8>,
    out: Vec<u8>,
}

type Trim = fn(&[u8], &[u8], &mut [u8], &mut [u8]) -> Written;

/// How many bytes the marks and the output have.
type Sizes = [usize; 2];

/// A buffer of so many bytes with those around it, before it is lent. None of them is a mark.
fn before(size: usize) -> Vec<u8> {
    let byte = |place: usize| 2 + (place * 89 + size) as u8 % 254;
    (0..size + 2 * MARGIN).map(byte).collect()
}

fn left(trim: Trim, sheet: &[u8], record: &[u8], sizes: Sizes) -> Left {
    let [mut marks, mut out] = sizes.map(before);
    let [mark_range, out_range] = sizes.map(|size| MARGIN..MARGIN + size);
    let answer = trim(sheet, record, &mut marks[mark_range], &mut out[out_range]);
    Left { answer, marks, out }
}

/// The bytes at a buffer's start, if all the others stayed.
fn written(buffer: &[u8], length: usize) -> Option<&[u8]> {
    let before = before(buffer.len() - 2 * MARGIN);
    let end = MARGIN + length;
    let stayed = buffer[..MARGIN] == before[..MARGIN] && buffer[end..] == before[end..];
    stayed.then_some(&buffer[MARGIN..end])
}

/// What both trimmers leave, where it is the same.
fn same(sheet: &[u8], record: &[u8], sizes: Sizes, what: &str) -> Left {
    let ours = left(trim, sheet, record, sizes);
    let wanted = left(reference::trim, sheet, record, sizes);
    assert!(
        ours == wanted,
        "{what}, buffers of {sizes:?}\n{ours:?}\nwanted {wanted:?}\nsheet {}\nrecord {}",
        hex(sheet),
        hex(record)
    );
    ours
}

/// A refused record gives its refusal and leaves every buffer, also where these are too short for the steps that it says it has.
fn on_a_refused_record(sheet: &[u8], record: &[u8], judged: &Answer, what: &str) {
    const MOST: usize = 1_000;
    let length = record.len();
    let steps = read_u32(record, STEP_COUNT).map_or(0, |count| MOST.min(count as usize));
    let short = [steps, length].map(|size| size.saturating_sub(1));
    for sizes in [
        [0, 0],
        [0, length],
        [short[0], length + 9],
        [steps, 0],
        [steps, short[1]],
        [steps + 7, length],
    ] {
        let Left { answer, marks, out } = same(sheet, record, sizes, what);
        let Answer { number, place, .. } = *judged;
        assert_eq!(answer, no_bytes(number, place), "{what}");
        assert_eq!([marks, out], sizes.map(before), "{what}");
    }
}

fn no_bytes(number: u32, place: u64) -> Written {
    Written {
        number,
        place,
        length: 0,
    }
}

/// The marks and the trimmed record, from buffers that are long enough.
fn trimmed(sheet: &[u8], record: &[u8], judged: &Answer, what: &str) -> [Vec<u8>; 2] {
    let steps = judged.step_count as usize;
    let Left { answer, marks, out } = same(sheet, record, [steps + 3, record.len()], what);
    assert_eq!((answer.number, answer.place), (0, 0), "{what}");
    let parts = [
        written(&marks, steps),
        written(&out, answer.length as usize),
    ];
    parts.map(|part| part.expect("the other bytes stay").to_vec())
}

/// The same from buffers of many sizes: 27 and 28 where these ask for it, and 27 first.
fn with_every_size(sheet: &[u8], record: &[u8], parts: &[Vec<u8>; 2], what: &str) -> Tally {
    let mut met = Tally::default();
    let [marks, bytes] = parts;
    let around = |size: usize| [0, size - 1, size, size + 7];
    for mark_count in around(marks.len()) {
        for length in around(bytes.len()) {
            let left = same(sheet, record, [mark_count, length], what);
            let wanted = match (mark_count < marks.len(), length < bytes.len()) {
                (true, _) => (FEW_MARKS, [0, 0]),
                (false, true) => (SHORT_OUTPUT, [marks.len(), 0]),
                (false, false) => (0, [marks.len(), bytes.len()]),
            };
            let (number, [mark_end, end]) = wanted;
            let answer = Written {
                length: end as u64,
                ..no_bytes(number, 0)
            };
            assert_eq!(left.answer, answer, "{what}");
            let begun = [written(&left.marks, mark_end), written(&left.out, end)];
            assert_eq!(
                begun,
                [Some(&marks[..mark_end]), Some(&bytes[..end])],
                "{what}"
            );
            if number != 0 {
                met.add(Outcome::Refused(number));
            }
        }
    }
    met
}

/// The trimmed record is judged as the record was but for the step count, which is that of the marks, and stays when it is
/// trimmed again. Answers how many steps are kept.
fn assert_stays(sheet: &[u8], judged: &Answer, parts: &[Vec<u8>; 2], what: &str) -> usize {
    let [marks, bytes] = parts;
    let kept = marks.iter().filter(|mark| **mark == 1).count();
    assert!(marks.iter().all(|mark| *mark <= 1), "{what}");
    let wanted = Answer {
        step_count: kept as u64,
        ..*judged
    };
    for judge in [judge, reference::judge] {
        assert_eq!(judge(sheet, bytes), wanted, "{what}\nsheet {}", hex(sheet));
    }
    let again = trimmed(sheet, bytes, &wanted, what);
    assert_eq!(again, [vec![1; kept], bytes.clone()], "{what}");
    kept
}

/// All that is asked of both trimmers on two files. What is trimmed is no longer than it was, and where every step is kept, it
/// is the same.
fn on_a_record(sheet: &[u8], record: &[u8], what: &str, met: &mut Met) -> Outcome {
    let judged = judge(sheet, record);
    let outcome = Outcome::of(&judged);
    met.outcomes.add(outcome);
    if judged.refuses() {
        on_a_refused_record(sheet, record, &judged, what);
        return outcome;
    }
    let parts = trimmed(sheet, record, &judged, what);
    assert!(parts[1].len() <= record.len(), "{what}");
    let kept = assert_stays(sheet, &judged, &parts, what);
    if kept < parts[0].len() {
        met.padded += 1;
    } else {
        assert_eq!(parts[1], record, "{what}");
        met.whole += 1;
    }
    let by_buffers = with_every_size(sheet, record, &parts, what);
    met.outcomes.join(&by_buffers);
    outcome
}

#[test]
fn on_every_example() {
    let mut met = Met::default();
    for Example {
        folder,
        sheet,
        record,
        ..
    } in examples()
    {
        on_a_record(&sheet, &record, &folder.display().to_string(), &mut met);
    }
    met.print();
    let answers = [Outcome::Least, Outcome::NoneExists, Outcome::Within];
    let buffers = [FEW_MARKS, SHORT_OUTPUT].map(Outcome::Refused);
    for outcome in answers.into_iter().chain(buffers) {
        assert!(met.outcomes.of(outcome) > 0, "{outcome} is not met");
    }
    assert_eq!(met.padded, 2, "T1 and T2 have idle steps");
}

/// Most of the records here are damaged, and of the others most have idle steps.
#[test]
fn on_generated_and_damaged_records() {
    let count = setting("COMPARE_COUNT", COUNT);
    let seed = setting("COMPARE_SEED", SEED);
    let mut met = Met::default();
    for Sample {
        sheet,
        record,
        aimed,
    } in samples::stream(seed).take(count)
    {
        on_a_record(&sheet, &record, aimed, &mut met);
    }
    println!("seed {seed}, {count} records in buffers of many sizes");
    met.assert_each((count / 500).max(1));
}

/// Records of which all steps are kept, half, a tenth, or all but a few. The marks are also held to what the steps cite.
#[test]
fn on_records_with_idle_steps() {
    let count = setting("COMPARE_COUNT", COUNT) / 5;
    let seed = setting("COMPARE_SEED", SEED);
    let (mut met, mut kept_steps, mut steps) = (Met::default(), 0, 0);
    for Padded { draft, what } in stream(seed).take(count) {
        let Files { sheet, record } = draft.files();
        let outcome = on_a_record(&sheet, &record, what, &mut met);
        assert!(!matches!(outcome, Outcome::Refused(_)), "{what} {outcome}");
        let [marks, _] = trimmed(&sheet, &record, &judge(&sheet, &record), what);
        let kept = rested_on(&draft, draft.steps.len() - 1);
        assert!(marks.iter().copied().eq(kept.into_iter().map(u8::from)));
        kept_steps += draft.steps.len() - idle_count(&draft);
        steps += draft.steps.len();
    }
    met.print();
    println!("seed {seed}, {kept_steps} of {steps} steps kept");
    assert!(2 * kept_steps < steps && met.padded > met.whole);
    for outcome in [Outcome::Least, Outcome::NoneExists, Outcome::Within] {
        assert!(met.outcomes.of(outcome) > count / 50, "few of {outcome}");
    }
}

/// Every fault with an aim, made in records of which most have idle steps, until it has met its aim.
#[test]
fn on_every_fault_in_records_with_idle_steps() {
    let mut random = Random::new(SEED);
    let drafts: Vec<Padded> = stream(SEED + 1).take(200).collect();
    let mut met = Met::default();
    for fault in damage::all_aimed() {
        let aim = fault.aim().expect("an aim");
        let from = random.below(drafts.len());
        let mut tried = drafts.iter().cycle().skip(from).take(drafts.len());
        let mut hits = 0;
        while let Some(Padded { draft, .. }) = tried.next().filter(|_| hits < 3) {
            if let Some(Files { sheet, record }) = damage::apply(&[*fault], draft, &mut random) {
                let outcome = on_a_record(&sheet, &record, fault.aimed, &mut met);
                hits += usize::from(aim.is_met_by(outcome));
            }
        }
        assert!(hits > 0, "{} did not meet its aim", fault.aimed);
    }
    met.assert_each(3);
}

#[test]
fn on_records_cut_or_with_a_bit_changed() {
    let mut met = Met::default();
    for name in ["A1", "W1", "L1", "R1"] {
        let Example { sheet, record, .. } = example(name);
        let draft = Draft::read(&Files { sheet, record }).expect("both files are good");
        let padded = to_share(&draft, 2, &mut Random::new(7));
        let Files { sheet, record } = padded.files();
        for end in 0..record.len() {
            on_a_record(&sheet, &record[..end], "a cut record", &mut met);
        }
        let mut changed = record.clone();
        for place in 0..8 * record.len() {
            changed[place / 8] ^= 1 << (place % 8);
            on_a_record(&sheet, &changed, "one bit changed", &mut met);
            changed[place / 8] = record[place / 8];
        }
    }
    met.print();
    for number in [
        5,
        6,
        7,
        8,
        9,
        11,
        12,
        13,
        16,
        17,
        18,
        FEW_MARKS,
        SHORT_OUTPUT,
    ] {
        assert!(met.outcomes.of(Outcome::Refused(number)) > 0, "no {number}");
    }
    assert!(met.padded > 100);
}

/// Few of the steps are kept, and the numbers that they cite get much smaller.
#[test]
fn on_longer_records() {
    let mut met = Met::default();
    let mut long: Vec<Sample> = Vec::new();
    for loss in [None, Some(7), Some(u32::MAX)] {
        long.push(long_with_loss(loss, 3, 60_000, Mix::Mixed));
        long.push(long_with_loss(loss, 4, 60_000, Mix::Resolution));
        long.push(long_with_weights(loss, 5, 12_000));
        long.push(long_widened(loss, 6, 30_000, Mix::Mixed));
    }
    for Sample {
        sheet,
        record,
        aimed,
    } in long
    {
        on_a_record(&sheet, &record, aimed, &mut met);
        let mut changed = record.clone();
        for place in (0..record.len()).step_by(record.len() / 20) {
            changed[place] ^= 1;
            on_a_record(&sheet, &changed, "long, one bit changed", &mut met);
            changed[place] ^= 1;
        }
    }
    met.print();
    assert!(met.padded >= 12);
}

/// So many steps that their numbers take three bytes, before and after. Each step of the chain is resolved with the second
/// one, and keeps the pivot.
#[test]
fn on_a_chain_of_seventy_thousand_steps() {
    const LINKS: usize = 70_000;
    let Example { sheet, record, .. } = example("A1");
    let mut draft = Draft::read(&Files { sheet, record }).expect("both files are good");
    let [first, second] = [1, 2].map(|number| draft.step(number).expect("a step"));
    let (resolved, pivot) = (draft.step(3).expect("a step"), 2);
    assert_eq!((resolved.kind, resolved.pivot()), (4, Some(pivot)));
    let link = |place: usize| {
        let cited = if place == 2 { 1 } else { place };
        resolution(
            [(&first, cited), (&second, 2)],
            pivot,
            first.literals.clone(),
        )
    };
    let links = (2..LINKS + 2).map(|place| (2, link(place).bytes()));
    draft.insert_all(links.collect());
    let mut behind = draft.step(LINKS as u32 + 3).expect("a step");
    behind.cite(0, LINKS as u32 + 2);
    draft.steps[LINKS + 2] = behind.bytes();
    let padded = padded(&draft, 30_000, &mut Random::new(8)).files();
    let Files { sheet, record } = padded;
    let judged = judge(&sheet, &record);
    assert!(judged.accepts() && judged.step_count == LINKS as u64 + 5 + 30_000);
    let parts = trimmed(&sheet, &record, &judged, "a chain");
    assert!(parts[1] == draft.files().record);
    assert_eq!(assert_stays(&sheet, &judged, &parts, "a chain"), LINKS + 5);
}

/// Claims and bounds as large as can be, of 1,024 variables: one step, or a chain of all of them. The reference checker takes its
/// time over these, so they are trimmed into few buffers.
#[test]
fn on_the_greatest_cost() {
    let mut chains = Vec::new();
    for (Sample { sheet, record, .. }, wanted) in greatest::samples() {
        if wanted != Outcome::Least {
            continue;
        }
        let judged = judge(&sheet, &record);
        let parts = trimmed(&sheet, &record, &judged, "the greatest cost");
        assert!(parts[1] == record);
        chains.push(assert_stays(&sheet, &judged, &parts, "the greatest cost"));
    }
    assert_eq!(chains, [2_049, 1, 2_049]);
}

#[test]
fn on_empty_files() {
    let outcome = on_a_record(&[], &[], "two empty files", &mut Met::default());
    assert_eq!(outcome, Outcome::Refused(2));
}
