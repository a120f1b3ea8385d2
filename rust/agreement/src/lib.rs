//! Small files with the reference checker's answers, as theorems about the definitions of `crates/judgement`: the prover
//! computes both sides, so a theorem that holds is an agreement, and one that is refused names its case.

use reference::{judge, show, Answer, Verdict};
use samples::draft::Head;
use samples::outcome::{Outcome, Tally};
use samples::{widening, Sample};
use std::fmt::Write;

/// Longer files would spend the prover's time and show nothing more.
const SHEET_BYTES: usize = 96;
const RECORD_BYTES: usize = 200;

/// How many samples are looked at before an outcome counts as never met.
const TRIES: usize = 2_000_000;

pub struct Case {
    pub sheet: Vec<u8>,
    pub record: Vec<u8>,
    pub answer: Answer,
    pub aimed: &'static str,
    /// Whether a resolution among its good steps is wider than it has to be.
    pub wider: bool,
    /// Whether its sheet has a mark.
    pub marked: bool,
}

/// The first small samples of the stream, as many of each outcome, `count` in all or fewer where an outcome is rare. Half of
/// each outcome at least have marked sheets, and of some outcomes half have wider resolutions.
pub fn choose(seed: u64, count: usize) -> Vec<Case> {
    let mut room = Room::new(count.div_ceil(Outcome::of_short_files().count()));
    let small = samples::stream(seed).take(TRIES).filter_map(small);
    let chosen = small.filter(|case| room.take(case));
    chosen.take(count).collect()
}

/// What is left to be chosen.
struct Room {
    /// How many cases there are to be of an outcome.
    share: usize,
    met: Tally,
    /// Those without wider resolutions, and those without a mark.
    plain: Tally,
    unmarked: Tally,
}

impl Room {
    fn new(share: usize) -> Self {
        Room {
            share,
            met: Tally::default(),
            plain: Tally::default(),
            unmarked: Tally::default(),
        }
    }

    /// Takes a case in; false where there are enough of its sort.
    fn take(&mut self, case: &Case) -> bool {
        let (outcome, share) = (Outcome::of(&case.answer), self.share);
        let most_plain = share - least_wider(outcome, share);
        let most_unmarked = share / 2;
        if self.met.of(outcome) == share
            || (!case.wider && self.plain.of(outcome) == most_plain)
            || (!case.marked && self.unmarked.of(outcome) == most_unmarked)
        {
            return false;
        }
        self.met.add(outcome);
        if !case.wider {
            self.plain.add(outcome);
        }
        if !case.marked {
            self.unmarked.add(outcome);
        }
        true
    }
}

/// How many cases of an outcome have wider resolutions at least: half of those that hang on what resolutions are asked for.
pub fn least_wider(outcome: Outcome, share: usize) -> usize {
    match outcome {
        Outcome::Refused(16..=19) => share / 2,
        Outcome::Refused(_) => 0,
        Outcome::Least | Outcome::NoneExists | Outcome::Within => share / 2,
    }
}

fn small(sample: Sample) -> Option<Case> {
    if sample.sheet.len() > SHEET_BYTES || sample.record.len() > RECORD_BYTES {
        return None;
    }
    let answer = judge(&sample.sheet, &sample.record);
    let wider = widening::passed(&sample, &answer) > 0;
    let marked = Head::read(&sample.sheet).is_some_and(|head| head.is_marked);
    Some(Case {
        sheet: sample.sheet,
        record: sample.record,
        answer,
        aimed: sample.aimed,
        wider,
        marked,
    })
}

/// How many cases met each outcome.
pub fn tally(cases: &[Case]) -> Tally {
    let mut tally = Tally::default();
    for case in cases {
        tally.add(Outcome::of(&case.answer));
    }
    tally
}

/// The module of theorems.
pub fn module(cases: &[Case]) -> String {
    let mut text = String::from(HEAD);
    for (i, case) in cases.iter().enumerate() {
        theorem(&mut text, i + 1, case);
    }
    text
}

const HEAD: &str = "\
-- Generated: the reference checker's answers, computed again from the definitions.
-- Assumes nothing.
use lib.Dec.{T}
use Rattle.judgement.specs.Writer.{bytes_of}
use Rattle.judgement.specs.Judgement.{refused}
use Rattle.judgement.specs.Computed.{accepted, within, right, shows}
";

fn theorem(text: &mut String, i: usize, case: &Case) {
    let (sheet, record) = (bytes(&case.sheet), bytes(&case.record));
    let answer = answer(&case.answer);
    writeln!(text, "\n-- {}", case.aimed).unwrap();
    writeln!(
        text,
        "case_{i} : T (right (record {{ sheet = {sheet}; «record» = {record}; answer = {answer} }}))\n\
         unfolding bytes_of right\ncase_{i} = tt"
    )
    .unwrap();
    // every step number in turn, and those around, of a record that is not refused; of a refused one some number
    let step = i as u64 % (case.answer.step_count + 2);
    let part = bytes(show(&case.sheet, &case.record, step));
    if !case.answer.refuses() || i.is_multiple_of(8) {
        writeln!(
            text,
            "\nshown_{i} : T (shows ({sheet}) ({record}) {step} ({part}))\nunfolding bytes_of shows\nshown_{i} = tt"
        )
        .unwrap();
    }
}

fn answer(a: &Answer) -> String {
    let claim = format!("{} {} {}", a.cost, a.open_count, a.step_count);
    match a.verdict() {
        Verdict::Least | Verdict::NoneExists => format!("accepted {claim}"),
        Verdict::Within => format!("within {} {claim}", a.gap),
        Verdict::Refused => format!("refused {} {}", a.number, a.place),
    }
}

/// A list of bytes as one number, lowest byte first: a long list costs the prover more to read than to compute.
fn bytes(list: &[u8]) -> String {
    let mut text = format!("bytes_of {} 0x0", list.len());
    for b in list.iter().rev() {
        write!(text, "{b:02x}").unwrap();
    }
    text
}
