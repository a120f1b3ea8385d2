//! Both ways of the fast checker answer as the reference checker does: else their times would compare different work.

use bench::{judge, Marks, Merge};
use planner::padding::{Kind, Mix};
use proved::Answer;
use samples::outcome::{Outcome, Tally};
use samples::{greatest, Sample};

const COUNT: usize = 50_000;

fn wanted(a: &reference::Answer) -> Answer {
    Answer {
        number: u64::from(a.number),
        place: a.place,
        cost: a.cost,
        open_count: a.open_count,
        step_count: a.step_count,
        gap: a.gap,
    }
}

fn same(sheet: &[u8], record: &[u8], what: &str) -> Outcome {
    let answer = reference::judge(sheet, record);
    let wanted = wanted(&answer);
    let files = || format!("{what}\nsheet {sheet:02x?}\nrecord {record:02x?}");
    assert_eq!(judge::<Merge>(sheet, record), wanted, "merge, {}", files());
    assert_eq!(judge::<Marks>(sheet, record), wanted, "marks, {}", files());
    Outcome::of(&answer)
}

#[test]
fn on_generated_and_damaged_records() {
    let mut met = Tally::default();
    for sample in samples::stream(5).take(COUNT) {
        met.add(same(&sample.sheet, &sample.record, sample.aimed));
    }
    println!("{met}");
    for outcome in Outcome::of_short_files() {
        assert!(met.of(outcome) > 0, "no sample met {outcome}");
    }
    assert!(met.of(Outcome::Within) > 500);
}

#[test]
fn on_longer_records() {
    for mix in [
        Mix::Mixed,
        Mix::Resolution,
        Mix::Long,
        Mix::LongOf(Kind::Resolution),
        Mix::LongOf(Kind::Linear),
    ] {
        let sample = samples::long(7, 300_000, mix);
        assert!(same(&sample.sheet, &sample.record, "long").accepts());
        let mut damaged = sample.record;
        for part in 1..40 {
            let place = damaged.len() * part / 40;
            damaged[place] ^= 1;
            same(&sample.sheet, &damaged, "long, one bit changed");
            damaged[place] ^= 1;
        }
    }
}

#[test]
fn on_longer_records_with_a_loss() {
    for mix in [Mix::Mixed, Mix::Long, Mix::LongOf(Kind::Linear)] {
        let sample = samples::long_with_loss(Some(u32::MAX), 8, 100_000, mix);
        assert!(same(&sample.sheet, &sample.record, "long, with a loss").accepts());
    }
}

#[test]
fn on_longer_records_with_wider_resolutions() {
    for mix in [Mix::Mixed, Mix::Resolution, Mix::LongOf(Kind::Resolution)] {
        for loss in [None, Some(u32::MAX)] {
            let sample = samples::long_widened(loss, 7, 100_000, mix);
            assert!(same(&sample.sheet, &sample.record, "long, widened").accepts());
        }
    }
}

#[test]
fn on_the_greatest_cost() {
    for (sample, outcome) in greatest::samples() {
        let Sample {
            sheet,
            record,
            aimed,
        } = sample;
        assert_eq!(same(&sheet, &record, aimed), outcome, "{aimed}");
    }
}

#[test]
fn on_empty_files() {
    let told = same(&[], &[], "two empty files");
    assert_eq!(told, Outcome::Refused(2));
}
