//! The proved checker and the reference checker give the same answers: on every example, on many generated and damaged
//! records, and on longer ones. A difference prints both files.

use compare::{hex, judge, search, setting, trim, turn, write_sheet};
use planner::padding::Mix;
use proved::show;
use reference::{Found, Written};
use samples::damage;
use samples::draft::{overwrite, read_u32, read_u64, Body, Draft, Files, Head};
use samples::examples::{example, examples, Example};
use samples::outcome::{Outcome, Tally};
use samples::random::Random;
use samples::sheets::{loss_sort, LOSS_SORTS};
use samples::weights::largest;
use samples::{greatest, widening, Sample, VALID, WIDENED};
use samples::{long_widened, long_with_loss, long_with_weights};
use std::collections::BTreeMap;

/// How many samples are compared, unless COMPARE_COUNT says otherwise; from which seed, unless COMPARE_SEED does.
const COUNT: usize = 200_000;
const SEED: u64 = 2;

/// The longest file, in bytes, that is not oversize.
const LONGEST_FILE: usize = 4_294_967_295;

/// The outcome, where answer and line are the same.
fn same(sheet: &[u8], record: &[u8], what: &str) -> Outcome {
    let ours = judge(sheet, record);
    let wanted = reference::judge(sheet, record);
    assert_eq!(
        ours,
        wanted,
        "{what}\nsheet {}\nrecord {}",
        hex(sheet),
        hex(record)
    );
    let line = proved::judge(sheet, record).line();
    assert_eq!(line, reference::line(&wanted), "{what}");
    Outcome::of(&ours)
}

fn same_part(sheet: &[u8], record: &[u8], step: u32, what: &str) {
    let ours = show(sheet, record, step);
    let wanted = reference::show(sheet, record, u64::from(step));
    let place = |part: &[u8]| (part.as_ptr() as usize, part.len());
    assert_eq!(
        place(ours),
        place(wanted),
        "{what}, step {step}\nsheet {}\nrecord {}",
        hex(sheet),
        hex(record)
    );
}

#[test]
fn on_every_example() {
    for Example {
        folder,
        sheet,
        record,
        ..
    } in examples()
    {
        let what = folder.display().to_string();
        same(&sheet, &record, &what);
        for step in 0..20 {
            same_part(&sheet, &record, step, &what);
        }
    }
}

/// How often an outcome is met at least. A gap hangs on more of a record's numbers than a refusal does, so many are compared.
fn enough(outcome: Outcome, count: usize) -> usize {
    match outcome {
        Outcome::Least | Outcome::NoneExists | Outcome::Within => (count / 200).max(1),
        Outcome::Refused(_) => 1,
    }
}

#[test]
fn on_generated_and_damaged_records() {
    let count = setting("COMPARE_COUNT", COUNT);
    let seed = setting("COMPARE_SEED", SEED);
    let (mut met, mut wider) = (Tally::default(), Tally::default());
    let mut losses: BTreeMap<&str, Tally> = BTreeMap::new();
    for (i, sample) in samples::stream(seed).take(count).enumerate() {
        let Sample {
            sheet,
            record,
            aimed,
        } = &sample;
        let outcome = same(sheet, record, aimed);
        met.add(outcome);
        if let Some(sort) = loss_of(sheet) {
            losses.entry(sort).or_default().add(outcome);
        }
        if widening::passed(&sample, &judge(sheet, record)) > 0 {
            wider.add(outcome);
        }
        // a step number in and around the record's range; every tenth sample, since showing judges again, and of those with a
        // gap all
        if i % 10 == 0 || outcome == Outcome::Within {
            same_part(sheet, record, (i / 10 % 12) as u32, aimed);
        }
    }
    println!("seed {seed}, {count} samples, {met}");
    println!("with wider resolutions, {wider}");
    for outcome in Outcome::of_short_files() {
        let few = enough(outcome, count);
        assert!(met.of(outcome) >= few, "under {few} met {outcome}");
        let few = enough_wider(outcome, count);
        assert!(wider.of(outcome) >= few, "under {few} met {outcome}, wider");
    }
    // One sheet serves for many samples, so that a short run may miss a sort of losses.
    if count >= COUNT / 10 {
        every_loss_is_met(&losses, count);
    }
}

fn every_loss_is_met(losses: &BTreeMap<&str, Tally>, count: usize) {
    for sort in LOSS_SORTS {
        println!("loss {sort}, {}", losses[sort]);
        let (all, least) = (losses[sort].sum(), losses[sort].of(Outcome::Least));
        assert!(all > count / 20, "{all} with the loss {sort}");
        assert!(least > count / 200, "{least} least with the loss {sort}");
    }
}

/// The sort of a sheet's loss; nothing where the sheet ends before its head or its loss does.
fn loss_of(sheet: &[u8]) -> Option<&'static str> {
    let head = Head::read(sheet)?;
    let loss = head.loss(sheet);
    (loss.is_some() == head.is_marked).then(|| loss_sort(loss))
}

/// Every fault that has to do with a loss, in good records of marked sheets and of others: each meets its aim.
#[test]
fn on_losses_that_are_wrong() {
    let mut random = Random::new(16);
    let mut met: BTreeMap<&str, usize> = BTreeMap::new();
    let good = samples::stream(16).filter(|sample| [VALID, WIDENED].contains(&sample.aimed));
    for Sample { sheet, record, .. } in good.take(150) {
        let draft = Draft::read(&Files { sheet, record }).expect("both files are good");
        for fault in damage::LOSSES {
            let Some(Files { sheet, record }) = damage::apply(&[*fault], &draft, &mut random)
            else {
                continue;
            };
            let outcome = same(&sheet, &record, fault.aimed);
            let aim = fault.aim().expect("an aim");
            assert!(aim.is_met_by(outcome), "{} met {outcome}", fault.aimed);
            *met.entry(fault.aimed).or_default() += 1;
        }
    }
    println!("{met:?}");
    let few = |fault: &&damage::Damage| met.get(fault.aimed).is_none_or(|count| *count < 5);
    let few: Vec<&str> = damage::LOSSES.iter().filter(few).map(|f| f.aimed).collect();
    assert!(few.is_empty(), "few of {few:?}");
}

/// The same of those with a wider resolution among their good steps, of which there are none where no step is come to.
fn enough_wider(outcome: Outcome, count: usize) -> usize {
    match outcome {
        Outcome::Refused(2..=7 | 10 | 11) => 0,
        Outcome::Refused(16..=19) => (count / 400).max(1),
        Outcome::Refused(_) => 1,
        Outcome::Least | Outcome::NoneExists | Outcome::Within => (count / 400).max(1),
    }
}

/// Every literal of the resolutions of widened records left out, turned round or added, and bounds about the lesser one.
#[test]
fn on_resolutions_one_literal_or_bound_off() {
    let mut met = Tally::default();
    let widened = samples::stream(15).filter(|sample| sample.aimed == WIDENED);
    for Sample { sheet, record, .. } in widened.take(120) {
        let draft = Draft::read(&Files { sheet, record }).expect("both files are good");
        // Each of 1,024 variables gives two records for each resolution.
        if draft.variables() > 40 {
            continue;
        }
        for (place, changed) in widening::one_off(&draft) {
            let Files { sheet, record } = changed.files();
            met.add(same(
                &sheet,
                &record,
                &format!("step {} one off", place + 1),
            ));
        }
    }
    println!("{met}");
    let refused = [17, 18, 19].map(Outcome::Refused);
    let answers = [Outcome::Least, Outcome::NoneExists, Outcome::Within];
    for outcome in refused.into_iter().chain(answers) {
        assert!(met.of(outcome) > 100, "few of {outcome}");
    }
}

/// Every step of records with a gap is shown, and so are the numbers around.
#[test]
fn on_steps_of_records_with_a_gap() {
    let (mut records, mut shown) = (0, 0);
    for sample in samples::stream(9).take(20_000) {
        let (sheet, record) = (&sample.sheet, &sample.record);
        if same(sheet, record, sample.aimed) != Outcome::Within {
            continue;
        }
        let steps = judge(sheet, record).step_count as u32;
        for step in (0..=steps + 1).chain([u32::MAX]) {
            same_part(sheet, record, step, sample.aimed);
            shown += usize::from(!show(sheet, record, step).is_empty());
        }
        records += 1;
    }
    println!("{records} records with a gap, {shown} steps with literals");
    assert!(records > 200 && shown > 1_000);
}

#[test]
fn on_longer_records() {
    for (seed, size, mix) in [
        (1, 300_000, Mix::Mixed),
        (2, 300_000, Mix::Resolution),
        (3, 1_000_000, Mix::Mixed),
        (6, 1_000_000, Mix::Long),
    ] {
        on_a_longer_record(samples::long(seed, size, mix));
    }
    for loss in [Some(0), Some(7), Some(u32::MAX)] {
        on_a_longer_record(long_with_loss(loss, 3, 300_000, Mix::Mixed));
        on_a_longer_record(long_with_loss(loss, 6, 300_000, Mix::Long));
    }
    for (loss, size) in [
        (None, 300_000),
        (Some(7), 100_000),
        (Some(u32::MAX), 100_000),
    ] {
        on_a_longer_record(long_with_weights(loss, 8, size));
        on_a_longer_record(long_widened(loss, 9, size, Mix::Mixed));
        on_a_longer_record(long_widened(loss, 10, size, Mix::Resolution));
    }
}

fn on_a_longer_record(sample: Sample) {
    assert!(same(&sample.sheet, &sample.record, "long").accepts());
    let mut damaged = sample.record.clone();
    let middle = damaged.len() / 2;
    for place in [middle, damaged.len() - 9, damaged.len() - 1] {
        damaged[place] ^= 1;
        same(&sample.sheet, &damaged, "long, one bit changed");
        damaged[place] ^= 1;
    }
}

/// A fault after some hundred steps, which have left their marks.
#[test]
fn on_longer_records_with_one_byte_changed() {
    const CHANGES: usize = 2_000;
    let mut met = Tally::default();
    let mixes = [(4, Mix::Mixed), (5, Mix::Resolution), (5, Mix::Long)];
    let mut long = mixes
        .map(|(seed, mix)| samples::long(seed, 50_000, mix))
        .to_vec();
    // Shorter, because the reference checker takes its time over weights.
    long.push(long_with_weights(None, 12, 12_000));
    long.push(long_widened(None, 13, 50_000, Mix::Resolution));
    long.push(long_with_weights(Some(u32::MAX), 14, 8_000));
    long.push(long_widened(Some(9), 15, 20_000, Mix::Mixed));
    for Sample { sheet, record, .. } in long {
        let mut changed = record.clone();
        for i in 0..CHANGES {
            // All over the record, and each bit in turn.
            let place = i * 7_919 % record.len();
            changed[place] ^= 1 << (i % 8);
            met.add(same(&sheet, &changed, "long, one bit changed"));
            changed[place] = record[place];
        }
    }
    println!("{CHANGES} changes of each record, {met}");
    // One bit seldom takes a clause's last unsettled variable, frees one that two share, or makes a weight 0: 21, 22 and 23
    // are met once or a few times.
    for number in [7, 8, 9, 12, 13, 14, 15, 16, 17, 18, 20, 21, 22, 23, 24] {
        let count = met.of(Outcome::Refused(number));
        assert!(count > 0, "no change met {number}");
    }
}

/// Sums of weights that are as large as can be. With the longest clauses the reference checker would take seconds for each
/// record, so there the proved one is held to what is known of them.
#[test]
fn on_largest_weights() {
    for Sample {
        sheet,
        record,
        aimed,
    } in largest::samples(4)
    {
        assert!(same(&sheet, &record, aimed).accepts());
    }
    for sample in largest::samples(1_024) {
        let Sample { sheet, record, .. } = sample;
        let answer = judge(&sheet, &record);
        assert!(answer.accepts(), "{answer:?}");
        assert_eq!(answer.step_count, 2);
        for (step, more) in [(1, 1), (1, -1), (2, 1)] {
            let Some(changed) = with_other_bound(&record, step, more) else {
                continue;
            };
            let answer = judge(&sheet, &changed);
            assert_eq!((answer.number, answer.place), (24, step));
        }
    }
}

/// The sums of all costs and the loss, where these are as large as can be, in each kind of bound that has them.
#[test]
fn on_the_greatest_cost() {
    let mut met = Tally::default();
    for (sample, wanted) in greatest::samples() {
        let Sample {
            sheet,
            record,
            aimed,
        } = sample;
        let outcome = same(&sheet, &record, aimed);
        assert_eq!(outcome, wanted, "{aimed}");
        let answer = judge(&sheet, &record);
        match outcome {
            Outcome::Least => assert_eq!(answer.cost, greatest::COST),
            Outcome::Refused(11) => assert_eq!(answer.place, 0),
            _ => assert_eq!(answer.place, 1),
        }
        met.add(outcome);
    }
    for (outcome, count) in [
        (Outcome::Least, 3),
        (Outcome::Refused(11), 12),
        (Outcome::Refused(13), 4),
        (Outcome::Refused(15), 4),
        (Outcome::Refused(24), 4),
    ] {
        assert_eq!(met.of(outcome), count, "{outcome}");
    }
}

/// The record with more or less in a step's bound; nothing where that is below 0. There are 1,024 variables.
fn with_other_bound(record: &[u8], step: u64, more: i64) -> Option<Vec<u8>> {
    let pair = 12 + 128 + 8 * (step as usize - 1);
    let place = read_u32(record, pair)? as usize + 4;
    let bound = read_u64(record, place)?.checked_add_signed(more)?;
    let mut changed = record.to_vec();
    overwrite(&mut changed, place, &bound.to_le_bytes())?;
    Some(changed)
}

/// The open count of every byte that an assignment can have, as its first one and, cut to 1 to 8 variables, as its last. What
/// the operation counts is proved; what the compiler makes of it is tried here. No variable costs anything, so that every
/// assignment is a least one.
#[test]
fn on_every_byte_of_an_assignment() {
    for left in 1..=8 {
        for byte in 0..=u8::MAX {
            let loss = Some(u32::from(byte)).filter(|byte| byte % 2 == 1);
            let mut draft = Draft {
                loss,
                costs: vec![0; 8 + left],
                clauses: Vec::new(),
                claim: loss.map_or(0, u64::from),
                assignment: vec![byte, !byte & (u8::MAX >> (8 - left))],
                steps: Vec::new(),
            };
            draft.steps.push(Body::cost(&draft, Vec::new()).bytes());
            let Files { sheet, record } = draft.files();
            let what = format!("byte {byte}, variables in the next: {left}");
            assert_eq!(same(&sheet, &record, &what), Outcome::Least);
            let open = (1..=draft.variables()).filter(|variable| draft.value(*variable));
            assert_eq!(judge(&sheet, &record).open_count, open.count() as u64);
        }
    }
}

#[test]
fn on_empty_files() {
    same(&[], &[], "two empty files");
    same_part(&[], &[], 1, "two empty files");
}

/// Few bytes are written, so that the system need not supply the memory behind the others.
#[test]
#[ignore = "needs 4 GiB of memory"]
fn refusal_1_on_files_of_4_gigabytes() {
    let mut too_long = vec![0_u8; LONGEST_FILE + 1];
    let longest = &too_long[1..];
    let refused = Outcome::Refused;
    assert_eq!(same(&too_long, &[], "a sheet too long"), refused(1));
    assert_eq!(same(&[], &too_long, "a record too long"), refused(1));
    assert_eq!(same(longest, longest, "both at the limit"), refused(2));
    for search in [search, reference::search] {
        let number = |found: Found| (found.number, found.place, found.ended, found.floor);
        assert_eq!(number(search(&too_long, 1)), (1, 0, false, 0));
        assert_eq!(number(search(longest, 1)), (2, 0, false, 0));
    }
    // The sheet stands in the one way already.
    let sheet = example("A1").sheet;
    let filled = [0xA5; 64];
    for write in [write_sheet, reference::write_sheet] {
        let answers = |written: Written| [u64::from(written.number), written.place, written.length];
        let mut out = filled;
        assert_eq!(answers(write(&too_long, &mut out)), [1, 0, 0]);
        assert_eq!(answers(write(&too_long[1..], &mut out)), [2, 0, 0]);
        assert_eq!(out, filled);
        // A buffer is no file, and may be longer than one.
        let length = sheet.len();
        assert_eq!(answers(write(&sheet, &mut too_long)), [0, 0, length as u64]);
        let (written, behind) = too_long.split_at_mut(length);
        assert_eq!(written, sheet);
        assert!(all_zero(behind), "a byte behind the sheet");
        written.fill(0);
    }
    trimmed_at_the_limit(&mut too_long);
    turned_at_the_limit(&mut too_long);
}

/// The same of trimming. The record has no idle steps, so that its own bytes are written.
fn trimmed_at_the_limit(too_long: &mut [u8]) {
    let Example { sheet, record, .. } = example("A1");
    for trim in [trim, reference::trim] {
        let (mut marks, mut out) = ([0xA5; 5], [0xA5; 200]);
        let mut refused = |sheet: &[u8], record: &[u8]| {
            let Written { number, length, .. } = trim(sheet, record, &mut marks, &mut out);
            assert_eq!((length, marks, out), (0, [0xA5; 5], [0xA5; 200]));
            number
        };
        assert_eq!(refused(too_long, &record), 1);
        assert_eq!(refused(&sheet, too_long), 1);
        assert_eq!(refused(&too_long[1..], &too_long[1..]), 2);
        assert_eq!(refused(&sheet, &too_long[1..]), 5);
        // Buffers are no files, and may be longer than one.
        for is_marks in [false, true] {
            let (answer, wanted) = if is_marks {
                (trim(&sheet, &record, too_long, &mut out), vec![1; 5])
            } else {
                let answer = trim(&sheet, &record, &mut marks, too_long);
                (answer, record.clone())
            };
            assert_eq!((answer.number, answer.length), (0, record.len() as u64));
            let (written, behind) = too_long.split_at_mut(wanted.len());
            assert_eq!(written, wanted);
            assert!(all_zero(behind), "a byte behind what is written");
            written.fill(0);
        }
    }
}

/// The same of turning, where each of the three buffers may be that long.
fn turned_at_the_limit(too_long: &mut [u8]) {
    let sheet = example("A1").sheet;
    for turn in [turn, reference::turn] {
        let (mut bits, mut index, mut counts) = ([0xA5], [0xA5; 40], [0xA5; 6]);
        let mut refused = |sheet: &[u8]| {
            let answer = turn(sheet, &mut bits, &[0], &mut index, &mut counts);
            assert_eq!((bits, index, counts), ([0xA5], [0xA5; 40], [0xA5; 6]));
            [u64::from(answer.number), answer.place, answer.total]
        };
        assert_eq!(refused(too_long), [1, 0, 0]);
        assert_eq!(refused(&too_long[1..]), [2, 0, 0]);
        // The index does not go by the assignment.
        turn(&sheet, &mut bits, &[1], &mut index, &mut counts);
        for (at, wanted) in [&[2][..], &index[..32], &[1, 0, 0, 0]]
            .into_iter()
            .enumerate()
        {
            let (mut bits, mut index, mut counts) = ([0], [0; 40], [0; 6]);
            let answer = match at {
                0 => turn(&sheet, too_long, &[2], &mut index, &mut counts),
                1 => turn(&sheet, &mut bits, &[2], too_long, &mut counts),
                _ => turn(&sheet, &mut bits, &[2], &mut index, too_long),
            };
            assert_eq!((answer.number, answer.total), (0, 1));
            let (written, behind) = too_long.split_at_mut(wanted.len());
            assert_eq!(written, wanted);
            assert!(all_zero(behind), "a byte behind what is written");
            written.fill(0);
        }
    }
}

/// Compared by pages, since byte after byte takes seconds on 4 GiB.
fn all_zero(bytes: &[u8]) -> bool {
    const PAGE: [u8; 4_096] = [0; 4_096];
    bytes
        .chunks(PAGE.len())
        .all(|page| *page == PAGE[..page.len()])
}
