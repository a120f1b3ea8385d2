//! Long records are valid, as long as wanted, and made of what was asked for.

use planner::padding::{Kind, Mix};
use samples::draft::read_u32;
use samples::{long, long_widened, long_with_weights, widening, Sample};

const SIZE: usize = 1_000_000;

/// How many steps there are of each kind, and of all; and of how many literals the shortest step and the longest, but for
/// the last, which has none.
fn kinds(sample: &Sample) -> ([usize; 6], usize, [usize; 2]) {
    let variables = usize::from(u16::from_le_bytes([sample.sheet[0], sample.sheet[1]]));
    let count = read_u32(&sample.record, 8).unwrap() as usize;
    let start = 12 + variables.div_ceil(8);
    let mut kinds = [0; 6];
    let mut lengths = Vec::new();
    for step in 0..count {
        let offset = read_u32(&sample.record, start + 8 * step).unwrap() as usize;
        let body = &sample.record[offset..];
        kinds[usize::from(body[0])] += 1;
        lengths.push(usize::from(u16::from_le_bytes([body[2], body[3]])));
    }
    assert_eq!(lengths.pop(), Some(0));
    let ends = [lengths.iter().min(), lengths.iter().max()];
    (kinds, count, ends.map(|end| *end.unwrap()))
}

#[test]
fn long_records_are_accepted() {
    for (seed, mix) in [
        (1, Mix::Mixed),
        (2, Mix::Mixed),
        (3, Mix::Resolution),
        (4, Mix::Resolution),
        (5, Mix::Long),
        (6, Mix::Long),
        (7, Mix::LongOf(Kind::Copy)),
        (8, Mix::LongOf(Kind::Cost)),
        (9, Mix::LongOf(Kind::Independent)),
        (10, Mix::LongOf(Kind::Resolution)),
    ] {
        let sample = long(seed, SIZE, mix);
        let answer = reference::judge(&sample.sheet, &sample.record);
        let (kinds, count, ends) = kinds(&sample);
        println!(
            "{mix:?}, {} bytes, {count} steps, {:?}, {ends:?} literals",
            sample.record.len(),
            &kinds[1..]
        );
        assert!(answer.accepts(), "{answer:?}");
        assert_eq!(answer.step_count, count as u64);
        assert!(sample.record.len() >= SIZE && sample.record.len() < SIZE + 1_000);
        match mix {
            Mix::Mixed => assert!(kinds[1..].iter().all(|of_kind| 20 * of_kind > count)),
            Mix::Resolution => assert!(kinds[4] * 10 > count * 9),
            Mix::Long => assert!(kinds[1..=4]
                .iter()
                .all(|of_kind| (count * 23..count * 27).contains(&(100 * of_kind)))),
            Mix::LongOf(kind) => assert!(kinds[kind as usize + 1] * 10 > count * 9),
        }
        if matches!(mix, Mix::Long | Mix::LongOf(_)) {
            assert_eq!(ends, [20, 40]);
        }
    }
}

#[test]
fn long_records_with_weights_are_accepted() {
    let sample = long_with_weights(None, 11, SIZE);
    let answer = reference::judge(&sample.sheet, &sample.record);
    let (kinds, count, _) = kinds(&sample);
    println!(
        "{} bytes, {count} steps, {:?}",
        sample.record.len(),
        &kinds[1..]
    );
    assert!(answer.accepts(), "{answer:?}");
    assert_eq!(answer.step_count, count as u64);
    assert!(kinds[1..].iter().all(|of_kind| 50 * of_kind > count));
    assert!(sample.record.len() >= SIZE && sample.record.len() < SIZE + 2_000);
}

#[test]
fn long_records_with_wider_resolutions_are_accepted() {
    for (seed, mix) in [(12, Mix::Mixed), (13, Mix::Resolution)] {
        let sample = long_widened(None, seed, SIZE, mix);
        let answer = reference::judge(&sample.sheet, &sample.record);
        let (kinds, count, _) = kinds(&sample);
        let wider = widening::passed(&sample, &answer);
        println!(
            "{mix:?}, {} bytes, {count} steps, {:?}, {wider} wider",
            sample.record.len(),
            &kinds[1..]
        );
        assert!(answer.accepts(), "{answer:?}");
        assert!(2 * wider > kinds[4]);
        assert!(sample.record.len() > SIZE && sample.record.len() < 2 * SIZE);
    }
}

#[test]
fn same_seed_same_long_record() {
    assert_eq!(long(7, 200_000, Mix::Mixed), long(7, 200_000, Mix::Mixed));
    let weighted = || long_with_weights(None, 7, 200_000);
    assert_eq!(weighted(), weighted());
    let widened = || long_widened(None, 7, 200_000, Mix::Mixed);
    assert_eq!(widened(), widened());
}
