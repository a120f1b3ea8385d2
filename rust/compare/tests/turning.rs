//! The proved call that turns variables and the reference one give the same answers and leave the same bytes in all three
//! buffers: on every example and on many generated and damaged sheets, in buffers that are too short, fit and are too long, with
//! turns of variables and of others. What is left is also held to what turning means, and to the judgement. A difference prints
//! the input.

use compare::{hex, judge, setting, turn};
use planner::{MOST_CLAUSES, MOST_VARIABLES};
use reference::Turned;
use samples::draft::assignment_length;
use samples::examples::{example, examples, Example};
use samples::random::Random;
use samples::turning::shapes::{Shape, LARGE, SHAPES};
use samples::turning::turns::{GOOD, WRONG};
use samples::turning::{needed, stream, Input, ASSIGNMENT, COUNTS, INDEX};
use samples::writing::listings::shuffle;
use samples::writing::Listing;
use std::collections::BTreeMap;

/// How many inputs are compared, unless COMPARE_COUNT says otherwise; from which seed, unless COMPARE_SEED does.
const COUNT: usize = 30_000;
const SEED: u64 = 2;

/// The refusals of a buffer that is too short, and of a turn of no variable.
const SHORT_BUFFER: u32 = 29;
const WRONG_TURN: u32 = 30;

/// So many bytes lie on either side of each buffer, to be left alone.
const MARGIN: usize = 16;

/// The assignment, the index and the counts.
type Buffers = [Vec<u8>; 3];

type Turn = fn(&[u8], &mut [u8], &[u16], &mut [u8], &mut [u8]) -> Turned;

/// A buffer with the bytes around it.
fn with_margins(buffer: &[u8]) -> Vec<u8> {
    let margin: Vec<u8> = (0..MARGIN as u8).map(|place| 0xE0 | place).collect();
    [&margin[..], buffer, &margin].concat()
}

/// What a call answers and leaves, in buffers that lie between margins.
fn left(turn: Turn, sheet: &[u8], turns: &[u16], buffers: &Buffers) -> (Turned, Buffers) {
    let mut lent = buffers.each_ref().map(|buffer| with_margins(buffer));
    let [assignment, index, counts] = lent.each_mut().map(|buffer| {
        let end = buffer.len() - MARGIN;
        &mut buffer[MARGIN..end]
    });
    let answer = turn(sheet, assignment, turns, index, counts);
    let inner = lent
        .each_ref()
        .map(|buffer| buffer[MARGIN..buffer.len() - MARGIN].to_vec());
    let around = inner.each_ref().map(|buffer| with_margins(buffer));
    assert!(lent == around, "a byte beside a buffer is written");
    (answer, inner)
}

/// What both calls answer and leave, where it is the same. A refusal leaves everything.
fn same(sheet: &[u8], turns: &[u16], buffers: &Buffers, what: &str) -> (Turned, Buffers) {
    let ours = left(turn, sheet, turns, buffers);
    let wanted = left(reference::turn, sheet, turns, buffers);
    let told = || {
        let hexes = |buffers: &Buffers| buffers.each_ref().map(|buffer| hex(buffer));
        format!(
            "{what}, turns {turns:?}\nsheet {}\nbuffers {:?}\nleft {:?} {:?}\nwanted {:?} {:?}",
            hex(sheet),
            hexes(buffers),
            ours.0,
            hexes(&ours.1),
            wanted.0,
            hexes(&wanted.1)
        )
    };
    assert!(ours == wanted, "{}", told());
    let stays = ours.0.total == 0 && ours.1 == *buffers;
    assert!(ours.0.number == 0 || stays, "{}", told());
    ours
}

/// The buffers of these sizes. No byte is 0, and those of a longer one begin like those of a shorter one.
fn filled(sizes: [usize; 3]) -> Buffers {
    [ASSIGNMENT, INDEX, COUNTS].map(|at| {
        let byte = |place: usize| 1 + ((place * 89 + at * 31) % 255) as u8;
        (0..sizes[at]).map(byte).collect()
    })
}

/// Every refusal, and the answer where no clause is broken.
fn answered(number: u32, place: u64) -> Turned {
    Turned {
        number,
        place,
        total: 0,
    }
}

fn number_at(bytes: &[u8], place: usize, size: usize) -> usize {
    let stored = bytes[place..place + size].iter().rev();
    stored.fold(0, |number, byte| number << 8 | usize::from(*byte))
}

fn is_set(bits: &[u8], bit: usize) -> bool {
    bits[bit / 8] >> (bit % 8) & 1 == 1
}

/// What is left has to be this, by the sentences themselves: each bit, each number and each byte behind them is looked at by its
/// place.
fn assert_meant(sheet: &[u8], turns: &[u16], before: &Buffers, after: &(Turned, Buffers)) {
    let listing = Listing::read(sheet).expect("a sheet in form");
    let (answer, buffers) = after;
    let [assignment, index, counts] = buffers;
    assert_switched(turns, &before[ASSIGNMENT], assignment);
    assert_index(&listing, index);
    let total = counted(&listing, assignment, counts);
    let wanted = Turned {
        total,
        ..answered(0, 0)
    };
    assert_eq!(*answer, wanted);
    let ends = needed(sheet);
    for at in [ASSIGNMENT, INDEX, COUNTS] {
        assert_eq!(buffers[at][ends[at]..], before[at][ends[at]..]);
    }
}

/// The bits of variables that were turned an odd number of times are the other way, and no others.
fn assert_switched(turns: &[u16], before: &[u8], after: &[u8]) {
    let mut odd = vec![false; 8 * after.len()];
    for turn in turns {
        odd[usize::from(*turn) - 1] ^= true;
    }
    for (bit, is_odd) in odd.into_iter().enumerate() {
        assert_eq!(is_set(after, bit), is_set(before, bit) ^ is_odd);
    }
}

/// How many clauses are broken, where each has its count.
fn counted(listing: &Listing, assignment: &[u8], counts: &[u8]) -> u64 {
    let is_true = |code: u16| is_set(assignment, usize::from(code / 2) - 1) ^ (code % 2 == 1);
    let mut broken = 0;
    for (place, clause) in listing.clauses.iter().enumerate() {
        let count = clause.iter().filter(|code| is_true(**code)).count();
        assert_eq!(number_at(counts, 2 * place, 2), count);
        broken += u64::from(count == 0);
    }
    broken
}

/// Each variable has the clauses that mention it, one list behind the other.
fn assert_index(listing: &Listing, index: &[u8]) {
    let mut mentioning = vec![Vec::new(); listing.costs.len()];
    for (place, clause) in listing.clauses.iter().enumerate() {
        for code in clause {
            mentioning[usize::from(code / 2) - 1].push(place + 1);
        }
    }
    let mut start = 8 * listing.costs.len();
    for (place, wanted) in mentioning.iter().enumerate() {
        let pair = [0, 4].map(|part| number_at(index, 8 * place + part, 4));
        assert_eq!(pair, [start, 4 * wanted.len()]);
        let listed = wanted.iter().enumerate();
        listed.for_each(|(at, number)| assert_eq!(number_at(index, start + 4 * at, 4), *number));
        start += 4 * wanted.len();
    }
}

/// The same of turns that are all of variables and buffers that are long enough, and that what is left is what is meant.
fn turned(sheet: &[u8], turns: &[u16], buffers: &Buffers, what: &str) -> (Turned, Buffers) {
    let after = same(sheet, turns, buffers, what);
    assert_eq!(after.0.number, 0, "{what}");
    assert_meant(sheet, turns, buffers, &after);
    after
}

/// A few sheets of each shape that is soon turned, and one of each that takes longer.
fn some_of_each(few: usize) -> Vec<(&'static str, Vec<u8>)> {
    let mut random = Random::new(SEED + 1);
    let mut made = |shapes: &[Shape], count: usize| {
        let sheets = shapes.iter().flat_map(|shape| vec![*shape; count]);
        let sheets = sheets.map(|(what, shape)| (what, shape(&mut random).sheet()));
        sheets.collect::<Vec<_>>()
    };
    [made(SHAPES, few), made(LARGE, 1)].concat()
}

fn variables(sheet: &[u8]) -> u16 {
    let listing = Listing::read(sheet).expect("a sheet in form");
    listing.costs.len() as u16
}

/// Every assignment of the few variables that the examples have, spare bits included, and every turn of it.
#[test]
fn on_every_example() {
    for Example { folder, sheet, .. } in examples() {
        let what = folder.display().to_string();
        let last = variables(&sheet);
        assert!(last <= 8, "{what}");
        for bits in 0..=255 {
            let mut buffers = filled(needed(&sheet));
            buffers[ASSIGNMENT] = vec![bits];
            for variable in 1..=last {
                turned(&sheet, &[variable], &buffers, &what);
            }
            turned(&sheet, &[], &buffers, &what);
            turned(&sheet, &[last, 1, last, last], &buffers, &what);
        }
    }
}

#[test]
fn on_generated_inputs() {
    let count = setting("COMPARE_COUNT", COUNT);
    let seed = setting("COMPARE_SEED", SEED);
    let (mut met, mut totals) = (BTreeMap::new(), BTreeMap::new());
    for input in stream(seed).take(count) {
        let Input {
            sheet,
            buffers,
            turns,
            what,
        } = &input;
        let after = same(sheet, turns, buffers, &format!("{what:?}"));
        *met.entry(after.0.number).or_insert(0) += 1;
        if after.0.number == 0 {
            assert_meant(sheet, turns, buffers, &after);
            *totals.entry(after.0.total.min(3)).or_insert(0) += 1;
        }
    }
    println!("seed {seed}, by number {met:?}, by total {totals:?}");
    let numbers: Vec<u32> = met.keys().copied().collect();
    assert_eq!(numbers, [0, 2, 3, 4, SHORT_BUFFER, WRONG_TURN]);
    let few = count / 100;
    assert!(met
        .values()
        .chain(totals.values())
        .all(|times| *times >= few));
    assert_eq!(totals.len(), 4);
}

/// Each buffer of no bytes, a byte short, fit and longer, with each size of the others: 29 where one is short, also with a wrong
/// turn, and else always the same bytes.
#[test]
fn in_buffers_of_every_size() {
    let mut met = [0, 0];
    for (what, sheet) in some_of_each(6) {
        let needed = needed(&sheet);
        let turns = [1, variables(&sheet), 1, 1];
        let (answer, wanted) = turned(&sheet, &turns, &filled(needed), what);
        let sizes = needed.map(|size| [0, size.saturating_sub(1), size, size + 1, size + 40]);
        for place in 0..125 {
            let places = [place % 5, place / 5 % 5, place / 25];
            let sizes = [ASSIGNMENT, INDEX, COUNTS].map(|at| sizes[at][places[at]]);
            let buffers = filled(sizes);
            let (ours, left) = same(&sheet, &turns, &buffers, what);
            let is_short = (0..3).any(|at| sizes[at] < needed[at]);
            if is_short {
                assert_eq!(ours, answered(SHORT_BUFFER, 0), "{what} {sizes:?}");
                let wrong = same(&sheet, &[1, 0], &buffers, what).0;
                assert_eq!(wrong, answered(SHORT_BUFFER, 0), "{what} {sizes:?}");
            } else {
                assert_eq!(ours, answer, "{what} {sizes:?}");
                for at in [ASSIGNMENT, INDEX, COUNTS] {
                    assert_eq!(left[at][..needed[at]], wanted[at]);
                    assert_eq!(left[at][needed[at]..], buffers[at][needed[at]..]);
                }
            }
            met[usize::from(is_short)] += 1;
        }
    }
    println!("{met:?} long enough and short");
    assert!(met.iter().all(|times| *times > 1_000));
}

/// Every list of every sort on sheets of every shape.
#[test]
fn with_turns_of_every_sort() {
    let mut random = Random::new(SEED);
    for (what, sheet) in some_of_each(6) {
        let (last, buffers) = (variables(&sheet), filled(needed(&sheet)));
        for (name, list) in GOOD {
            turned(
                &sheet,
                &list(last, &mut random),
                &buffers,
                &format!("{what}, {name}"),
            );
        }
        for (name, list) in WRONG {
            let turns = list(last, &mut random);
            let is_wrong = |turn: &u16| !(1..=last).contains(turn);
            let place = turns.iter().position(is_wrong).expect("a wrong turn") as u64 + 1;
            let (answer, _) = same(&sheet, &turns, &buffers, &format!("{what}, {name}"));
            assert_eq!(answer, answered(WRONG_TURN, place), "{what}, {name}");
        }
    }
}

/// At each place of a list, and all that come behind it may be wrong too.
#[test]
fn with_a_wrong_turn_at_every_place() {
    for (what, sheet) in some_of_each(2) {
        let (last, buffers) = (
            variables(&sheet),
            filled(needed(&sheet).map(|size| size + 3)),
        );
        for wrong in [0, last + 1, last + 2, last + 256, 0x8000, 0x8001, u16::MAX] {
            for place in 0..7 {
                let mut turns = vec![1, last, 1, last, last, 1, 1];
                turns[place] = wrong;
                let (answer, _) = same(&sheet, &turns, &buffers, what);
                assert_eq!(answer, answered(WRONG_TURN, place as u64 + 1), "{what}");
                turns[place..].fill(wrong);
                assert_eq!(same(&sheet, &turns, &buffers, what).0, answer, "{what}");
            }
        }
    }
}

/// More turns than 16 bits count.
#[test]
fn with_seventy_thousand_turns() {
    let sheet = example("D").sheet;
    let buffers = filled(needed(&sheet));
    let mut turns: Vec<u16> = (1..=6).cycle().take(70_001).collect();
    turned(&sheet, &turns, &buffers, "many turns");
    turns.push(7);
    let (answer, _) = same(&sheet, &turns, &buffers, "many turns");
    assert_eq!(answer, answered(WRONG_TURN, 70_002));
}

/// Clauses of so many variables: of all of them, of none, and of the last one both ways.
fn of_every_length(variables: u16, random: &mut Random) -> Vec<u8> {
    let whole = (1..=variables).map(|v| 2 * v + random.below(2) as u16);
    let whole = whole.collect();
    let last = [2 * variables, 2 * variables + 1].map(|code| vec![code]);
    Listing {
        loss: [None, Some(9)][random.below(2)],
        costs: vec![1; variables.into()],
        clauses: [&[whole, Vec::new()], &last[..]].concat(),
    }
    .sheet()
}

/// Every number of variables about the whole bytes, each variable turned, and spare bits of every sort.
#[test]
fn on_every_number_of_variables() {
    let mut random = Random::new(SEED);
    for count in (1..=33).chain([63, 64, 65, 255, 256, 257, 1_016, 1_017, 1_023, 1_024]) {
        let sheet = of_every_length(count, &mut random);
        for bits in [0, 0x5A, 0xFF] {
            let mut buffers = filled(needed(&sheet));
            buffers[ASSIGNMENT] = vec![bits; assignment_length(count.into())];
            let tried = (1..=count).filter(|v| count < 70 || v % 50 == 0 || *v + 9 > count);
            for variable in tried {
                turned(&sheet, &[variable], &buffers, "a number of variables");
            }
            turned(&sheet, &[], &buffers, "a number of variables");
            let all: Vec<u16> = (1..=count).rev().collect();
            turned(&sheet, &all, &buffers, "a number of variables");
        }
    }
}

/// All lists of up to `longest` items.
fn lists<T: Clone>(items: &[T], longest: usize) -> Vec<Vec<T>> {
    let mut all = vec![Vec::new()];
    let mut last = all.clone();
    for _ in 0..longest {
        let longer = |list: &Vec<T>| {
            let each = items
                .iter()
                .map(|item| [&list[..], std::slice::from_ref(item)].concat());
            each.collect::<Vec<_>>()
        };
        last = last.iter().flat_map(longer).collect();
        all.extend(last.clone());
    }
    all
}

/// Two variables, every list of up to three clauses, every assignment, and every list of up to three turns, of which 0 and 3
/// are wrong.
#[test]
fn on_every_short_sheet() {
    let clauses = [
        &[][..],
        &[2],
        &[3],
        &[4],
        &[5],
        &[2, 4],
        &[2, 5],
        &[3, 4],
        &[3, 5],
    ];
    let all_turns = lists(&[0_u16, 1, 2, 3], 3);
    let mut met: BTreeMap<(u32, u64), usize> = BTreeMap::new();
    for listed in lists(&clauses.map(<[u16]>::to_vec), 3) {
        let (loss, costs) = (None, vec![3, 5]);
        let sheet = Listing {
            loss,
            costs,
            clauses: listed,
        }
        .sheet();
        for bits in [0, 1, 2, 0xA7] {
            let mut buffers = filled(needed(&sheet));
            buffers[ASSIGNMENT] = vec![bits];
            for turns in &all_turns {
                let after = same(&sheet, turns, &buffers, "a short sheet");
                if after.0.number == 0 {
                    assert_meant(&sheet, turns, &buffers, &after);
                }
                *met.entry((after.0.number, after.0.place + after.0.total))
                    .or_default() += 1;
            }
        }
    }
    println!("{met:?}");
    let wrong = [1, 2, 3].map(|place| (WRONG_TURN, place));
    let kept = [0, 1, 2, 3].map(|total| (0, total));
    assert!(met.keys().copied().eq(kept.into_iter().chain(wrong)));
}

/// Each refusal of a sheet with its place, whatever the buffers and the turns.
#[test]
fn on_sheets_cut_or_with_a_bit_changed() {
    let mut met = BTreeMap::new();
    for name in ["A1", "D", "W1", "L1"] {
        let sheet = example(name).sheet;
        let mut try_it = |file: &[u8], what: &str| {
            for (sizes, turns) in [
                ([0; 3], [1, 2]),
                ([1, 200, 40], [1, 2]),
                ([1, 200, 40], [2, 0]),
            ] {
                let (answer, _) = same(file, &turns, &filled(sizes), what);
                let judged = judge(file, &[]);
                if (1..=4).contains(&judged.number) {
                    assert_eq!(answer, answered(judged.number, judged.place), "{what}");
                }
                *met.entry(answer.number).or_insert(0) += 1;
            }
        };
        (0..sheet.len()).for_each(|end| try_it(&sheet[..end], "a cut sheet"));
        let mut changed = sheet.clone();
        for place in 0..8 * sheet.len() {
            changed[place / 8] ^= 1 << (place % 8);
            try_it(&changed, "one bit changed");
            changed[place / 8] = sheet[place / 8];
        }
    }
    println!("{met:?}");
    assert!(met.keys().eq(&[0, 2, 3, 4, SHORT_BUFFER, WRONG_TURN]));
}

/// As many variables, clauses and literals as there may be: an index of 16 MB.
#[test]
fn on_the_largest_sheet() {
    let literal = |place: usize, v: usize| (2 * v + usize::from(v * place % 7 < 3)) as u16;
    let clause = |place: usize| (1..=MOST_VARIABLES).map(|v| literal(place, v)).collect();
    let sheet = Listing {
        loss: Some(u32::MAX),
        costs: vec![u32::MAX; MOST_VARIABLES],
        clauses: (0..MOST_CLAUSES).map(clause).collect(),
    }
    .sheet();
    let needed = needed(&sheet);
    assert_eq!(needed, [128, 8_192 + 16_777_216, 8_192]);
    let buffers = filled(needed.map(|size| size + 1));
    let [ours, wanted] =
        [turn as Turn, reference::turn].map(|turn| left(turn, &sheet, &[1_024, 1, 7], &buffers));
    assert!(ours == wanted && ours.0 == answered(0, 0));
    let mut short = buffers;
    short[INDEX].truncate(needed[INDEX] - 1);
    let (answer, stays) = left(turn, &sheet, &[1], &short);
    assert!(answer == answered(SHORT_BUFFER, 0) && stays == short);
}

/// What the proved call alone answers and leaves.
fn ours(sheet: &[u8], turns: &[u16], buffers: &Buffers) -> (Turned, Buffers) {
    left(turn, sheet, turns, buffers)
}

/// Twice is nothing, in one list and in two, and the order is all one.
#[test]
fn turning_back_and_in_another_order() {
    let mut random = Random::new(setting("COMPARE_SEED", SEED));
    for (what, sheet) in some_of_each(60) {
        let buffers = filled(needed(&sheet));
        let (_, list) = GOOD[random.below(GOOD.len())];
        let turns = list(variables(&sheet), &mut random);
        let mut shuffled = turns.clone();
        shuffle(&mut shuffled, &mut random);
        let [before, after] = [&[][..], &turns].map(|turns| ours(&sheet, turns, &buffers));
        assert!(ours(&sheet, &shuffled, &buffers) == after, "{what}");
        let twice = [&turns[..], &shuffled].concat();
        assert!(ours(&sheet, &twice, &buffers) == before, "{what}");
        assert!(ours(&sheet, &shuffled, &after.1) == before, "{what}");
    }
}

/// A list is as good as a call for each turn, with what the call before has left lent again.
#[test]
fn a_list_and_a_call_for_each_turn() {
    let mut random = Random::new(setting("COMPARE_SEED", SEED));
    for (what, sheet) in some_of_each(60) {
        let buffers = filled(needed(&sheet));
        let (_, list) = GOOD[random.below(GOOD.len())];
        let mut turns = list(variables(&sheet), &mut random);
        turns.truncate(60);
        let mut last = ours(&sheet, &[], &buffers);
        for variable in &turns {
            last = ours(&sheet, &[*variable], &last.1);
        }
        assert!(last == ours(&sheet, &turns, &buffers), "{what}");
    }
}

/// With every variable turned, the true literals are those that were false.
#[test]
fn turning_every_variable() {
    for (what, sheet) in some_of_each(60) {
        let buffers = filled(needed(&sheet));
        let all: Vec<u16> = (1..=variables(&sheet)).collect();
        let both = [&[][..], &all].map(|turns| ours(&sheet, turns, &buffers).1);
        assert!(both[0][INDEX] == both[1][INDEX], "{what}");
        let clauses = Listing::read(&sheet).expect("a sheet in form").clauses;
        for (place, clause) in clauses.iter().enumerate() {
            let counts = both
                .each_ref()
                .map(|left| number_at(&left[COUNTS], 2 * place, 2));
            assert_eq!(counts[0] + counts[1], clause.len(), "{what}");
        }
    }
}

/// A record with this assignment, the claim 0 and one step, which says nothing.
fn record(assignment: &[u8]) -> Vec<u8> {
    let step = [&[2, 0, 0, 0][..], &[0; 8]].concat();
    let pair = [12 + assignment.len() + 8, step.len()];
    let pair = pair.map(|n| (n as u32).to_le_bytes()).concat();
    [&[0; 8][..], &[1, 0, 0, 0], assignment, &pair, &step].concat()
}

/// A record with the turned assignment is refused for the first clause that has the count 0, and where there is none, at most
/// for its claim.
#[test]
fn on_what_is_judged() {
    let mut met = [0, 0];
    for (what, sheet) in some_of_each(30) {
        let last = variables(&sheet);
        let mut buffers = filled(needed(&sheet));
        buffers[ASSIGNMENT].fill(0);
        for variable in 1..=last.min(20) {
            let (answer, left) = same(&sheet, &[variable, last], &buffers, what);
            buffers = left;
            let judged = judge(&sheet, &record(&buffers[ASSIGNMENT]));
            let first = buffers[COUNTS].chunks(2).position(|count| count == [0, 0]);
            assert_eq!(first.is_some(), answer.total > 0, "{what}");
            match first {
                Some(place) => assert_eq!((judged.number, judged.place), (10, place as u64 + 1)),
                None => assert!([0, 11].contains(&judged.number), "{what} {judged:?}"),
            }
            met[usize::from(first.is_some())] += 1;
        }
    }
    println!("{met:?} without and with a broken clause");
    assert!(met.iter().all(|times| *times > 100));
}

/// Nothing at all is lent, and the sheet is told of first.
#[test]
fn on_an_empty_sheet() {
    let (answer, _) = same(&[], &[], &[vec![], vec![], vec![]], "nothing");
    assert_eq!(answer, answered(2, 0));
}
