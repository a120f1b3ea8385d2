//! One way to write a sheet: the order of its clauses, what a buffer holds afterwards, and that sheets with the same
//! variables, costs and set of clauses, and no others, are written alike. The sheets here have no mark.

mod common;

use common::writer::*;
use common::*;
use reference::brute::least_cost;
use reference::{judge, sheet_is_valid, write_sheet};
use std::collections::{BTreeMap, BTreeSet};

/// These clauses are in order and each is there once. They are written like this wherever the list begins, from its
/// end, and with all of them there again.
fn assert_order(variable_count: usize, in_order: &[&[u16]]) {
    let costs = vec![7; variable_count];
    let expected = sheet(&costs, in_order);
    let mut given = in_order.to_vec();
    for _ in 0..in_order.len() {
        assert_eq!(write(&sheet(&costs, &given)), expected);
        given.rotate_left(1);
    }
    given.reverse();
    assert_eq!(write(&sheet(&costs, &given)), expected);
    given.extend(in_order);
    assert_eq!(write(&sheet(&costs, &given)), expected);
}

#[test]
fn the_bytes_of_a_small_sheet() {
    let given: [&[u16]; 5] = [
        &[pos(1), neg(2)],
        &[pos(1)],
        &[pos(1), pos(2)],
        &[pos(1)],
        &[neg(2)],
    ];
    let expected = hex("02 00 04 00
         03 00 00 00 05 01 00 00
         2C 00 00 00 02 00 00 00
         2E 00 00 00 04 00 00 00
         32 00 00 00 04 00 00 00
         36 00 00 00 02 00 00 00
         02 00
         02 00 04 00
         02 00 05 00
         05 00");
    assert_eq!(write(&sheet(&[3, 261], &given)), expected);
}

/// Sheet A is in order as it stands. In C the second clause and the third change places. In D the clauses that begin
/// with variable 1 come first, and of the four with "2 open" the third and the fourth go before the others.
#[test]
fn the_sheets_of_document_01() {
    assert_eq!(write(&sheet_a()), sheet_a());
    let [c1, c2, c3] = CLAUSES_C;
    let costs = [1, 2, 3, 4, 5, 6];
    assert_eq!(write(&sheet_c()), sheet(&costs, &[c1, c3, c2]));
    let [d1, d2, d3, d4, d5, d6, d7, d8] = CLAUSES_D;
    let in_order = [d5, d6, d7, d8, d1, d2, d3, d4];
    assert_eq!(write(&sheet_d()), sheet(&costs, &in_order));
}

/// The lower byte stands first in the file, and 256 has a lesser one than 255.
#[test]
fn codes_are_compared_as_numbers() {
    assert!(two_bytes(&[256]) < two_bytes(&[255]));
    assert_order(128, &[&[255], &[256]]);
    let codes = [2, 254, 255, 256, 257, 258, 511, 512, 1_024, 2_047, 2_048];
    let alone: Vec<[u16; 1]> = codes.iter().map(|code| [*code]).collect();
    let alone: Vec<&[u16]> = alone.iter().map(|codes| &codes[..]).collect();
    assert_order(1_024, &alone);
    let behind: Vec<[u16; 2]> = codes[1..].iter().map(|code| [3, *code]).collect();
    let behind: Vec<&[u16]> = behind.iter().map(|codes| &codes[..]).collect();
    assert_order(1_024, &behind);
    assert_order(1_024, &[&[255, 2_048], &[255, 2_049], &[256], &[256, 511]]);
}

#[test]
fn the_first_code_that_differs_decides_whatever_follows_and_whatever_the_length() {
    let by_first: [&[u16]; 4] = [&[pos(1), neg(3)], &[neg(1), neg(2)], &[pos(2)], &[neg(2)]];
    assert_order(3, &by_first);
    let by_second: [&[u16]; 4] = [
        &[pos(1), pos(2), neg(3)],
        &[pos(1), neg(2), pos(3)],
        &[pos(1), pos(3)],
        &[pos(1), neg(3)],
    ];
    assert_order(3, &by_second);
}

#[test]
fn a_clause_comes_before_those_that_it_begins() {
    let clauses: [&[u16]; 6] = [
        &[pos(1)],
        &[pos(1), pos(2)],
        &[pos(1), pos(2), pos(3)],
        &[pos(1), pos(2), neg(3)],
        &[pos(1), neg(2)],
        &[neg(1)],
    ];
    assert_order(3, &clauses);
}

#[test]
fn the_empty_clause_is_the_first() {
    assert_order(1, &[&[]]);
    assert_order(1, &[&[], &[pos(1)], &[neg(1)]]);
}

#[test]
fn each_clause_is_there_once() {
    let [empty, open, shut]: [&[u16]; 3] = [&[], &[pos(1)], &[neg(1)]];
    let once = sheet(&[7], &[empty, open, shut]);
    for given in [
        vec![empty, open, shut, shut],
        vec![open, empty, open, shut],
        vec![shut, open, empty, shut, open, empty, shut],
    ] {
        assert_eq!(write(&sheet(&[7], &given)), once);
    }
}

#[test]
fn a_sheet_without_clauses_stays_as_it_is() {
    for costs in [vec![0], vec![7, 1 << 31], vec![u32::MAX; 1_024]] {
        let no_clauses = sheet(&costs, &[]);
        assert_eq!(write(&no_clauses), no_clauses);
    }
}

#[test]
fn of_4096_equal_clauses_one_is_left() {
    let [empty, clause]: [&[u16]; 2] = [&[], &[pos(1), neg(1_024)]];
    for clause in [empty, clause] {
        let once = sheet(&[1; 1_024], &[clause]);
        assert_eq!(write(&sheet(&[1; 1_024], &[clause; 4_096])), once);
    }
}

/// Variables 1 to 64 by variables 65 to 128.
#[test]
fn of_4096_different_clauses_all_are_left() {
    let in_order: Vec<Vec<u16>> = (1..=64)
        .flat_map(|first| (65..=128).map(move |second| vec![pos(first), neg(second)]))
        .collect();
    let mut clauses: Vec<&[u16]> = in_order.iter().map(Vec::as_slice).collect();
    let expected = sheet(&[1; 128], &clauses);
    assert_eq!(clauses.len(), 4_096);
    assert_eq!(write(&expected), expected);
    clauses.reverse();
    assert_eq!(write(&sheet(&[1; 128], &clauses)), expected);
}

/// The costs neither rise nor fall: they belong to the variables and stay where they are.
#[test]
fn variables_and_costs_are_kept() {
    let costs = (0..1_024_u32).map(|index| index.wrapping_mul(0x9E37_79B1));
    let costs: Vec<u32> = costs.collect();
    let (last, first): (&[u16], &[u16]) = (&[neg(1_024)], &[pos(1)]);
    for count in [1, 2, 8, 9, 255, 256, 257, 1_023] {
        let costs = &costs[..count];
        assert_eq!(
            write(&sheet(costs, &[first, &[], first])),
            sheet(costs, &[&[], first])
        );
    }
    let given = sheet(&costs, &[last, first, last]);
    assert_eq!(write(&given), sheet(&costs, &[first, last]));
    assert_eq!(write(&given)[4..4 + 4 * 1_024], four_bytes(&costs));
}

/// Every buffer up to some bytes more than are needed. What is needed goes by the result, not by the sheet.
#[test]
fn refusal_25_when_the_buffer_is_shorter_than_the_result() {
    let clause: &[u16] = &[neg(2)];
    let repeated = sheet(&[3, 5], &[clause, &[pos(1)], clause, clause]);
    for (sheet, needed) in [
        (sheet_a(), 36),
        (sheet_c(), 28 + 24 + 18),
        (sheet(&[7], &[]), 8),
        (repeated, 12 + 16 + 4),
    ] {
        let result = write(&sheet);
        assert_eq!(result.len(), needed);
        for length in 0..needed {
            let mut out = buffer(length);
            assert_eq!(write_sheet(&sheet, &mut out), not_written(25, 0));
            assert_eq!(out, buffer(length));
        }
        for length in needed..needed + 40 {
            let mut out = buffer(length);
            assert_eq!(write_sheet(&sheet, &mut out), written(needed));
            assert_eq!(out[..needed], result);
            assert_eq!(out[needed..], buffer(length)[needed..]);
        }
    }
}

#[test]
fn refusal_2_leaves_the_buffer() {
    assert_refused(&[], 2, 0);
    assert_refused(&sheet_a()[..27], 2, 0);
    assert_refused(&sheet(&[], &[]), 2, 0);
    assert_refused(&sheet(&[7; 1_025], &[]), 2, 0);
    let empty: &[u16] = &[];
    assert_refused(&sheet(&[7], &[empty; 4_097]), 2, 0);
}

#[test]
fn refusal_3_leaves_the_buffer_and_names_the_pair() {
    assert_refused(&edited(&sheet_a(), 12, &[29]), 3, 1);
    assert_refused(&edited(&sheet_a(), 20, &[31]), 3, 2);
    assert_refused(&sheet_a()[..35], 3, 2);
    assert_refused(&[sheet(&[7], &[]), vec![0]].concat(), 3, 0);
}

/// The number is that of the clause in the sheet as it was given, and equal clauses before it count.
#[test]
fn refusal_4_leaves_the_buffer_and_names_the_clause() {
    assert_refused(&sheet(&[3], &[&[pos(2)], &[0]]), 4, 1);
    let clause: &[u16] = &[neg(1)];
    assert_refused(&sheet(&[3], &[clause, clause, &[pos(1), neg(1)]]), 4, 3);
    assert_refused(&sheet_of_bodies(&[3], &[vec![], vec![2]]), 4, 2);
}

/// A buffer of that length is no fault. The bytes of a file that is too long are never looked at, so the system need
/// not supply the memory behind them.
#[test]
#[ignore = "needs 4 GiB of memory"]
fn refusal_1_looks_at_the_sheet_alone() {
    let mut too_long = vec![0_u8; 4_294_967_296];
    for length in [0, 64] {
        let mut out = buffer(length);
        assert_eq!(write_sheet(&too_long, &mut out), not_written(1, 0));
        assert_eq!(write_sheet(&too_long[1..], &mut out), not_written(2, 0));
        assert_eq!(out, buffer(length));
    }
    assert_eq!(write_sheet(&sheet_a(), &mut too_long), written(36));
    assert_eq!(too_long[..36], sheet_a());
    assert_eq!(too_long[36..1_000], [0; 964]);
}

/// Refusals 1 to 4 are the judgement's, with the same places; without one of them the sheet is written, as long as
/// there is room.
#[test]
fn every_byte_of_sheet_c_set_to_every_value() {
    let mut met = BTreeMap::new();
    for at in 0..sheet_c().len() {
        for value in 0..=255 {
            let damaged = edited(&sheet_c(), at, &[value]);
            let judged = judge(&damaged, &[]);
            if sheet_is_valid(&damaged) {
                let lists = Lists::read(&damaged);
                assert_eq!(lists.sheet(), damaged);
                assert_written(&lists);
                assert_eq!(write_sheet(&damaged, &mut []), not_written(25, 0));
            } else {
                assert_refused(&damaged, judged.number, judged.place);
            }
            *met.entry(judged.number).or_insert(0) += 1;
        }
    }
    // Refusal 5, of the empty record, stands for the sheets that were written.
    assert_eq!(met.keys().copied().collect::<Vec<u32>>(), [2, 3, 4, 5]);
    assert!(met.values().all(|count| *count > 100));
}

/// A sheet as lists.
#[derive(Clone)]
struct Lists {
    costs: Vec<u32>,
    clauses: Vec<Vec<u16>>,
}

/// What two sheets have in common that are written alike: variables, costs and set of clauses.
type Alike = (Vec<u32>, BTreeSet<Vec<u16>>);

impl Lists {
    /// Up to 6 variables and 9 clauses, of which some are likely to be equal.
    fn random(numbers: &mut Numbers) -> Lists {
        let variable_count = 1 + numbers.below(6);
        let costs = (0..variable_count).map(|_| numbers.below(10) as u32);
        let costs = costs.collect();
        let variables: Vec<u16> = (1..=variable_count as u16).collect();
        let clause_count = numbers.below(10);
        let clauses = (0..clause_count).map(|_| random_clause(numbers, &variables));
        Lists {
            costs,
            clauses: clauses.collect(),
        }
    }

    fn sheet(&self) -> Vec<u8> {
        let clauses: Vec<&[u16]> = self.clauses.iter().map(Vec::as_slice).collect();
        sheet(&self.costs, &clauses)
    }

    /// The lists of a valid sheet.
    fn read(file: &[u8]) -> Lists {
        let in_2_bytes = |at: usize| u16::from_le_bytes(file[at..at + 2].try_into().unwrap());
        let in_4_bytes = |at: usize| u32::from_le_bytes(file[at..at + 4].try_into().unwrap());
        let pairs_start = 4 + 4 * usize::from(in_2_bytes(0));
        let clause = |index: usize| {
            let pair = pairs_start + 8 * index;
            let start = in_4_bytes(pair) as usize;
            let end = start + in_4_bytes(pair + 4) as usize;
            (start..end).step_by(2).map(in_2_bytes).collect()
        };
        Lists {
            costs: (4..pairs_start).step_by(4).map(in_4_bytes).collect(),
            clauses: (0..usize::from(in_2_bytes(2))).map(clause).collect(),
        }
    }

    fn alike(&self) -> Alike {
        let clauses = self.clauses.iter().cloned().collect();
        (self.costs.clone(), clauses)
    }

    /// The same clauses in another order, some of them more than once.
    fn shuffled(&self, numbers: &mut Numbers) -> Lists {
        let mut left = self.clauses.clone();
        let mut clauses = vec![];
        while !left.is_empty() {
            let at = numbers.below(left.len());
            match numbers.below(4) {
                0 => clauses.push(left[at].clone()),
                _ => clauses.push(left.swap_remove(at)),
            }
        }
        Lists {
            clauses,
            ..self.clone()
        }
    }

    /// The sum of the costs of the true variables; variable v is bit v - 1.
    fn cost(&self, assignment: u32) -> u64 {
        let costs = self.costs.iter().enumerate();
        let paid = costs.filter(|(index, _)| assignment >> index & 1 == 1);
        paid.map(|(_, cost)| u64::from(*cost)).sum()
    }
}

/// Literals of some of the variables, each of either sign.
fn random_clause(numbers: &mut Numbers, variables: &[u16]) -> Vec<u16> {
    let chosen = variables.iter().filter_map(|v| match numbers.below(6) {
        0 | 1 => Some(pos(*v)),
        2 => Some(neg(*v)),
        _ => None,
    });
    chosen.collect()
}

/// The order that document 02 asks for: by the codes, and a list before the longer ones that begin with it.
fn comes_before(a: &[u16], b: &[u16]) -> bool {
    match a.iter().zip(b).find(|(x, y)| x != y) {
        Some((x, y)) => x < y,
        None => a.len() < b.len(),
    }
}

/// The written sheet is valid, and has the same variables, costs and set of clauses; each of these comes before the
/// next, so none is there twice. Only one file is like this.
fn assert_written(lists: &Lists) {
    let written = write(&lists.sheet());
    assert!(sheet_is_valid(&written));
    let read = Lists::read(&written);
    assert_eq!(read.alike(), lists.alike());
    let mut neighbours = read.clauses.windows(2);
    assert!(neighbours.all(|two| comes_before(&two[0], &two[1])));
}

#[test]
fn random_sheets_are_written_in_order() {
    let mut numbers = Numbers::from(9);
    let mut moved_or_dropped = 0;
    for _ in 0..3_000 {
        let lists = Lists::random(&mut numbers);
        assert_written(&lists);
        moved_or_dropped += u32::from(write(&lists.sheet()) != lists.sheet());
    }
    assert!(moved_or_dropped > 1_000);
}

/// All lists of 3 variables, shuffled.
#[test]
fn all_clauses_of_3_variables_are_written_in_order() {
    let all = Lists {
        costs: vec![1, 2, 3],
        clauses: every_list(3),
    };
    // The place of a list is the number of those before it.
    let place = |list: &Vec<u16>| {
        let others = all.clauses.iter();
        others.filter(|other| comes_before(other, list)).count()
    };
    let mut in_order = all.clauses.clone();
    in_order.sort_by_key(place);
    let expected = Lists {
        clauses: in_order,
        ..all.clone()
    };
    let mut numbers = Numbers::from(10);
    for _ in 0..100 {
        let shuffled = all.shuffled(&mut numbers);
        assert_eq!(write(&shuffled.sheet()), expected.sheet());
    }
}

/// Codes on both sides of those that have a low byte of 0.
#[test]
fn random_sheets_of_many_variables_are_written_in_order() {
    let variables = [1, 2, 126, 127, 128, 129, 255, 256, 257, 384, 511, 512, 513];
    let mut numbers = Numbers::from(11);
    let mut ordered_otherwise_by_bytes = 0;
    for _ in 0..1_000 {
        let clause_count = 2 + numbers.below(20);
        let clauses = (0..clause_count).map(|_| random_clause(&mut numbers, &variables));
        let lists = Lists {
            costs: vec![1; 513],
            clauses: clauses.collect(),
        };
        assert_written(&lists);
        let read = Lists::read(&write(&lists.sheet()));
        let bodies = read.clauses.iter().map(|codes| two_bytes(codes));
        ordered_otherwise_by_bytes += u32::from(!bodies.is_sorted());
    }
    assert!(ordered_otherwise_by_bytes > 500);
}

#[test]
fn writing_again_changes_nothing() {
    let mut numbers = Numbers::from(12);
    for _ in 0..3_000 {
        let once = write(&Lists::random(&mut numbers).sheet());
        // The same length is needed, so a second writing may take the first one's place.
        let mut again = once.clone();
        assert_eq!(write_sheet(&once, &mut again), written(once.len()));
        assert_eq!(again, once);
        assert_eq!(write(&once), once);
    }
}

#[test]
fn shuffled_and_repeated_clauses_give_the_same_bytes() {
    let mut numbers = Numbers::from(13);
    let mut differed = 0;
    for _ in 0..3_000 {
        let lists = Lists::random(&mut numbers);
        let shuffled = lists.shuffled(&mut numbers);
        assert_eq!(write(&shuffled.sheet()), write(&lists.sheet()));
        differed += u32::from(shuffled.sheet() != lists.sheet());
    }
    assert!(differed > 1_000);
}

/// A sheet with one thing changed. Every change leaves it valid; not every one makes another set of clauses.
fn changed(lists: &Lists, numbers: &mut Numbers) -> Lists {
    let mut other = lists.clone();
    let variable = numbers.below(lists.costs.len());
    let clause_count = lists.clauses.len();
    let change = numbers.below(if clause_count == 0 { 3 } else { 6 });
    match change {
        0 => other.costs[variable] ^= 1 << numbers.below(32),
        1 => other.costs.push(0),
        2 => other.clauses.push(vec![neg(variable as u16 + 1)]),
        3 => {
            other.clauses.remove(numbers.below(clause_count));
        }
        4 => {
            other.clauses[numbers.below(clause_count)].pop();
        }
        _ => {
            // The other sign of every literal.
            let clause = &mut other.clauses[numbers.below(clause_count)];
            clause.iter_mut().for_each(|code| *code ^= 1);
        }
    }
    other
}

#[test]
fn a_changed_sheet_gives_other_bytes_unless_the_set_is_the_same() {
    let mut numbers = Numbers::from(14);
    let (mut same, mut others) = (0, 0);
    for _ in 0..10_000 {
        let lists = Lists::random(&mut numbers);
        let other = changed(&lists, &mut numbers);
        let is_same = lists.alike() == other.alike();
        assert_eq!(write(&lists.sheet()) == write(&other.sheet()), is_same);
        same += u32::from(is_same);
        others += u32::from(!is_same);
    }
    assert!(same > 500 && others > 500);
}

/// All lists of this many clauses.
fn clause_lists(variable_count: u16, clause_count: usize) -> Vec<Vec<Vec<u16>>> {
    let mut lists = vec![vec![]];
    for _ in 0..clause_count {
        let longer = |list: &Vec<Vec<u16>>| {
            let clauses = every_list(variable_count).into_iter();
            let longer = clauses.map(|clause| [list.clone(), vec![clause]].concat());
            longer.collect::<Vec<_>>()
        };
        lists = lists.iter().flat_map(longer).collect();
    }
    lists
}

/// All sheets of 1 and of 2 variables with costs 0 or 1 and at most 3 clauses. There are 3 clauses of one variable and
/// 9 of two, so 8 and 130 sets of at most 3, each with 2 and with 4 lists of costs.
#[test]
fn the_same_bytes_for_the_same_set_and_for_no_other() {
    let all_costs: [&[u32]; 6] = [&[0], &[1], &[0, 0], &[0, 1], &[1, 0], &[1, 1]];
    let mut bytes_of: BTreeMap<Alike, Vec<u8>> = BTreeMap::new();
    for costs in all_costs {
        for clause_count in 0..=3 {
            for clauses in clause_lists(costs.len() as u16, clause_count) {
                let costs = costs.to_vec();
                let lists = Lists { costs, clauses };
                let written = write(&lists.sheet());
                let first = bytes_of.entry(lists.alike()).or_insert(written.clone());
                assert_eq!(written, *first);
            }
        }
    }
    assert_eq!(bytes_of.len(), 2 * 8 + 4 * 130);
    let different: BTreeSet<&Vec<u8>> = bytes_of.values().collect();
    assert_eq!(different.len(), bytes_of.len());
}

/// Every assignment is judged with its cost on both sheets, over a step that says nothing. A broken clause may have
/// another number; everything else is the same.
#[test]
fn the_written_sheet_has_the_same_models_at_the_same_costs() {
    let mut numbers = Numbers::from(15);
    let (mut models, mut others, mut moved) = (0, 0, 0);
    for _ in 0..500 {
        let lists = Lists::random(&mut numbers);
        let (given, written) = (lists.sheet(), write(&lists.sheet()));
        assert_eq!(least_cost(&given), least_cost(&written));
        for assignment in 0..1_u32 << lists.costs.len() {
            let cost = lists.cost(assignment);
            let record = record(cost, &[assignment as u8], &[cost_step(&[], 0)]);
            let (before, after) = (judge(&given, &record), judge(&written, &record));
            if before.refuses() {
                assert_eq!((before.number, after.number), (10, 10));
                others += 1;
                moved += u32::from(before.place != after.place);
            } else {
                assert_eq!(before, after);
                models += 1;
            }
        }
    }
    assert!(models > 500 && others > 500 && moved > 500);
}

/// Clause numbers move: a record that cites them is held to the sheet that it was made for.
#[test]
fn a_record_keeps_to_its_own_sheet() {
    let swapped = sheet(&[3, 5], &[&[pos(1), neg(2)], &[pos(1), pos(2)]]);
    let mut steps = steps_a();
    steps[0] = clause_step(&[pos(1), pos(2)], 2);
    steps[1] = clause_step(&[pos(1), neg(2)], 1);
    let record = record(3, &[0x01], &steps);
    assert_eq!(write(&swapped), sheet_a());
    assert_eq!(judge(&swapped, &record), accepted(3, 1, 5));
    assert_eq!(judge(&sheet_a(), &record), refused(12, 1));
}
