//! Turning variables: what the assignment, the index and the counts hold afterwards, the total of broken clauses, the
//! refusals in their order, and that turns may come in any order, and twice are nothing.

mod common;

use common::turner::*;
use common::writer::buffer;
use common::*;
use reference::{judge, sheet_is_valid, turn};
use std::collections::BTreeMap;

/// Both variables of sheet A stand in both clauses.
fn index_a() -> Vec<u8> {
    hex("10 00 00 00 08 00 00 00 18 00 00 00 08 00 00 00
         01 00 00 00 02 00 00 00
         01 00 00 00 02 00 00 00")
}

/// The two clauses are "1 or 2" and "1 or not 2".
#[test]
fn sheet_a_by_hand() {
    let cases: [(&[u16], u8, u8, &str, u64); 8] = [
        (&[], 0, 0, "00 00 01 00", 1),
        (&[1], 0, 1, "01 00 02 00", 0),
        (&[2], 0, 2, "01 00 00 00", 1),
        (&[1, 2], 0, 3, "02 00 01 00", 0),
        (&[1], 3, 2, "01 00 00 00", 1),
        (&[2, 1], 3, 0, "00 00 01 00", 1),
        (&[2, 1, 2], 0, 1, "01 00 02 00", 0),
        (&[1, 1, 1, 1], 2, 2, "01 00 00 00", 1),
    ];
    for (turns, before, after, counts, total) in cases {
        let (answer, left) = turn_in(&sheet_a(), turns, &lent(&[before], [1, 32, 4]));
        assert_eq!(answer, turned(total));
        assert_eq!(left, [vec![after], index_a(), hex(counts)]);
    }
}

/// From variable 1 alone, which breaks clause 2 only where 6 is true. Two bits are spare, and set.
#[test]
fn sheet_c_by_hand() {
    let (answer, left) = turn_in(&sheet_c(), &[6, 2], &lent(&[0xC1], [1, 84, 6]));
    let index = "30 00 00 00 08 00 00 00 38 00 00 00 08 00 00 00
                 40 00 00 00 04 00 00 00 44 00 00 00 04 00 00 00
                 48 00 00 00 08 00 00 00 50 00 00 00 04 00 00 00
                 01 00 00 00 03 00 00 00
                 02 00 00 00 03 00 00 00
                 01 00 00 00
                 02 00 00 00
                 01 00 00 00 02 00 00 00
                 02 00 00 00";
    let counts = hex("01 00 01 00 00 00");
    assert_eq!(answer, turned(1));
    assert_eq!(left, [vec![0xE3], hex(index), counts]);
    let (answer, left) = turn_in(&sheet_c(), &[6], &lent(&[0xC1], [1, 84, 6]));
    assert_eq!(answer, turned(1));
    assert_eq!(
        (&left[0][..], &left[2][..]),
        (&[0xE1][..], &hex("01 00 00 00 01 00")[..])
    );
}

/// Nine variables take two bytes, and each has a pair though no clause mentions it.
#[test]
fn a_sheet_without_clauses() {
    let sheet = sheet(&[1; 9], &[]);
    let (answer, left) = turn_in(&sheet, &[9, 1], &lent(&[0x02, 0xFE], [2, 72, 0]));
    let pairs = four_bytes(&[72, 0].repeat(9));
    assert_eq!(answer, turned(0));
    assert_eq!(left, [vec![0x03, 0xFF], pairs, vec![]]);
}

fn lists(variable_count: u16, clauses: &[&[u16]]) -> Lists {
    Lists {
        variable_count,
        clauses: clauses.iter().map(|codes| codes.to_vec()).collect(),
    }
}

/// An empty clause is broken whatever is turned.
#[test]
fn empty_clauses_are_always_broken() {
    let sheet = lists(2, &[&[], &[pos(2)], &[], &[neg(2)], &[]]);
    for turns in [&[][..], &[1], &[2], &[2, 2]] {
        sheet.assert_turned(&[0xF0], turns);
        let (answer, _) = turn_in(&sheet.sheet(), turns, &lent(&[0xF0], sheet.needed()));
        assert_eq!(answer, turned(4));
    }
}

/// Variables 1 to n, each with the sign that the place asks for.
fn all_variables(variable_count: u16, is_negative: impl Fn(u16) -> bool) -> Vec<u16> {
    let literal = |v| if is_negative(v) { neg(v) } else { pos(v) };
    (1..=variable_count).map(literal).collect()
}

/// The last byte of the assignment with one bit for a variable, with all, and with all but one.
#[test]
fn every_variable_of_sheets_with_spare_bits_and_without() {
    for n in [1, 7, 8, 9, 15, 16, 17] {
        let mut clauses: Vec<Vec<u16>> = (1..=n).map(|v| vec![neg(v)]).collect();
        clauses.push(all_variables(n, |_| false));
        clauses.push(all_variables(n, |v| v % 2 == 0));
        let sheet = Lists {
            variable_count: n,
            clauses,
        };
        for bits in [0x00, 0x55, 0xFF] {
            let bits = vec![bits; usize::from(n).div_ceil(8)];
            for variable in 1..=n {
                sheet.assert_turned(&bits, &[variable]);
                sheet.assert_turned(&bits, &[variable, n, variable, 1]);
            }
            sheet.assert_turned(&bits, &(1..=n).collect::<Vec<u16>>());
        }
    }
}

/// Counts and clause numbers above one byte, offsets above two.
#[test]
fn large_counts_numbers_and_offsets() {
    let whole = all_variables(1_024, |_| false);
    let wide = lists(
        1_024,
        &[&whole, &[neg(1_024)], &all_variables(1_024, |v| v > 300)],
    );
    let all: Vec<u16> = (1..=1_024).collect();
    wide.assert_turned(&[0; 128], &all);
    wide.assert_turned(&[0xFF; 128], &[1_024, 1, 513]);
    let (_, left) = turn_in(&wide.sheet(), &all, &lent(&[0; 128], wide.needed()));
    assert_eq!(left[2], two_bytes(&[1_024, 0, 300]));
    let mut long = vec![vec![pos(1), neg(2)]; 4_095];
    long.push(all_variables(20, |v| v == 20));
    let long = Lists {
        variable_count: 20,
        clauses: long,
    };
    long.assert_turned(&[0; 3], &[2, 20]);
    let (answer, left) = turn_in(&long.sheet(), &[2, 20], &lent(&[0; 3], long.needed()));
    assert_eq!(answer, turned(4_095));
    // Variable 3 has its one clause behind those of 1 and 2: 160 + 2 * 4 * 4,096.
    assert_eq!(left[1][16..24], four_bytes(&[32_928, 4]));
    assert_eq!(left[1][32_928..32_932], four_bytes(&[4_096]));
}

/// Each buffer alone, and all of them, by one byte and down to nothing. What is short is told whatever the turns are.
#[test]
fn refusal_29_leaves_the_buffers() {
    for sheet in [
        lists(2, &[&[pos(1), pos(2)], &[pos(1), neg(2)]]),
        lists(9, &[&[neg(9)], &[], &[pos(3), pos(8)]]),
        lists(1, &[&[]]),
        lists(8, &[&[]]),
    ] {
        let needed = sheet.needed();
        for at in 0..3 {
            for length in 0..needed[at] {
                let mut lengths = needed.map(|length| length + 20);
                lengths[at] = length;
                sheet.assert_refused(&[1], lengths, 29, 0);
                sheet.assert_refused(&[], lengths, 29, 0);
                sheet.assert_refused(&[1, 0], lengths, 29, 0);
                lengths = needed;
                lengths[at] = length;
                sheet.assert_refused(&[1], lengths, 29, 0);
            }
        }
        sheet.assert_refused(&[1], [0, 0, 0], 29, 0);
        sheet.assert_turned(&vec![0xFF; needed[0]], &[1]);
    }
}

/// No counts are needed where there are no clauses, and the other two always are.
#[test]
fn refusal_29_where_there_are_no_clauses() {
    let bare = lists(1, &[]);
    bare.assert_refused(&[1], [0, 8, 0], 29, 0);
    bare.assert_refused(&[1], [1, 7, 0], 29, 0);
    bare.assert_turned(&[0xFE], &[1]);
}

/// The place is that of the first such turn, and the turns before it are not done.
#[test]
fn refusal_30_leaves_the_buffers_and_names_the_turn() {
    let sheet = lists(2, &[&[pos(1), pos(2)], &[pos(1), neg(2)]]);
    for wrong in [0, 3, 4, 255, 256, 257, 258, 1_024, 1_025, 32_769, 65_535] {
        for lengths in [[1, 32, 4], [9, 50, 9]] {
            sheet.assert_refused(&[wrong], lengths, 30, 1);
            sheet.assert_refused(&[wrong, 1, 2], lengths, 30, 1);
            sheet.assert_refused(&[1, 2, 1, wrong], lengths, 30, 4);
            sheet.assert_refused(&[1, wrong, 2, 0], lengths, 30, 2);
            sheet.assert_refused(&[2, 2, wrong, wrong], lengths, 30, 3);
        }
    }
    let many = [vec![1; 70_000], vec![3]].concat();
    sheet.assert_refused(&many, [1, 32, 4], 30, 70_001);
}

/// n is the last variable, and the mark is no part of it.
#[test]
fn refusal_30_at_the_number_of_variables() {
    for n in [1, 7, 8, 9, 255, 256, 1_023, 1_024] {
        let sheet = lists(n, &[&[pos(n)]]);
        sheet.assert_turned(&vec![0; usize::from(n).div_ceil(8)], &[n]);
        sheet.assert_refused(&[n, n + 1], sheet.needed(), 30, 2);
        let buffers = sheet.needed().map(buffer);
        let left = turn_in(&marked(7, &sheet.sheet()), &[n + 1], &buffers);
        assert_eq!(left, (not_turned(30, 1), buffers));
    }
}

/// The sheet is refused with this, whatever the buffers and the turns, and the buffers stay.
fn assert_sheet_refused(sheet: &[u8], number: u32, place: u64) {
    for lengths in [[0, 0, 0], [1, 40, 4], [200, 900, 200]] {
        for turns in [&[][..], &[1], &[0]] {
            let buffers = lengths.map(buffer);
            let left = turn_in(sheet, turns, &buffers);
            assert_eq!(left, (not_turned(number, place), buffers));
        }
    }
}

#[test]
fn a_refused_sheet_leaves_the_buffers() {
    assert_sheet_refused(&[], 2, 0);
    assert_sheet_refused(&sheet_a()[..27], 2, 0);
    assert_sheet_refused(&sheet(&[], &[]), 2, 0);
    assert_sheet_refused(&sheet(&[7; 1_025], &[]), 2, 0);
    assert_sheet_refused(&edited(&sheet_a(), 20, &[31]), 3, 2);
    assert_sheet_refused(&[sheet(&[7], &[]), vec![0]].concat(), 3, 0);
    assert_sheet_refused(&sheet(&[3], &[&[pos(1)], &[0]]), 4, 2);
    assert_sheet_refused(&sheet_of_bodies(&[3], &[vec![2]]), 4, 1);
}

/// Refusals 1 to 4 are the judgement's, with the same places; without one of them the turns are done.
#[test]
fn every_byte_of_sheet_c_set_to_every_value() {
    let mut met = BTreeMap::new();
    for at in 0..sheet_c().len() {
        for value in 0..=255 {
            let damaged = edited(&sheet_c(), at, &[value]);
            let judged = judge(&damaged, &[]);
            if sheet_is_valid(&damaged) {
                let buffers = lent(&[0], [1, 84, 6]);
                let (answer, left) = turn_in(&damaged, &[1, 6], &buffers);
                assert_eq!((answer.number, left[0][0]), (0, 0x21));
            } else {
                assert_sheet_refused(&damaged, judged.number, judged.place);
            }
            *met.entry(judged.number).or_insert(0) += 1;
        }
    }
    // Refusal 5, of the empty record, stands for the sheets on which the turns were done.
    assert_eq!(met.keys().copied().collect::<Vec<u32>>(), [2, 3, 4, 5]);
}

/// Buffers of that length are no fault, nor is a list of turns. The bytes of a sheet that is too long are never looked
/// at, so the system need not supply the memory behind them.
#[test]
#[ignore = "needs 4 GiB of memory"]
fn refusal_1_looks_at_the_sheet_alone() {
    let mut too_long = vec![0_u8; 4_294_967_296];
    let [mut assignment, mut index, mut counts] = [1, 32, 4].map(buffer);
    let answer = turn(&too_long, &mut assignment, &[0], &mut index, &mut counts);
    assert_eq!(answer, not_turned(1, 0));
    let answer = turn(&too_long[1..], &mut [], &[0], &mut [], &mut []);
    assert_eq!(answer, not_turned(2, 0));
    assert_eq!(
        [&assignment, &index, &counts],
        [1, 32, 4].map(buffer).each_ref()
    );
    let answer = turn(&sheet_a(), &mut too_long, &[2], &mut index, &mut counts);
    assert_eq!((answer, &too_long[..2]), (turned(1), &[2, 0][..]));
    let answer = turn(&sheet_a(), &mut assignment, &[], &mut too_long, &mut counts);
    assert_eq!((answer.number, &too_long[..32]), (0, &index_a()[..]));
    assert_eq!(too_long[32..1_000], [0; 968]);
    let answer = turn(&sheet_a(), &mut [0], &[], &mut index, &mut too_long);
    assert_eq!((answer, &too_long[..4]), (turned(1), &[0, 0, 1, 0][..]));
    assert_eq!(too_long[4..32], index_a()[4..]);
}

/// Up to 20 variables and 9 clauses.
fn random_lists(numbers: &mut Numbers) -> Lists {
    let variable_count = 1 + numbers.below(20) as u16;
    let clause_count = numbers.below(10);
    let sparse = 3 + numbers.below(12);
    let mut literal = |v| match numbers.below(sparse) {
        0 => Some(pos(v)),
        1 => Some(neg(v)),
        _ => None,
    };
    let mut clauses = vec![];
    for _ in 0..clause_count {
        clauses.push((1..=variable_count).filter_map(&mut literal).collect());
    }
    Lists {
        variable_count,
        clauses,
    }
}

fn random_turns(numbers: &mut Numbers, variable_count: u16) -> Vec<u16> {
    let count = numbers.below(8);
    let mut turn = || 1 + numbers.below(variable_count.into()) as u16;
    (0..count).map(|_| turn()).collect()
}

/// Any bits, also of bytes that no variable has.
fn random_bits(numbers: &mut Numbers, variable_count: u16) -> Vec<u8> {
    let bytes = usize::from(variable_count).div_ceil(8);
    (0..bytes).map(|_| numbers.below(256) as u8).collect()
}

#[test]
fn random_turns_on_random_sheets() {
    let mut numbers = Numbers::from(21);
    let mut broken = [0; 10];
    for _ in 0..3_000 {
        let sheet = random_lists(&mut numbers);
        let bits = random_bits(&mut numbers, sheet.variable_count);
        let turns = random_turns(&mut numbers, sheet.variable_count);
        sheet.assert_turned(&bits, &turns);
        let (answer, _) = turn_in(&sheet.sheet(), &turns, &lent(&bits, sheet.needed()));
        broken[answer.total as usize] += 1;
    }
    assert!(broken[..5].iter().all(|count| *count > 50), "{broken:?}");
}

/// What is left in the buffers is lent again, as a search would.
#[test]
fn one_call_is_as_good_as_a_call_for_each_turn() {
    let mut numbers = Numbers::from(22);
    for _ in 0..1_000 {
        let sheet = random_lists(&mut numbers);
        let bits = random_bits(&mut numbers, sheet.variable_count);
        let turns = random_turns(&mut numbers, sheet.variable_count);
        let file = sheet.sheet();
        let buffers = lent(&bits, sheet.needed());
        let at_once = turn_in(&file, &turns, &buffers);
        let first = turn_in(&file, &[], &buffers);
        let one_by_one = turns
            .iter()
            .fold(first, |(_, left), turn| turn_in(&file, &[*turn], &left));
        assert_eq!(one_by_one, at_once);
    }
}

#[test]
fn turning_twice_is_nothing_and_the_order_is_all_one() {
    let mut numbers = Numbers::from(23);
    for _ in 0..1_000 {
        let sheet = random_lists(&mut numbers);
        let bits = random_bits(&mut numbers, sheet.variable_count);
        let turns = random_turns(&mut numbers, sheet.variable_count);
        let file = sheet.sheet();
        let buffers = lent(&bits, sheet.needed());
        let (answer, left) = turn_in(&file, &turns, &buffers);
        let mut shuffled = turns.clone();
        for end in (1..shuffled.len()).rev() {
            shuffled.swap(end, numbers.below(end + 1));
        }
        assert_eq!(turn_in(&file, &shuffled, &buffers), (answer, left.clone()));
        let unturned = turn_in(&file, &[], &buffers);
        assert_eq!(turn_in(&file, &shuffled, &left), unturned);
        let twice = [turns, shuffled].concat();
        assert_eq!(turn_in(&file, &twice, &buffers), unturned);
    }
}

/// A record with the turned assignment is refused at the first clause that has the count 0, and not at all where no
/// clause has it.
#[test]
fn a_clause_is_broken_where_the_judgement_says_so() {
    let mut numbers = Numbers::from(24);
    let (mut broken, mut kept) = (0, 0);
    for _ in 0..1_000 {
        let sheet = random_lists(&mut numbers);
        let file = sheet.sheet();
        let n = sheet.variable_count;
        let turns = random_turns(&mut numbers, n);
        let zeros = vec![0; usize::from(n).div_ceil(8)];
        let (answer, [assignment, _, counts]) =
            turn_in(&file, &turns, &lent(&zeros, sheet.needed()));
        let cost = assignment.iter().map(|byte| byte.count_ones()).sum::<u32>();
        let judged = judge(
            &file,
            &record(cost.into(), &assignment, &[cost_step(&[], 0)]),
        );
        let first = counts.chunks(2).position(|count| count == [0, 0]);
        match first {
            Some(index) => assert_eq!(judged, refused(10, index as u64 + 1)),
            None => assert_eq!(judged.number, 0),
        }
        assert_eq!(first.is_some(), answer.total > 0);
        broken += usize::from(answer.total > 0);
        kept += usize::from(answer.total == 0);
    }
    assert!(broken > 200 && kept > 200, "{broken} {kept}");
}
