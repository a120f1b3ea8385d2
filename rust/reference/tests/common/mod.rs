//! Builders that write sheets and records by document 01's layouts, and the answers to compare with.

// Every test file compiles its own copy of this module and uses a part of it.
#![allow(dead_code)]

pub mod derivation;
pub mod searcher;
pub mod trimmer;
pub mod turner;
pub mod writer;

use reference::Answer;
use std::ops::Range;

pub use reference::NONE;

/// The code of "v open".
pub const fn pos(variable: u16) -> u16 {
    2 * variable
}

/// The code of "v shut".
pub const fn neg(variable: u16) -> u16 {
    2 * variable + 1
}

/// The bytes written in hexadecimal, two digits each, with spaces anywhere between them.
pub fn hex(text: &str) -> Vec<u8> {
    let digits: Vec<u32> = text
        .chars()
        .filter(|c| !c.is_whitespace())
        .map(|c| c.to_digit(16).expect("a hexadecimal digit"))
        .collect();
    assert!(digits.len().is_multiple_of(2));
    let byte = |two: &[u32]| (16 * two[0] + two[1]) as u8;
    digits.chunks_exact(2).map(byte).collect()
}

/// `numbers` in 2 bytes each: literal codes, or a pivot.
pub fn two_bytes(numbers: &[u16]) -> Vec<u8> {
    numbers.iter().flat_map(|n| n.to_le_bytes()).collect()
}

/// `numbers` in 4 bytes each: costs, cited clauses, cited steps.
pub fn four_bytes(numbers: &[u32]) -> Vec<u8> {
    numbers.iter().flat_map(|n| n.to_le_bytes()).collect()
}

/// `head`, then the pairs of `bodies`, then the bodies.
fn with_bodies(head: Vec<u8>, bodies: &[Vec<u8>]) -> Vec<u8> {
    let mut file = head;
    let mut offset = file.len() + 8 * bodies.len();
    for body in bodies {
        file.extend(four_bytes(&[offset as u32, body.len() as u32]));
        offset += body.len();
    }
    file.extend(bodies.concat());
    file
}

/// A sheet with these costs and these clauses, given by their literal codes.
pub fn sheet(costs: &[u32], clauses: &[&[u16]]) -> Vec<u8> {
    let bodies: Vec<Vec<u8>> = clauses.iter().map(|codes| two_bytes(codes)).collect();
    sheet_of_bodies(costs, &bodies)
}

/// A sheet with these costs and these clause bodies, which need not be literal lists.
pub fn sheet_of_bodies(costs: &[u32], bodies: &[Vec<u8>]) -> Vec<u8> {
    let mut head = two_bytes(&[costs.len() as u16, bodies.len() as u16]);
    head.extend(four_bytes(costs));
    with_bodies(head, bodies)
}

/// The bit of the n field that says that a loss follows the costs.
const MARK: u16 = 0x8000;

/// The sheet, which has no mark, with one and with this loss. Its bodies stand 4 bytes further on.
pub fn marked(loss: u32, sheet: &[u8]) -> Vec<u8> {
    let in_2_bytes = |at: usize| u16::from_le_bytes(sheet[at..at + 2].try_into().unwrap());
    let in_4_bytes = |at: usize| u32::from_le_bytes(sheet[at..at + 4].try_into().unwrap());
    let (n, m) = (in_2_bytes(0), in_2_bytes(2));
    let pairs_start = 4 + 4 * usize::from(n);
    let pairs_end = pairs_start + 8 * usize::from(m);
    let mut file = two_bytes(&[MARK | n, m]);
    file.extend(&sheet[4..pairs_start]);
    file.extend(four_bytes(&[loss]));
    for pair in (pairs_start..pairs_end).step_by(8) {
        file.extend(four_bytes(&[in_4_bytes(pair) + 4, in_4_bytes(pair + 4)]));
    }
    file.extend(&sheet[pairs_end..]);
    file
}

/// A record with this claim, these assignment bytes and these step bodies.
pub fn record(claim: u64, assignment: &[u8], steps: &[Vec<u8>]) -> Vec<u8> {
    let mut head = claim.to_le_bytes().to_vec();
    head.extend(four_bytes(&[steps.len() as u32]));
    head.extend(assignment);
    with_bodies(head, steps)
}

/// A step body of any kind, with its tail as given.
pub fn step(kind: u8, codes: &[u16], bound: u64, tail: &[u8]) -> Vec<u8> {
    let mut body = vec![kind, 0];
    body.extend(two_bytes(&[codes.len() as u16]));
    body.extend(bound.to_le_bytes());
    body.extend(two_bytes(codes));
    body.extend(tail);
    body
}

/// Kind 1.
pub fn clause_step(codes: &[u16], clause: u32) -> Vec<u8> {
    step(1, codes, NONE, &four_bytes(&[clause]))
}

/// Kind 2.
pub fn cost_step(codes: &[u16], bound: u64) -> Vec<u8> {
    step(2, codes, bound, &[])
}

/// Kind 3.
pub fn independent_step(codes: &[u16], bound: u64, clauses: &[u32]) -> Vec<u8> {
    step(3, codes, bound, &four_bytes(clauses))
}

/// Kind 4.
pub fn resolution_step(codes: &[u16], bound: u64, a: u32, b: u32, pivot: u16) -> Vec<u8> {
    let mut tail = four_bytes(&[a, b]);
    tail.extend(two_bytes(&[pivot]));
    step(4, codes, bound, &tail)
}

/// Kind 5. An entry is a clause and its weight.
pub fn weighted_step(codes: &[u16], bound: u64, divisor: u16, entries: &[(u32, u16)]) -> Vec<u8> {
    let mut tail = two_bytes(&[divisor]);
    for (clause, weight) in entries {
        tail.extend(four_bytes(&[*clause]));
        tail.extend(two_bytes(&[*weight]));
    }
    step(5, codes, bound, &tail)
}

/// What a step body states: how many literals there are, and the bound.
pub fn stated(body: &[u8]) -> (u16, u64) {
    let literal_count = u16::from_le_bytes(body[2..4].try_into().unwrap());
    let bound = u64::from_le_bytes(body[4..12].try_into().unwrap());
    (literal_count, bound)
}

/// What the last step of a record that can be read states.
pub fn stated_last(sheet: &[u8], record: &[u8]) -> (u16, u64) {
    let in_4_bytes = |at: usize| u32::from_le_bytes(record[at..at + 4].try_into().unwrap());
    let variable_count = u16::from_le_bytes([sheet[0], sheet[1]]) & !MARK;
    let pairs_start = 12 + variable_count.div_ceil(8) as usize;
    let last_pair = pairs_start + 8 * (in_4_bytes(8) as usize - 1);
    stated(&record[in_4_bytes(last_pair) as usize..])
}

/// A claim or a bound of an unmarked sheet, once there is this loss: "none" stays.
pub fn with_loss(loss: u32, cost: u64) -> u64 {
    match cost {
        NONE => NONE,
        cost => cost + u64::from(loss),
    }
}

/// Steps of an unmarked sheet, once there is this loss. What is too short for a bound stays.
pub fn steps_with_loss(loss: u32, steps: &[Vec<u8>]) -> Vec<Vec<u8>> {
    let raised = |body: &Vec<u8>| {
        if body.len() < 12 {
            return body.clone();
        }
        let bound = with_loss(loss, stated(body).1);
        edited(body, 4, &bound.to_le_bytes())
    };
    steps.iter().map(raised).collect()
}

/// An acceptance: least, or none where the cost is [`NONE`].
pub fn accepted(cost: u64, open_count: u64, step_count: u64) -> Answer {
    Answer {
        number: 0,
        place: 0,
        cost,
        open_count,
        step_count,
        gap: 0,
    }
}

/// Neither an acceptance nor a refusal. The order is that of the printed line.
pub fn within(gap: u64, cost: u64, open_count: u64, step_count: u64) -> Answer {
    assert_ne!(gap, 0, "an answer without a gap is an acceptance");
    Answer {
        gap,
        ..accepted(cost, open_count, step_count)
    }
}

/// A refusal.
pub fn refused(number: u32, place: u64) -> Answer {
    Answer {
        number,
        place,
        cost: 0,
        open_count: 0,
        step_count: 0,
        gap: 0,
    }
}

/// The shown part is these bytes of this file, by address and not just by content.
pub fn assert_part(shown: &[u8], file: &[u8], range: Range<usize>) {
    assert_eq!(shown.as_ptr_range(), file[range].as_ptr_range());
}

/// `bytes` with those from `at` on replaced by `new`.
pub fn edited(bytes: &[u8], at: usize, new: &[u8]) -> Vec<u8> {
    let mut copy = bytes.to_vec();
    copy[at..at + new.len()].copy_from_slice(new);
    copy
}

/// Sheet A of document 01.
pub fn sheet_a() -> Vec<u8> {
    hex("02 00 02 00
         03 00 00 00 05 00 00 00
         1C 00 00 00 04 00 00 00 20 00 00 00 04 00 00 00
         02 00 04 00
         02 00 05 00")
}

/// Record A of document 01. Its steps start at 53, 73, 93, 117 and 131.
pub fn record_a() -> Vec<u8> {
    hex("03 00 00 00 00 00 00 00 05 00 00 00
         01
         35 00 00 00 14 00 00 00
         49 00 00 00 14 00 00 00
         5D 00 00 00 18 00 00 00
         75 00 00 00 0E 00 00 00
         83 00 00 00 16 00 00 00
         01 00 02 00 FF FF FF FF FF FF FF FF 02 00 04 00 01 00 00 00
         01 00 02 00 FF FF FF FF FF FF FF FF 02 00 05 00 02 00 00 00
         04 00 01 00 FF FF FF FF FF FF FF FF 02 00 01 00 00 00 02 00 00 00 02 00
         02 00 01 00 03 00 00 00 00 00 00 00 03 00
         04 00 00 00 03 00 00 00 00 00 00 00 03 00 00 00 04 00 00 00 01 00")
}

/// Case A4: both variables true, so the claim is 8, over the same steps, which end with the bound 3.
pub fn record_a4() -> Vec<u8> {
    let both_true = edited(&record_a(), 12, &[0x03]);
    edited(&both_true, 0, &8_u64.to_le_bytes())
}

/// The five steps of record A, by the builders.
pub fn steps_a() -> Vec<Vec<u8>> {
    vec![
        clause_step(&[pos(1), pos(2)], 1),
        clause_step(&[pos(1), neg(2)], 2),
        resolution_step(&[pos(1)], NONE, 1, 2, 2),
        cost_step(&[neg(1)], 3),
        resolution_step(&[], 3, 3, 4, 1),
    ]
}

/// The same with a step between: the third holds its own pivot as a further literal, and the fourth resolves it away.
pub fn steps_a_wider() -> Vec<Vec<u8>> {
    vec![
        clause_step(&[pos(1), pos(2)], 1),
        clause_step(&[pos(1), neg(2)], 2),
        resolution_step(&[pos(1), pos(2)], NONE, 1, 2, 2),
        resolution_step(&[pos(1)], NONE, 3, 2, 2),
        cost_step(&[neg(1)], 3),
        resolution_step(&[], 3, 4, 5, 1),
    ]
}

/// The clauses of case C, document 001's example 2.
pub const CLAUSES_C: [&[u16]; 3] = [
    &[pos(1), pos(3), pos(5)],
    &[pos(2), pos(4), pos(5), neg(6)],
    &[neg(1), neg(2)],
];

/// Its costs are 1 to 6.
pub fn sheet_c() -> Vec<u8> {
    sheet(&[1, 2, 3, 4, 5, 6], &CLAUSES_C)
}

/// Variable 1 alone true, at cost 1, and one step.
pub fn record_c(only_step: Vec<u8>) -> Vec<u8> {
    record(1, &[0x01], &[only_step])
}

/// Case C1: the step is in order and does not close.
pub fn record_c1() -> Vec<u8> {
    record_c(independent_step(&[pos(5), neg(6)], 9, &[1, 2]))
}

/// The step of document 001's example 3, on case C's sheet, where document 02 gives it the bound 11.
pub fn example_3(bound: u64) -> Vec<u8> {
    weighted_step(&[pos(5), neg(6)], bound, 1, &[(1, 3), (2, 4), (3, 2)])
}

/// The clauses of case D, document 001's section 3.2.
pub const CLAUSES_D: [&[u16]; 8] = [
    &[pos(2), pos(4)],
    &[pos(2), neg(5)],
    &[pos(4), neg(5)],
    &[pos(5), pos(6)],
    &[pos(1), pos(3), neg(6)],
    &[neg(1), pos(3), neg(6)],
    &[pos(2), pos(3), pos(5), neg(6)],
    &[pos(2), neg(3), pos(5), neg(6)],
];

/// Its costs are 1 to 6.
pub fn sheet_d() -> Vec<u8> {
    sheet(&[1, 2, 3, 4, 5, 6], &CLAUSES_D)
}

/// All lists of literals over this many variables: each positive, negative or not there.
pub fn every_list(variable_count: u16) -> Vec<Vec<u16>> {
    let list = |signs: u32| {
        let literal = |variable: u16| match signs / 3_u32.pow(u32::from(variable) - 1) % 3 {
            0 => None,
            1 => Some(pos(variable)),
            _ => Some(neg(variable)),
        };
        (1..=variable_count).filter_map(literal).collect()
    };
    let list_count = 3_u32.pow(u32::from(variable_count));
    (0..list_count).map(list).collect()
}

/// The literal is true under the assignment, in which variable v is bit v - 1.
pub fn is_true(code: u16, assignment: u32) -> bool {
    let value = assignment >> (code / 2 - 1) & 1 == 1;
    value == code.is_multiple_of(2)
}

/// Numbers that look random and are the same in every run.
#[derive(Clone)]
pub struct Numbers {
    state: u64,
}

impl Numbers {
    pub fn from(seed: u64) -> Numbers {
        Numbers { state: seed }
    }

    /// A number from 0 to `limit` less 1.
    pub fn below(&mut self, limit: usize) -> usize {
        // Knuth's multiplier; the high bits are the good ones.
        self.state = self
            .state
            .wrapping_mul(6_364_136_223_846_793_005)
            .wrapping_add(1_442_695_040_888_963_407);
        (self.state >> 33) as usize % limit
    }
}
