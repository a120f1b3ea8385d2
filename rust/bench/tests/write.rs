//! The writers written for speed and the proved one answer as the reference writer does and leave the same buffer: else their
//! times would compare different work.

use bench::{sets, write_decoded, write_stored};
use planner::{format, Literal, Problem};
use proved::Written;
use samples::draft::LOSS;
use samples::random::Random;
use samples::sheets::{self, some_loss};
use std::collections::BTreeMap;

type Write = fn(&[u8], &mut [u8]) -> Written;

const WRITERS: [(&str, Write); 3] = [
    ("proved", proved::write_sheet),
    ("decoded", write_decoded),
    ("stored", write_stored),
];

const SHORT_BUFFER: u64 = 25;

fn wanted(sheet: &[u8], out: &mut [u8]) -> Written {
    let written = reference::write_sheet(sheet, out);
    Written {
        number: u64::from(written.number),
        place: written.place,
        length: written.length,
    }
}

/// The answer that all give on a buffer of this length, in which something stands before.
fn same(sheet: &[u8], length: usize) -> Written {
    let before: Vec<u8> = (0..length).map(|place| place as u8 ^ 0xA5).collect();
    let mut after = before.clone();
    let answer = wanted(sheet, &mut after);
    let end = answer.length as usize;
    assert!(after[end..] == before[end..], "the rest of the buffer");
    for (name, write) in WRITERS {
        let mut out = before.clone();
        let start = &sheet[..sheet.len().min(400)];
        let what = || format!("{name}, buffer of {length}, sheet {start:02x?}");
        assert_eq!(write(sheet, &mut out), answer, "{}", what());
        assert!(out == after, "other bytes: {}", what());
    }
    answer
}

/// A valid sheet's length as written, after buffers that are too short, just long enough and longer.
fn same_on_buffers(sheet: &[u8]) -> usize {
    let answer = same(sheet, sheet.len() + 9);
    assert_eq!((answer.number, answer.place), (0, 0));
    let length = answer.length as usize;
    assert_eq!(same(sheet, length), answer);
    for short in [0, length / 2, length - 1] {
        assert_eq!(same(sheet, short).number, SHORT_BUFFER);
    }
    length
}

#[test]
fn on_the_sets_of_the_benchmark() {
    for (name, _, count) in sets::SETS {
        let sheet = sets::sheet(name, 0).unwrap();
        assert_ne!(sets::sheet(name, 1), Some(sheet.clone()));
        assert_eq!(u16::from_le_bytes([sheet[2], sheet[3]]), count as u16);
        let length = same_on_buffers(&sheet);
        let mut out = vec![0; length];
        wanted(&sheet, &mut out);
        // What the names promise: short clauses alone may be drawn twice.
        match name.split('-').next().unwrap() {
            "sorted" => assert_eq!(out, sheet),
            "equal" => assert_eq!(out[2..4], [1, 0]),
            "short" => assert!(length > sheet.len() / 2),
            _ => assert!(length == sheet.len() && out != sheet),
        }
    }
}

/// Few variables, so that clauses come twice and begin others; their codes lie on both sides of 256.
fn small(random: &mut Random) -> Vec<u8> {
    let costs = (0..201).map(|_| random.next_u64() as u32).collect();
    let count = random.below(24);
    let clause = |_| {
        let literal = |variable| {
            let stands = random.percent(50);
            stands.then(|| Literal::new(variable, random.percent(70)))
        };
        let variables = [1, 127, 128, 129, 201].into_iter();
        variables.filter_map(literal).collect()
    };
    let clauses = (0..count).map(clause).collect();
    format::sheet(&Problem {
        loss: some_loss(random),
        costs,
        clauses,
    })
}

#[test]
fn on_small_sheets() {
    let random = &mut Random::new(3);
    let mut shorter = 0;
    for _ in 0..2_000 {
        let sheet = small(random);
        shorter += usize::from(same_on_buffers(&sheet) + LOSS < sheet.len());
    }
    assert!(shorter > 500, "{shorter} sheets with a clause twice");
}

/// A mark is written where its loss is not 0, and there alone.
#[test]
fn on_every_sort_of_loss() {
    let mut problem = beginnings(5);
    let unmarked = format::sheet(&problem).len();
    for (loss, more) in [
        (None, 0),
        (Some(0), 0),
        (Some(1), LOSS),
        (Some(0x8000), LOSS),
        (Some(u32::MAX), LOSS),
    ] {
        problem.loss = loss;
        let length = same_on_buffers(&format::sheet(&problem));
        assert_eq!(length, unmarked + more, "{loss:?}");
    }
}

/// A clause of every length, each the beginning of the next: long lists are gone through in other ways than short ones.
fn beginnings(longest: usize) -> Problem {
    let list: Vec<Literal> = (1..=longest).map(Literal::positive).collect();
    Problem {
        loss: None,
        costs: vec![1; longest],
        clauses: (0..=longest).map(|end| list[..end].to_vec()).collect(),
    }
}

#[test]
fn on_clauses_that_begin_others() {
    let mut problem = beginnings(70);
    for mut clause in problem.clauses.clone() {
        if let Some(last) = clause.pop() {
            clause.push(last.negated());
            problem.clauses.push(clause);
        }
    }
    for turn in 0..3 {
        let middle = problem.clauses.len() / 2 + turn;
        problem.clauses.rotate_left(middle);
        problem.clauses[turn..].reverse();
        let sheet = format::sheet(&problem);
        assert_eq!(same_on_buffers(&sheet), sheet.len());
    }
}

/// The sheet cut at every place, and with another byte there; counts the numbers of the answers.
fn spoilt(sheet: &[u8], met: &mut BTreeMap<u64, usize>) {
    let mut look = |sheet: &[u8]| {
        // What is wrong with the sheet is told before the buffer's length is.
        for length in [sheet.len(), 0] {
            *met.entry(same(sheet, length).number).or_default() += 1;
        }
    };
    let mut other = sheet.to_vec();
    for place in 0..sheet.len() {
        look(&sheet[..place]);
        for change in [1, 2, 128] {
            other[place] ^= change;
            look(&other);
            other[place] ^= change;
        }
    }
}

#[test]
fn on_refused_sheets() {
    let random = &mut Random::new(4);
    let mut met = BTreeMap::new();
    for _ in 0..100 {
        spoilt(&format::sheet(&sheets::small(random)), &mut met);
    }
    spoilt(&format::sheet(&beginnings(50)), &mut met);
    println!("{met:?}");
    let numbers: Vec<u64> = met.into_keys().collect();
    assert_eq!(numbers, [0, 2, 3, 4, SHORT_BUFFER]);
}
