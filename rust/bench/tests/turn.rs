//! The turners written for speed and the proved one answer as plain counting does and leave the same buffers: else their times
//! would compare different work. And the benchmark's sheets are what is promised of them.

use bench::turned::{self, same_work, Work, AFRESH, TURNS};
use bench::{turn_afresh, turn_last, turn_looked, turn_signed, Turn};
use planner::{format, Literal, Problem, MOST_CLAUSES, MOST_VARIABLES};
use proved::Turned;
use samples::random::Random;
use samples::searching;
use samples::sheets::{self, Costs, Shape};
use std::collections::BTreeMap;

const TURNERS: [(&str, Turn); 5] = [
    ("proved", proved::turn),
    ("looked", turn_looked),
    ("signed", turn_signed),
    ("afresh", turn_afresh),
    ("last", turn_last),
];

const SHORT_BUFFER: u64 = 29;
const NO_VARIABLE: u64 = 30;

/// What stands in a buffer before: nothing that is written there.
fn before(length: usize) -> Vec<u8> {
    (0..length).map(|place| place as u8 | 0xA4).collect()
}

/// The assignment, the index and the counts.
type Buffers = [Vec<u8>; 3];

/// The answer that all give on buffers that hold this before, and what these hold then.
fn same(sheet: &[u8], turns: &[u16], buffers: &Buffers) -> (Turned, Buffers) {
    let results = TURNERS.map(|(name, turn)| {
        let [mut assignment, mut index, mut counts] = buffers.clone();
        let answer = turn(sheet, &mut assignment, turns, &mut index, &mut counts);
        (name, (answer, [assignment, index, counts]))
    });
    let [(_, first), others @ ..] = results;
    for (name, result) in others {
        assert_eq!(result.0, first.0, "{name}");
        assert!(result.1 == first.1, "other bytes: {name}");
    }
    first
}

/// The lengths that a problem needs.
fn lengths(problem: &Problem) -> [usize; 3] {
    let n = problem.costs.len();
    let literals: usize = problem.clauses.iter().map(Vec::len).sum();
    [
        n.div_ceil(8),
        8 * n + 4 * literals,
        2 * problem.clauses.len(),
    ]
}

fn write(buffer: &mut [u8], place: usize, bytes: &[u8]) {
    buffer[place..place + bytes.len()].copy_from_slice(bytes);
}

/// What turning is to leave of the buffers, and the total, by plain counting at the end.
fn wanted(problem: &Problem, turns: &[u16], buffers: &Buffers) -> (u64, Buffers) {
    let [mut assignment, mut index, mut counts] = buffers.clone();
    for turn in turns {
        let place = usize::from(*turn) - 1;
        assignment[place / 8] ^= 1 << (place % 8);
    }
    let mut next = 8 * problem.costs.len();
    for variable in 1..=problem.costs.len() {
        let start = next;
        for (place, clause) in problem.clauses.iter().enumerate() {
            if clause.iter().any(|literal| literal.variable() == variable) {
                write(&mut index, next, &(place as u32 + 1).to_le_bytes());
                next += 4;
            }
        }
        let pair = [start, next - start].map(|number| (number as u32).to_le_bytes());
        write(&mut index, 8 * (variable - 1), pair.as_flattened());
    }
    let mut total = 0;
    for (place, clause) in problem.clauses.iter().enumerate() {
        let is_true = |literal: &&Literal| {
            let bit = assignment[literal.index() / 8] >> (literal.index() % 8) & 1;
            u16::from(bit) != literal.code() % 2
        };
        let count = clause.iter().filter(is_true).count() as u16;
        write(&mut counts, 2 * place, &count.to_le_bytes());
        total += u64::from(count == 0);
    }
    (total, [assignment, index, counts])
}

/// Turns on buffers that are just long enough and on longer ones, all as wanted; the total.
fn same_as_wanted(problem: &Problem, turns: &[u16]) -> u64 {
    let sheet = format::sheet(problem);
    let [exact, longer] = [0, 5].map(|more| {
        let buffers = lengths(problem).map(|length| before(length + more));
        let (answer, left) = same(&sheet, turns, &buffers);
        let (total, right) = wanted(problem, turns, &buffers);
        assert_eq!((answer.number, answer.place, answer.total), (0, 0, total));
        assert!(left == right, "{sheet:02x?} {turns:?}");
        total
    });
    assert_eq!(exact, longer);
    exact
}

fn some_turns(variables: usize, count: usize, random: &mut Random) -> Vec<u16> {
    let turn = |_| random.between(1, variables) as u16;
    (0..count).map(turn).collect()
}

#[test]
fn on_small_sheets() {
    let random = &mut Random::new(7);
    let mut met: BTreeMap<u64, usize> = BTreeMap::new();
    for _ in 0..2_000 {
        let problem = sheets::small(random);
        let count = [0, 1, 2, 9, 40][random.below(5)];
        let turns = some_turns(problem.costs.len(), count, random);
        *met.entry(same_as_wanted(&problem, &turns).min(3))
            .or_default() += 1;
    }
    println!("{met:?} of totals, up to 3");
    assert!(met.len() == 4 && met.values().all(|count| *count > 50));
}

/// Every length of a clause up to some, so that it is looked through by one and by eight codes at once, and the longest.
#[test]
fn on_clauses_of_every_length() {
    let random = &mut Random::new(8);
    for variables in [70, MOST_VARIABLES - 1, MOST_VARIABLES] {
        let mut problem = sheets::wide(random);
        problem.costs.resize(variables, 1);
        problem.clauses.clear();
        for length in (0..=66).chain([variables]) {
            let first = random.between(1, variables - length + 1);
            let literal = |variable| Literal::new(variable, random.percent(50));
            problem
                .clauses
                .push((first..first + length).map(literal).collect());
        }
        for count in [0, 1, 1_000] {
            let turns = some_turns(variables, count, random);
            // the empty clause
            assert!(same_as_wanted(&problem, &turns) >= 1);
        }
        let each: Vec<u16> = (1..=variables as u16).collect();
        same_as_wanted(&problem, &each);
    }
}

/// As many clauses as there may be, and none.
#[test]
fn on_as_many_clauses_as_there_may_be() {
    let random = &mut Random::new(9);
    for clauses in [0, 1, MOST_CLAUSES - 1, MOST_CLAUSES] {
        let shape = Shape {
            variables: 40,
            clauses,
            shortest: 1,
            longest: 4,
            positive: 50,
            costs: Costs::Few,
        };
        let problem = sheets::problem(&shape, random);
        let turns = some_turns(40, 300, random);
        assert!(same_as_wanted(&problem, &turns) <= clauses as u64);
    }
}

#[test]
fn on_refused_sheets() {
    let mut met: BTreeMap<u64, usize> = BTreeMap::new();
    for case in searching::damaged(6).take(2_000) {
        let told = reference::write_sheet(&case.sheet, &mut []);
        let number = u64::from(told.number);
        // 25 is the writer's own, of a valid sheet
        if (1..=4).contains(&number) {
            for length in [0, 9_999] {
                let buffers = [length; 3].map(before);
                let (answer, left) = same(&case.sheet, &[0, 1], &buffers);
                assert_eq!((answer.number, answer.place), (number, told.place));
                assert!(answer.total == 0 && left == buffers);
            }
            *met.entry(number).or_default() += 1;
        }
    }
    println!("{met:?}");
    assert!(met.into_keys().eq([2, 3, 4]));
}

#[test]
fn on_short_buffers_and_on_turns_of_no_variable() {
    let random = &mut Random::new(10);
    for _ in 0..300 {
        let problem = sheets::small(random);
        let n = problem.costs.len();
        let sheet = format::sheet(&problem);
        let exact = lengths(&problem);
        let refused = |turns: &[u16], lengths: [usize; 3]| {
            let buffers = lengths.map(before);
            let (answer, left) = same(&sheet, turns, &buffers);
            assert!(left == buffers && answer.total == 0);
            (answer.number, answer.place)
        };
        for place in (0..3).filter(|place| exact[*place] > 0) {
            let mut short = exact;
            short[place] -= 1;
            // a short buffer is told first
            for turns in [&[1][..], &[], &[0]] {
                assert_eq!(refused(turns, short), (SHORT_BUFFER, 0));
            }
        }
        for wrong in [0, n as u16 + 1, u16::MAX] {
            let mut turns = some_turns(n, random.between(1, 40), random);
            let place = random.below(turns.len());
            turns[place] = wrong;
            turns.push(0);
            assert_eq!(refused(&turns, exact), (NO_VARIABLE, place as u64 + 1));
        }
    }
}

#[test]
fn on_the_sets_of_the_benchmark() {
    for (name, _) in turned::SETS {
        let work = turned::work(name).unwrap();
        let Work { sheet, turns, .. } = &work;
        assert!(turned::work(name).unwrap().sheet == *sheet, "{name}");
        let counts = [MOST_VARIABLES as u16, MOST_CLAUSES as u16];
        assert_eq!(sheet[..4], counts.map(u16::to_le_bytes).concat());
        assert_eq!(turns.len(), TURNS);
        let lengths = clause_lengths(sheet);
        let (least, most) = (lengths.iter().min().unwrap(), lengths.iter().max().unwrap());
        match name {
            "mixed" => assert!(*least == 1 && *most > 400),
            _ => assert_eq!([*least, *most], [name.parse().unwrap(); 2]),
        }
        let answer = same_work(&TURNERS, &work, &turns[..AFRESH]).unwrap();
        println!(
            "{name}: {} literals, {answer:?}",
            lengths.iter().sum::<usize>()
        );
        same_work(&TURNERS, &work, &[]).unwrap();
    }
    assert!(turned::work("4").is_none());
}

/// The literals of each clause of a sheet that has as many variables and clauses as there may be, and no mark.
fn clause_lengths(sheet: &[u8]) -> Vec<usize> {
    let pairs = &sheet[4 + 4 * MOST_VARIABLES..][..8 * MOST_CLAUSES];
    let length = |pair: &[u8; 8]| u32::from_le_bytes(*pair.last_chunk().unwrap()) as usize / 2;
    pairs.as_chunks().0.iter().map(length).collect()
}

/// Signs are drawn: of the turned clauses about half gain a true literal, and each variable is turned.
#[test]
fn the_turns_and_the_signs_are_mixed() {
    let work = turned::work("10").unwrap();
    let mut met = vec![0; MOST_VARIABLES + 1];
    work.turns
        .iter()
        .for_each(|turn| met[usize::from(*turn)] += 1);
    assert_eq!(met[0], 0);
    assert!(met[1..].iter().all(|count| (500..2_000).contains(count)));
    let codes = &work.sheet[4 + 4 * MOST_VARIABLES + 8 * MOST_CLAUSES..];
    let negative = codes.iter().step_by(2).filter(|low| **low % 2 == 1).count();
    assert!((18_000..23_000).contains(&negative), "{negative} of 40960");
}

/// Does what is right, and then spoils one thing.
fn spoilt<const WHAT: usize>(
    sheet: &[u8],
    assignment: &mut [u8],
    turns: &[u16],
    index: &mut [u8],
    counts: &mut [u8],
) -> Turned {
    let mut answer = turn_last(sheet, assignment, turns, index, counts);
    match WHAT {
        0 => assignment[0] ^= 1,
        1 => index[9_000] ^= 1,
        2 => counts[1] ^= 1,
        3 => answer.total += 1,
        _ => answer.number = 29,
    }
    answer
}

/// The comparison before the timing can fail, by whatever is compared, and whichever side is the first.
#[test]
fn other_work_is_noticed() {
    let work = turned::work("3").unwrap();
    let others: [(Turn, &str); 5] = [
        (spoilt::<0>, "assigns otherwise"),
        (spoilt::<1>, "has another index"),
        (spoilt::<2>, "counts otherwise"),
        (spoilt::<3>, "answers otherwise"),
        (spoilt::<4>, "refuses"),
    ];
    let compare = |turners: &[(&str, Turn)]| same_work(turners, &work, &work.turns[..9]);
    for (other, how) in others {
        let (right, other): (_, (_, Turn)) = (TURNERS[1], ("spoilt", other));
        let told = compare(&[right, other]).unwrap_err();
        assert!(told.starts_with(&format!("spoilt {how}")), "{told}");
        assert!(compare(&[other, right]).is_err(), "{how}");
    }
    assert!(compare(&TURNERS[1..3]).is_ok());
    assert!(compare(&[]).is_err());
}
