//! Explanations of refusals 16, 17 and 18: what a resolution lacks, by how much its bound is too high, and mends that mend.
//! Resolutions that say less than they could have nothing to mend.
//!
//! The answers here are the reference checker's, which shares no code with the explanation.

mod common;

use common::judged;
use plancheck::explain::explain;
use plancheck::pack::pack;
use planner::bounds::cost_bound;
use planner::format::{self, Bodies};
use planner::random::Random;
use planner::{Literal, Problem, Reason, Step, NONE};
use samples::examples::{example, Example};
use std::collections::BTreeMap;

const SHEET: &str =
    "sheet\ncost 1 1\ncost 2 2\ncost 3 3\ncost 4 4\ncost 5 5\nclause 1 2\nclause -1 3\n";

/// The steps that are resolved.
const CITED: &str = "cost : 1 2 -3 bound 3\ncost : -1 2 4 bound 1\n";
const FIRST: &str = "step 1 (record, byte 37): cost : 1 2 -3 bound 3";
const SECOND: &str = "step 2 (record, byte 55): cost : -1 2 4 bound 1";
const AFTER: &str = "after a mend, work out anew the steps that rest on this one";

/// A record of two steps and a resolution, with the claim none.
fn files(cited: &str, step: &str) -> (Vec<u8>, Vec<u8>) {
    let record = format!("record\nvariables 5\nclaim none\nassign\n{cited}{step}\n");
    (pack(SHEET).unwrap().1, pack(&record).unwrap().1)
}

/// The answer's number, and what stands below the line of the step at fault.
fn explained_of(cited: &str, step: &str) -> (u64, String) {
    let (sheet, record) = files(cited, step);
    let answer = judged(&sheet, &record);
    let lines = explain(&sheet, &record, &answer);
    assert!(lines[2].starts_with("step 3 (record, byte "), "{lines:?}");
    assert!(lines[2].ends_with(step), "{lines:?}");
    (answer.number, lines[3..].join("\n"))
}

fn explained(step: &str) -> (u64, String) {
    explained_of(CITED, step)
}

#[test]
fn a_missing_literal_is_named_below_the_step_that_has_it() {
    let lack = |literals: &str| format!("  step 3 lacks {literals}");
    let add = |literals: &str| format!("mend: add {literals} to the step's literals");
    let lines = [
        FIRST,
        &lack("2 -3"),
        SECOND,
        &lack("2"),
        &add("2 -3"),
        AFTER,
    ]
    .join("\n");
    assert_eq!(explained("resolve 1 2 on 1 : 4 bound 1"), (17, lines));
    let lines = [FIRST, &lack("-3"), SECOND, &add("-3"), AFTER].join("\n");
    assert_eq!(explained("resolve 1 2 on 1 : 2 4 bound 1"), (17, lines));
    // Further literals do not make up for it, and the bound is put right with the list.
    let both = add("4") + ", write bound 1 instead of 9";
    let lines = [FIRST, SECOND, &lack("4"), &both, AFTER].join("\n");
    let step = "resolve 1 2 on 1 : -1 2 -3 5 bound 9";
    assert_eq!(explained(step), (17, lines));
}

#[test]
fn a_literal_that_the_step_holds_the_other_way_gives_place() {
    let lack = "  step 3 lacks 2";
    let mend = "mend: take -2 out of the step's literals, add 2 to the step's literals";
    let lines = [FIRST, lack, SECOND, lack, mend, AFTER].join("\n");
    assert_eq!(explained("resolve 1 2 on 1 : -2 -3 4 bound 0"), (17, lines));
}

const TWO_WAYS: &str = "both ways in the two steps: variable 1, variable 2; \
    a pivot takes one away, and no list holds another both ways; cite other steps";

#[test]
fn no_list_holds_a_variable_both_ways() {
    let cited = "cost : 1 2 bound 0\ncost : -1 -2 bound 3\n";
    let first = "step 1 (record, byte 37): cost : 1 2 bound 0";
    let second = "step 2 (record, byte 53): cost : -1 -2 bound 3";
    let (lack, turned) = ("  step 3 lacks 2", "  step 3 lacks -2");
    let steps = [
        (
            "resolve 1 2 on 1 : bound 0",
            vec![first, lack, second, turned],
        ),
        ("resolve 1 2 on 1 : 2 bound 0", vec![first, second, turned]),
        ("resolve 1 2 on 1 : -2 5 bound 9", vec![first, lack, second]),
    ];
    for (step, shown) in steps {
        let lines = [&shown[..], &[TWO_WAYS]].concat().join("\n");
        assert_eq!(explained_of(cited, step), (17, lines));
    }
    let Example { sheet, record, .. } = example("E");
    let lines = explain(&sheet, &record, &judged(&sheet, &record));
    assert_eq!(lines[0], "refused 17 at 3");
    assert_eq!(lines.last().unwrap(), TWO_WAYS);
}

#[test]
fn a_bound_above_the_lesser_is_told_with_the_distance() {
    let lesser = "the lesser of 3 and 1 is 1: ";
    let bounds = [
        ("2", "2 is 1 above it"),
        ("3", "3 is 2 above it"),
        ("none", "none is above every cost"),
    ];
    for (bound, above) in bounds {
        let mend = format!("mend: write bound 1 instead of {bound}");
        let lines = [FIRST, SECOND, &format!("{lesser}{above}"), &mend, AFTER].join("\n");
        // With the lists that a resolution may have.
        for literals in ["2 -3 4", "1 2 -3 4 -5"] {
            let step = format!("resolve 1 2 on 1 : {literals} bound {bound}");
            assert_eq!(explained(&step), (18, lines.clone()));
        }
    }
    let cited = "copy 1 : 1 2 bound none\ncost : -1 bound 1\n";
    let (_, lines) = explained_of(cited, "resolve 1 2 on 1 : 2 bound none");
    let wanted = "the lesser of none and 1 is 1: none is above every cost";
    assert!(lines.contains(wanted), "{lines}");
}

#[test]
fn a_pivot_that_is_missing_is_named_below_the_step_that_lacks_it() {
    let lacks = |literal: &str| format!("  lacks the pivot's literal {literal}");
    let lines = [
        SECOND,
        &lacks("1"),
        FIRST,
        &lacks("-1"),
        "mend: resolve 1 2 on 1",
        AFTER,
    ];
    let step = "resolve 2 1 on 1 : 2 -3 4 bound 1";
    assert_eq!(explained(step), (16, lines.join("\n")));
    let mend = "mend: resolve 1 2 on 1, write bound 1 instead of 9";
    let lines = [FIRST, &lacks("3"), SECOND, &lacks("-3"), mend, AFTER];
    let step = "resolve 1 2 on 3 : 2 -3 4 bound 9";
    assert_eq!(explained(step), (16, lines.join("\n")));
    let mend = "mend: resolve 1 2 on 1, take -2 out of the step's literals, add 2 -3 4 to the step's literals";
    let lines = [FIRST, SECOND, &lacks("-2"), mend, AFTER];
    let step = "resolve 1 2 on 2 : -2 bound 0";
    assert_eq!(explained(step), (16, lines.join("\n")));
}

#[test]
fn steps_that_do_not_resolve_are_told() {
    let lacks = |literal: &str| format!("  lacks the pivot's literal {literal}");
    let nothing =
        "both ways in the two steps: no variable, so that they do not resolve; cite other steps";
    let lines = [FIRST, FIRST, &lacks("-1"), nothing].join("\n");
    assert_eq!(explained("resolve 1 1 on 1 : 2 -3 bound 0"), (16, lines));
    let cited = "cost : 1 2 bound 0\ncost : -1 -2 bound 3\n";
    let (number, lines) = explained_of(cited, "resolve 1 2 on 5 : bound 0");
    assert_eq!(number, 16);
    assert!(lines.ends_with(TWO_WAYS), "{lines}");
}

#[test]
fn a_pivot_outside_of_the_sheet_is_told() {
    for pivot in ["0", "6", "32769", "65535"] {
        let lines = [
            FIRST,
            &format!("  lacks the pivot's literal {pivot}"),
            SECOND,
            &format!("  lacks the pivot's literal -{pivot}"),
            &format!("variable {pivot} is not in the sheet"),
            "mend: resolve 1 2 on 1",
            AFTER,
        ];
        let step = format!("resolve 1 2 on {pivot} : 2 -3 4 bound 1");
        assert_eq!(explained(&step), (16, lines.join("\n")));
    }
}

/// Further literals, the pivot's own too, and a bound below the lesser are no fault. What is left is that the step does not close.
#[test]
fn a_resolution_may_say_less() {
    for literals in ["2 -3 4", "1 2 -3 4", "-1 2 -3 4", "2 -3 4 5", "1 2 -3 4 -5"] {
        for bound in [0, 1] {
            let (number, lines) =
                explained(&format!("resolve 1 2 on 1 : {literals} bound {bound}"));
            let wanted = ["claim (record, byte 0): none", FIRST, SECOND].join("\n");
            assert_eq!((number, lines), (19, wanted));
        }
    }
}

/// The answer to the worked pair of docs/FORMATS.md with these literals in its third step and this last one.
fn worked(third: &str, last: &str) -> String {
    let sheet = "sheet\ncost 1 3\ncost 2 5\nclause 1 2\nclause 1 -2\n";
    let record = format!(
        "record\nvariables 2\nclaim 3\nassign 1\ncopy 1 : 1 2 bound none\ncopy 2 : 1 -2 bound none\n\
        resolve 1 2 on 2 : {third} bound none\ncost : -1 bound 3\nresolve 3 4 on 1 : {last}\n"
    );
    judged(&pack(sheet).unwrap().1, &pack(&record).unwrap().1).line()
}

#[test]
fn what_a_step_gives_away_later_steps_do_not_have() {
    let answers = [
        ("1", "bound 3", "least 3 open 1 steps 5"),
        ("1", "bound 4", "refused 18 at 5"),
        ("1", "bound 2", "within 1 cost 3 open 1 steps 5"),
        ("1", "bound 0", "within 3 cost 3 open 1 steps 5"),
        ("1 -2", "bound 3", "refused 17 at 5"),
        ("1 -2", "-2 bound 3", "refused 19 at 5"),
    ];
    for (third, last, line) in answers {
        assert_eq!(worked(third, last), line);
    }
}

/// Nothing is said that the checker has not said: an answer with another number gets no mend.
#[test]
fn another_fault_is_not_explained() {
    let steps = [
        "resolve 2 1 on 1 : 2 -3 4 bound 1",
        "resolve 1 2 on 1 : 4 bound 9",
        "resolve 1 2 on 1 : 2 -3 4 bound 9",
        "resolve 1 2 on 1 : 2 -3 4 bound 1",
        "resolve 1 2 on 1 : 1 2 -3 4 -5 bound 0",
        "cost : -1 bound 9",
    ];
    for step in steps {
        let (sheet, record) = files(CITED, step);
        let mut answer = judged(&sheet, &record);
        let told = answer.number;
        for number in [9, 16, 17, 18, 19]
            .into_iter()
            .filter(|number| *number != told)
        {
            answer.number = number;
            let lines = explain(&sheet, &record, &answer);
            let mended = |line: &&String| line.starts_with("mend: ") || line.contains(" lacks ");
            assert_eq!(lines[3..].iter().find(mended), None, "{step} as {number}");
        }
    }
}

/// So few that every list of all of them can be tried.
const VARIABLES: usize = 4;

fn some_literals(random: &mut Random, percent: usize) -> Vec<Literal> {
    let mut literals = Vec::new();
    for variable in 1..=VARIABLES {
        if random.percent(percent) {
            literals.push(Literal::new(variable, random.percent(50)));
        }
    }
    literals
}

/// A sheet of two clauses, a step of each, and a resolution of the two that is seldom far off.
struct Case {
    problem: Problem,
    premises: [Step; 2],
    step: Step,
}

impl Case {
    fn drawn(random: &mut Random) -> Case {
        let clauses = [0, 1].map(|_| some_literals(random, 55));
        let problem = Problem {
            loss: random.percent(50).then_some(5),
            costs: vec![1, 2, 3, 4],
            clauses: clauses.to_vec(),
        };
        let premises = [1, 2].map(|clause| premise(&problem, clause, random.percent(30)));
        let step = near(&premises, random);
        Case {
            problem,
            premises,
            step,
        }
    }

    /// The files with this step in the resolution's place.
    fn files(&self, step: &Step) -> (Vec<u8>, Vec<u8>) {
        let steps = self.premises.iter().chain([step]);
        let bodies: Bodies = steps.map(format::step_body).collect();
        (
            format::sheet(&self.problem),
            format::record_from(NONE, &[0], &bodies),
        )
    }

    /// Whether this step gets through: what follows is the close.
    fn passes(&self, step: &Step) -> bool {
        let (sheet, record) = self.files(step);
        let answer = judged(&sheet, &record);
        assert!(answer.number == 0 || answer.place == 3, "{}", answer.line());
        [0, 19].contains(&answer.number)
    }

    /// Whether any resolution of the two steps gets through. A list of all variables holds whatever it can.
    fn resolves(&self) -> bool {
        let pivots = 1..=VARIABLES as u16;
        let reasons = pivots.flat_map(|pivot| [(1, 2, pivot), (2, 1, pivot)]);
        let mut tried =
            reasons.flat_map(|reason| (0..1 << VARIABLES).map(move |signs| (reason, signs)));
        tried.any(|((positive, negative, pivot), signs)| {
            let literals = (1..=VARIABLES)
                .map(|variable| Literal::new(variable, signs >> (variable - 1) & 1 == 1));
            self.passes(&Step {
                literals: literals.collect(),
                bound: 0,
                reason: Reason::Resolution {
                    positive,
                    negative,
                    pivot,
                },
            })
        })
    }
}

/// A copy of the clause, or the cost of its literals.
fn premise(problem: &Problem, clause: u32, copied: bool) -> Step {
    let literals = problem.clauses[clause as usize - 1].clone();
    let (bound, reason) = match copied {
        true => (NONE, Reason::Copy { clause }),
        false => (cost_bound(problem, &literals), Reason::Cost),
    };
    Step {
        literals,
        bound,
        reason,
    }
}

/// A resolution with most of the literals that it needs, some others, and a bound near the lesser one.
fn near(premises: &[Step; 2], random: &mut Random) -> Step {
    let reason = reason_near(premises, random);
    let Reason::Resolution { pivot, .. } = reason else {
        panic!("this is a resolution");
    };
    let held = premises.iter().flat_map(|premise| &premise.literals);
    let held = held.filter(|literal| literal.variable() != usize::from(pivot));
    let mut literals: Vec<Literal> = held.copied().filter(|_| random.percent(80)).collect();
    if random.percent(50) {
        literals.extend(some_literals(random, 40));
    }
    // Of a variable that came in twice the first literal stays.
    literals.sort_by_key(|literal| literal.variable());
    literals.dedup_by_key(|literal| literal.variable());
    let lesser = premises[0].bound.min(premises[1].bound);
    let (above, below) = (lesser.saturating_add(1), lesser.saturating_sub(1));
    let near = [lesser, lesser, above, below, NONE, 7];
    Step {
        literals,
        bound: near[random.below(near.len())],
        reason,
    }
}

/// Mostly a pivot that is one, with the two steps in their order.
fn reason_near(premises: &[Step; 2], random: &mut Random) -> Reason {
    let turned = |literal: &Literal| premises[1].literals.contains(&literal.negated());
    let clash = premises[0].literals.iter().copied().find(turned);
    let held = match clash {
        Some(held) if random.percent(85) => held,
        _ => Literal::new(random.between(1, VARIABLES), random.percent(50)),
    };
    let (positive, negative) = match held.is_positive() == random.percent(85) {
        true => (1, 2),
        false => (2, 1),
    };
    Reason::Resolution {
        positive,
        negative,
        pivot: held.variable() as u16,
    }
}

/// The step after what a line says has been done to it.
fn mended(step: &Step, line: &str) -> Step {
    let mut step = step.clone();
    for part in line.strip_prefix("mend: ").unwrap().split(", ") {
        let words = part.split(' ');
        let numbers: Vec<i64> = words.filter_map(|word| word.parse().ok()).collect();
        let literals = numbers
            .iter()
            .map(|number| Literal::new(number.unsigned_abs() as usize, *number > 0));
        match part.split(' ').next().unwrap() {
            "resolve" => {
                step.reason = Reason::Resolution {
                    positive: numbers[0] as u32,
                    negative: numbers[1] as u32,
                    pivot: numbers[2] as u16,
                }
            }
            "take" => {
                let out: Vec<Literal> = literals.collect();
                step.literals.retain(|literal| !out.contains(literal));
            }
            "add" => step.literals.extend(literals),
            "write" => step.bound = numbers[0] as u64,
            _ => panic!("{line}"),
        }
    }
    step.literals.sort_unstable();
    step
}

/// The number, and what of a mend was done; or that the two steps do not resolve, which is tried out.
fn mends_of(case: &Case) -> Vec<(u64, String)> {
    let (sheet, record) = case.files(&case.step);
    let answer = judged(&sheet, &record);
    let lines = explain(&sheet, &record, &answer);
    let mends: Vec<&String> = lines
        .iter()
        .filter(|line| line.starts_with("mend: "))
        .collect();
    let faulty = (16..=18).contains(&answer.number);
    assert!(faulty || [0, 19].contains(&answer.number), "{lines:?}");
    let [mend] = mends[..] else {
        assert!(mends.is_empty(), "{lines:?}");
        assert!(!faulty || !case.resolves(), "{lines:?}");
        let told = lines
            .iter()
            .any(|line| line.starts_with("both ways in the two steps: "));
        assert_eq!(told, faulty, "{lines:?}");
        return vec![(answer.number, "nothing".to_string())];
    };
    assert!(faulty, "{lines:?}");
    let step = mended(&case.step, mend);
    assert!(case.passes(&step), "{lines:?}");
    let parts = mend.strip_prefix("mend: ").unwrap().split(", ");
    let ways = parts.map(|part| part.split(' ').next().unwrap());
    ways.map(|way| (answer.number, way.to_string())).collect()
}

/// Once a mend is done, the step gets through; where there is none, no step does with these two.
#[test]
fn mends_mend() {
    let mut random = Random::new(16);
    let mut met: BTreeMap<(u64, String), usize> = BTreeMap::new();
    for _ in 0..8_000 {
        for way in mends_of(&Case::drawn(&mut random)) {
            *met.entry(way).or_default() += 1;
        }
    }
    let pivot = ["resolve", "take", "add", "write", "nothing"].map(|way| (16, way));
    let literal = ["take", "add", "write", "nothing"].map(|way| (17, way));
    let others = [(18, "write"), (19, "nothing")];
    for (number, way) in pivot.into_iter().chain(literal).chain(others) {
        let count = met.get(&(number, way.to_string())).copied().unwrap_or(0);
        assert!(count > 20, "{number} {way}: {met:?}");
    }
    assert!(!met.contains_key(&(18, "nothing".to_string())), "{met:?}");
}
