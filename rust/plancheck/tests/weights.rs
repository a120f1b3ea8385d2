//! Explanations of weighted steps: how the bound comes about, and refusals 23 and 24 with mends that mend.
//!
//! The answers here are the reference checker's, which shares no code with the explanation.

mod common;

use common::judged;
use plancheck::explain::explain;
use plancheck::pack::pack;
use plancheck::sheet::Sheet;
use plancheck::weighted;
use planner::format::{self, Bodies};
use planner::random::Random;
use planner::{Literal, Problem, Reason, Step, NONE};
use samples::sheets;
use std::collections::BTreeMap;

/// Document 001's example 2, as in document 01's case C, with a clause without literals. Its example 3 has the weights.
const SHEET: &str = "sheet\ncost 1 1\ncost 2 2\ncost 3 3\ncost 4 4\ncost 5 5\ncost 6 6\n\
    clause 1 3 5\nclause 2 4 5 -6\nclause -1 -2\nclause\n";

const EXAMPLE: &str = "weighted 1*3 2*4 3*2 over 1 : 5 -6";

const TABLE: &str = "\
variable  1 x cost  - positive  + negative  remainder    settled  adds
       1         1           3           2          0  unsettled     0
       2         2           4           2          0  unsettled     0
       3         3           3           0          0  unsettled     0
       4         4           4           0          0  unsettled     0
       5         5           7           0         -2      false     0
       6         6           0           4         10       true    10
clause 1 (sheet, byte 60): 1 3 5
  adds 3 x (1 - 0) = 3
clause 2 (sheet, byte 66): 2 4 5 -6
  adds 4 x (1 - 1) = 0
clause 3 (sheet, byte 74): -1 -2
  adds 2 x (1 - 2) = -2
variables add 10, clauses add 1: total 11
bound 11: 11 / 1, rounded up";

const AFTER: &str = "after a mend, work out anew the steps that rest on this one";

/// The sheet and a record with this one step.
fn files(sheet: &str, step: &str) -> (Vec<u8>, Vec<u8>) {
    let sheet = pack(sheet).unwrap().1;
    let variables = Sheet::open(&sheet).unwrap().variables;
    let record = format!("record\nvariables {variables}\nclaim none\nassign\n{step}\n");
    (sheet, pack(&record).unwrap().1)
}

/// The answer's number, and what stands below the step's line; of a step that passes, below the claim.
fn explained_in(sheet: &str, step: &str) -> (u64, String) {
    let (sheet, record) = files(sheet, step);
    let answer = judged(&sheet, &record);
    let lines = explain(&sheet, &record, &answer);
    assert!(lines[2].ends_with(step), "{lines:?}");
    let start = if answer.number == 19 { 4 } else { 3 };
    (answer.number, lines[start..].join("\n"))
}

fn explained(step: &str) -> (u64, String) {
    explained_in(SHEET, step)
}

#[test]
fn example_3_of_document_001_has_the_bound_11() {
    let (number, lines) = explained(&format!("{EXAMPLE} bound 11"));
    assert_eq!((number, lines.as_str()), (19, TABLE));
}

/// One of variables 2 to 4 in each clause costs 3 halves at least, and variable 1 costs 4.
#[test]
fn a_settled_variable_adds_its_remainder_and_the_bound_is_rounded_up() {
    let sheet =
        "sheet\ncost 1 4\ncost 2 1\ncost 3 1\ncost 4 1\nclause -1 2 3\nclause 3 4\nclause 2 4\n";
    let wanted = "\
variable  2 x cost  - positive  + negative  remainder    settled  adds
       1         8           0           1          9       true     9
       2         2           2           0          0  unsettled     0
       3         2           2           0          0  unsettled     0
       4         2           2           0          0  unsettled     0
clause 1 (sheet, byte 44): -1 2 3
  adds 1 x (1 - 1) = 0
clause 2 (sheet, byte 50): 3 4
  adds 1 x (1 - 0) = 1
clause 3 (sheet, byte 54): 2 4
  adds 1 x (1 - 0) = 1
variables add 9, clauses add 2: total 11
bound 6: 11 / 2, rounded up";
    let explained = explained_in(sheet, "weighted 1*1 2*1 3*1 over 2 : -1 bound 6");
    assert_eq!(explained, (19, wanted.to_string()));
}

/// Of variables 3 and 5 one is settled false here and one is unsettled.
#[test]
fn variables_that_add_nothing_are_left_out() {
    let wanted = "\
variable  1 x cost  - positive  + negative  remainder    settled  adds
       1         1           0           1          2  unsettled     0
       2         2           0           1          3  unsettled     0
       6         6           0           0          6       true     6
not shown: 3 variables in no cited clause and not settled true, which add nothing
clause 3 (sheet, byte 74): -1 -2
  adds 1 x (1 - 2) = -1
variables add 6, clauses add -1: total 5
bound 5: 5 / 1, rounded up";
    let explained = explained("weighted 3*1 over 1 : 3 -6 bound 5");
    assert_eq!(explained, (19, wanted.to_string()));
}

#[test]
fn without_variables_there_is_no_table() {
    let wanted = "\
not shown: 6 variables in no cited clause and not settled true, which add nothing
clause 4 (sheet, byte 78): no literals
  adds 7 x (1 - 0) = 7
variables add 0, clauses add 7: total 7
bound 4: 7 / 2, rounded up";
    let explained = explained("weighted 4*7 over 2 : bound 4");
    assert_eq!(explained, (19, wanted.to_string()));
}

#[test]
fn the_last_step_of_an_accepted_record_has_its_table_too() {
    let sheet = pack("sheet\ncost 1 4\ncost 2 3\ncost 3 2\nclause 1 2\nclause 2 3\nclause 1 3\n");
    let record =
        pack("record\nvariables 3\nclaim 5\nassign 2 3\nweighted 1*5 2*1 3*3 over 2 : bound 5\n");
    let (sheet, record) = (sheet.unwrap().1, record.unwrap().1);
    let lines = explain(&sheet, &record, &judged(&sheet, &record));
    assert_eq!(lines[0], "least 5 open 2 steps 1");
    assert!(lines[4].starts_with("variable  2 x cost"), "{lines:?}");
    assert_eq!(lines.last().unwrap(), "bound 5: 9 / 2, rounded up");
}

#[test]
fn another_bound_is_told_with_the_one_that_is_due() {
    for bound in ["10", "12", "0", "none"] {
        let mend = format!("mend: write bound 11 instead of {bound}");
        let wanted = [TABLE, &mend, AFTER].join("\n");
        let step = format!("{EXAMPLE} bound {bound}");
        assert_eq!(explained(&step), (24, wanted));
    }
    // Totals below 0, and of 0.
    for (step, clauses) in [("weighted 3*2 over 3 :", -2), ("weighted 2*1 over 1 :", 0)] {
        let (number, lines) = explained(&format!("{step} bound 1"));
        let end = format!(
            "variables add 0, clauses add {clauses}: total {clauses}\n\
            bound 0, since the total is not positive\nmend: write bound 0 instead of 1\n{AFTER}"
        );
        assert_eq!(number, 24);
        assert!(lines.ends_with(&end), "{lines}");
    }
}

#[test]
fn what_is_0_is_named() {
    let clause = "clause 2 (sheet, byte 66): 2 4 5 -6\n  its weight is 0";
    let both = "clause 1 (sheet, byte 60): 1 3 5\n  its weight is 0\n\
        clause 3 (sheet, byte 74): -1 -2\n  its weight is 0";
    let cases = [
        ("1*3 2*4 3*2 over 0", "the divisor is 0\nmend: divide by 1; bound 11 then".to_string()),
        (
            "1*3 2*0 3*2 over 1",
            format!("{clause}\nmend: do not cite clause 2; bound 7 then\nmend: give clause 2 the weight 1; bound 8 then"),
        ),
        (
            "1*3 2*0 over 0",
            format!(
                "the divisor is 0\n{clause}\nmend: divide by 1 and do not cite clause 2; bound 7 then\n\
                mend: divide by 1 and give clause 2 the weight 1; bound 8 then"
            ),
        ),
        (
            "1*0 2*1 3*0 over 1",
            format!(
                "{both}\nmend: do not cite the 2 clauses of weight 0; bound 7 then\n\
                mend: give the 2 clauses of weight 0 the weight 1; bound 7 then"
            ),
        ),
        (
            "1*0 3*0 over 2",
            format!(
                "{both}\nmend: make it a cost step, which cites nothing; bound 6 then\n\
                mend: give the 2 clauses of weight 0 the weight 1; bound 6 then"
            ),
        ),
    ];
    for (cited, wanted) in cases {
        let step = format!("weighted {cited} : 5 -6 bound 11");
        assert_eq!(explained(&step), (23, format!("{wanted}\n{AFTER}")));
    }
}

/// Where the sum is not worth showing, what is cited is shown.
#[test]
fn clauses_are_shown_where_there_is_no_sum() {
    let first = "clause 1 (sheet, byte 60): 1 3 5";
    let third = "clause 3 (sheet, byte 74): -1 -2";
    let none = "clause 9 (sheet): there is no such clause";
    let head = "the sheet has 4 clauses";
    let cases = [
        (
            "1*3 9*1 over 1 : 5 bound 1",
            9,
            [head, first, none].join("\n"),
        ),
        (
            "3*3 1*1 over 1 : 5 bound 1",
            9,
            [head, third, first].join("\n"),
        ),
        (
            "1*3 3*1 over 1 : 5 -5 bound 1",
            8,
            [first, third].join("\n"),
        ),
        ("1*3 3*1 over 1 : 5 7 bound 1", 8, [first, third].join("\n")),
        ("1*3 3*1 over 0 : 6 5 bound 1", 8, [first, third].join("\n")),
    ];
    for (step, number, wanted) in cases {
        assert_eq!(explained(&format!("weighted {step}")), (number, wanted));
    }
}

/// Nothing is said that the checker has not said: an answer with another number gets no mend.
#[test]
fn another_fault_is_not_explained() {
    let steps = [
        (EXAMPLE, "bound 11"),
        (EXAMPLE, "bound 12"),
        ("weighted 1*3 2*0 over 1 : 5 -6", "bound 8"),
        ("weighted 1*3 over 0 : 5 -6", "bound 7"),
        ("independent 1 : 5", "bound 1"),
    ];
    for (step, bound) in steps {
        let (sheet, record) = files(SHEET, &format!("{step} {bound}"));
        let mut answer = judged(&sheet, &record);
        let told = answer.number;
        for number in [15, 19, 23, 24]
            .into_iter()
            .filter(|number| *number != told)
        {
            answer.number = number;
            let lines = explain(&sheet, &record, &answer);
            assert!(lines.iter().any(|line| line.starts_with("clause 1 (")));
            let mends = lines.iter().filter(|line| line.starts_with("mend: "));
            assert_eq!(mends.count(), 0, "{step} {bound} as {number}: {lines:?}");
        }
    }
}

/// Every line of a step as large as can be, in numbers and in lists.
#[test]
fn long_lists_are_cut_and_lines_are_not_wide() {
    let (variables, clauses) = (1024, 4096);
    let literal = |clause: usize, variable: usize| Literal::new(variable, variable > clause / 4);
    let problem = Problem {
        loss: Some(u32::MAX),
        costs: vec![u32::MAX; variables],
        clauses: (0..clauses)
            .map(|clause| (1..=variables).map(|v| literal(clause, v)).collect())
            .collect(),
    };
    let sheet = format::sheet(&problem);
    let sheet = Sheet::open(&sheet).unwrap();
    let weights: Vec<(u32, u16)> = (1..=clauses as u32).map(|c| (c, u16::MAX)).collect();
    let negative: Vec<Literal> = (1..=variables).map(Literal::negative).collect();
    for literals in [&negative[..], &negative[..20], &[]] {
        let lines = weighted::lines(&sheet, literals, u16::MAX, &weights);
        for line in &lines {
            assert!(line.len() <= 100, "{line}");
        }
        let more = |what: &str| lines.iter().any(|line| line.starts_with(what));
        assert!(more("and 1000 variables more, which add "));
        assert!(more("and 4072 clauses more, which add -"));
        followed(&lines, literals, u16::MAX);
    }
    // Rising clauses with a gap at the end are no sum, and those of weight 0 are cut too.
    let beyond = [&weights[..], &[(5000, 1)]].concat();
    let lines = weighted::lines(&sheet, &[], 1, &beyond);
    assert_eq!(lines.last().unwrap(), "and 4073 clauses more");
}

#[test]
fn long_lists_of_weight_0_are_cut() {
    let sheet = "sheet\ncost 1 1\n".to_string() + &"clause 1\n".repeat(40);
    let cited: String = (1..=40).map(|clause| format!(" {clause}*0")).collect();
    let (number, lines) = explained_in(&sheet, &format!("weighted{cited} over 1 : bound 1"));
    assert_eq!(number, 23);
    let end = "\nand 16 clauses of weight 0 more\nmend: make it a cost step, which cites nothing; bound 0 then\n\
        mend: give the 40 clauses of weight 0 the weight 1; bound 1 then\n";
    assert!(lines.ends_with(&format!("{end}{AFTER}")), "{lines}");
}

/// The sums of a step's lines, followed by calculation.
#[derive(Default)]
struct Sums {
    variables: i128,
    clauses: i128,
}

impl Sums {
    /// Takes one line in; gives back the total once it is told.
    fn take(&mut self, line: &str, literals: &[Literal]) -> Option<i128> {
        let words = line.split_whitespace();
        let words: Vec<&str> = words
            .map(|word| word.trim_matches([',', ':', '(', ')']))
            .collect();
        let number = |place: usize| words[place].parse::<i128>().unwrap();
        match words[..] {
            ["adds", _, "x", "1", "-", _, "=", _] => {
                assert_eq!(number(7), number(1) * (1 - number(5)), "{line}");
                self.clauses += number(7);
            }
            ["and", _, "variables", "more", "which", "add", _] => self.variables += number(6),
            ["and", _, "clauses", "more", "which", "add", _] => self.clauses += number(6),
            ["variables", "add", _, "clauses", "add", _, "total", _] => {
                let told = (number(2), number(5), number(7));
                let total = self.variables + self.clauses;
                assert_eq!(told, (self.variables, self.clauses, total), "{line}");
                return Some(total);
            }
            [variable, _, _, _, _, settled, _] if variable.parse::<usize>().is_ok() => {
                let remainder = number(1) - number(2) + number(3);
                let literal = literals
                    .iter()
                    .find(|l| l.variable().to_string() == variable);
                let (value, adds) = match literal.map(|literal| literal.is_positive()) {
                    Some(false) => ("true", remainder),
                    Some(true) => ("false", 0),
                    None => ("unsettled", remainder.min(0)),
                };
                assert_eq!(
                    (number(4), settled, number(6)),
                    (remainder, value, adds),
                    "{line}"
                );
                self.variables += adds;
            }
            _ => {}
        }
        None
    }
}

/// The loss at the end of the bound's line; without one the line ends with a word.
fn told_loss(line: &str) -> Option<u64> {
    line.rsplit_once(", plus the loss ")
        .map(|(_, loss)| loss.parse().unwrap())
}

/// The bound that a step's lines come to.
fn followed(lines: &[String], literals: &[Literal], divisor: u16) -> u64 {
    let mut sums = Sums::default();
    let mut rest = lines.iter();
    let total = rest.find_map(|line| sums.take(line, literals)).unwrap();
    let line = rest.next().unwrap();
    let told = line.split([' ', ':', ',']).nth(1).unwrap();
    let bound: u64 = told.parse().unwrap();
    let rounded = bound - told_loss(line).unwrap_or(0);
    let covered = |quotient: u64| total <= i128::from(divisor) * i128::from(quotient);
    assert!(
        covered(rounded) && (rounded == 0 || !covered(rounded - 1)),
        "{line}"
    );
    bound
}

/// A weighted step drawn at random: now and then something in it is 0, and its bound is any small number, with the loss or
/// without.
fn drawn(problem: &Problem, random: &mut Random) -> Step {
    let mut literals: Vec<Literal> = Vec::new();
    for variable in 1..=problem.variables() {
        if random.percent(30) {
            literals.push(Literal::new(variable, random.percent(50)));
        }
    }
    let most = [1, 4, 30][random.below(3)];
    let mut weights: Vec<(u32, u16)> = Vec::new();
    for clause in 1..=problem.clauses.len() {
        if random.percent(40) || (clause == problem.clauses.len() && weights.is_empty()) {
            let least = usize::from(!random.percent(8));
            weights.push((clause as u32, random.between(least, most) as u16));
        }
    }
    let least = usize::from(!random.percent(8));
    let divisor = random.between(least, 5) as u16;
    let loss = u64::from(random.percent(60)) * problem.standing_loss();
    Step {
        literals,
        bound: random.below(12) as u64 + loss,
        reason: Reason::Linear { divisor, weights },
    }
}

fn record(problem: &Problem, step: &Step) -> Vec<u8> {
    let body = format::step_body(step);
    let bits = vec![0; problem.variables().div_ceil(8)];
    format::record_from(NONE, &bits, &[body].iter().collect::<Bodies>())
}

/// The step after what a line says has been done to it.
fn mended(step: &Step, line: &str) -> Step {
    let mut step = step.clone();
    let words: Vec<&str> = line.split_whitespace().collect();
    let told = words.iter().position(|word| *word == "bound").unwrap();
    step.bound = words[told + 1].parse().unwrap();
    let Reason::Linear { divisor, weights } = &mut step.reason else {
        panic!("the refusal is about a weighted step");
    };
    if line.contains("divide by 1") {
        *divisor = 1;
    }
    if line.contains("do not cite") {
        weights.retain(|(_, weight)| *weight > 0);
    }
    if line.contains("the weight 1") {
        weights
            .iter_mut()
            .for_each(|(_, weight)| *weight = (*weight).max(1));
    }
    if line.contains("a cost step") {
        step.reason = Reason::Cost;
    }
    step
}

/// The ways in which a refused step can be mended, each tried. Once a mend is done, the step passes: what is left is that it
/// does not close.
fn mends_of(problem: &Problem, step: &Step) -> Vec<(u64, String)> {
    let (sheet, files) = (format::sheet(problem), record(problem, step));
    let answer = judged(&sheet, &files);
    let lines = explain(&sheet, &files, &answer);
    assert!([19, 23, 24].contains(&answer.number), "{lines:?}");
    if let (Reason::Linear { divisor, .. }, 19 | 24) = (&step.reason, answer.number) {
        let bound = followed(&lines[3..], &step.literals, *divisor);
        assert_eq!(bound == step.bound, answer.number == 19, "{lines:?}");
        let losses: Vec<u64> = lines.iter().filter_map(|line| told_loss(line)).collect();
        let wanted = problem.loss.map(u64::from);
        assert_eq!(losses, wanted.into_iter().collect::<Vec<_>>(), "{lines:?}");
    }
    let mends = lines.iter().filter(|line| line.starts_with("mend: "));
    assert_eq!(mends.clone().count() == 0, answer.number == 19, "{lines:?}");
    let ways = mends.map(|mend| {
        let files = record(problem, &mended(step, mend));
        assert_eq!(judged(&sheet, &files).number, 19, "{lines:?}");
        let way = mend.split_whitespace().nth(1).unwrap();
        (answer.number, way.to_string())
    });
    ways.collect()
}

#[test]
fn mends_mend() {
    let mut random = Random::new(23);
    let mut met: BTreeMap<(u64, String), usize> = BTreeMap::new();
    for _ in 0..400 {
        let problem = sheets::small(&mut random);
        if problem.clauses.is_empty() {
            continue;
        }
        for _ in 0..20 {
            let step = drawn(&problem, &mut random);
            for way in mends_of(&problem, &step) {
                *met.entry(way).or_default() += 1;
            }
        }
    }
    let zero = ["divide", "do", "give", "make"].map(|way| (23, way));
    for (number, way) in zero.into_iter().chain([(24, "write")]) {
        let count = met.get(&(number, way.to_string())).copied().unwrap_or(0);
        assert!(count > 20, "{number} {way}: {met:?}");
    }
}
