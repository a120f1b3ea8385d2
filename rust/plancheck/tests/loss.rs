//! Marked sheets and their standing loss: the text line `loss`, and the loss in every sum that is explained.
//!
//! Explanations here are of the reference checker's answers; the program's own are the proved checker's.

mod common;

use common::{code, complained, judged, Folder};
use plancheck::explain::explain;
use plancheck::pack::{pack, Packed};
use plancheck::sheet::Sheet;
use plancheck::text::write_sheet;
use planner::format::{self, Bodies};
use planner::random::Random;
use planner::{Literal, Problem, Reason, Step, NONE};
use samples::examples::{example, Example};
use samples::sheets;

/// The classroom's sheet A with this line behind its costs.
fn sheet_a(loss: &str) -> String {
    format!("sheet\ncost 1 3\ncost 2 5\n{loss}clause 1 2\nclause 1 -2\n")
}

fn packed(text: &str) -> Vec<u8> {
    pack(text).unwrap().1
}

/// The text of a sheet without its comments.
fn text(sheet: &[u8]) -> String {
    let mut out = Vec::new();
    write_sheet(&Sheet::open(sheet).unwrap(), &mut out).unwrap();
    let text = String::from_utf8(out).unwrap();
    let lines = text.lines().map(|line| line.split("  #").next().unwrap());
    lines.map(|line| format!("{line}\n")).collect()
}

#[test]
fn a_loss_stands_between_costs_and_pairs() {
    assert_eq!(packed(&sheet_a("")), example("A1").sheet);
    assert_eq!(packed(&sheet_a("loss 4\n")), example("L1").sheet);
    #[rustfmt::skip]
    let bytes = [
        2, 0x80, 2, 0, 3, 0, 0, 0, 5, 0, 0, 0, 4, 0, 0, 0,
        32, 0, 0, 0, 4, 0, 0, 0, 36, 0, 0, 0, 4, 0, 0, 0, 2, 0, 4, 0, 2, 0, 5, 0,
    ];
    assert_eq!(example("L1").sheet, bytes);
    let sheet = Sheet::open(&bytes).unwrap();
    assert_eq!((sheet.marked, sheet.variables), (true, 2));
    assert_eq!([1, 2].map(|v| sheet.cost(v)), [Some(3), Some(5)]);
    assert_eq!((sheet.loss(), sheet.standing_loss()), (Some(4), 4));
    let literals = [Literal::positive(1), Literal::negative(2)];
    assert_eq!(sheet.clause(2), Some(literals.to_vec()));
}

/// A mark without a loss is no sheet without a mark.
#[test]
fn marked_sheets_come_back() {
    let losses = [None, Some(0), Some(4), Some(u32::MAX)];
    for loss in losses {
        let line = loss.map_or(String::new(), |loss| format!("loss {loss}\n"));
        let sheet = packed(&sheet_a(&line));
        let opened = Sheet::open(&sheet).unwrap();
        assert_eq!((opened.loss(), opened.marked), (loss, loss.is_some()));
        assert_eq!(sheet.len(), if loss.is_some() { 40 } else { 36 });
        assert_eq!(text(&sheet), sheet_a(&line));
        let problem = opened.problem().unwrap();
        assert_eq!(problem.loss, loss);
        assert_eq!(format::sheet(&problem), sheet);
    }
}

#[test]
fn drawn_sheets_come_back() {
    let mut random = Random::new(31);
    for _ in 0..300 {
        let problem = sheets::small(&mut random);
        let sheet = format::sheet(&problem);
        let text = text(&sheet);
        let lines = text.lines().filter(|line| line.starts_with("loss "));
        assert_eq!(lines.count(), usize::from(problem.loss.is_some()));
        assert_eq!(pack(&text), Ok((Packed::Sheet, sheet)));
    }
}

/// Lines after `sheet`, the line at fault and why it is.
#[rustfmt::skip]
const FAULTS: [(&str, usize, &str); 11] = [
    ("cost 1 3\nloss\n", 3, "the loss is missing"),
    ("cost 1 3\nloss 4294967296\n", 3, "the loss is 4294967296, above 4294967295"),
    ("cost 1 3\nloss 04\n", 3, "the loss is no plain number: '04'"),
    ("cost 1 3\nloss -4\n", 3, "the loss is no plain number: '-4'"),
    ("cost 1 3\nloss none\n", 3, "the loss is no plain number: 'none'"),
    ("cost 1 3\nloss 4 5\n", 3, "'5' is too much in this line"),
    ("cost 1 3\nloss 4\nloss 4\n", 4, "a sheet has one loss, and this is the second"),
    ("cost 1 3\nloss 0\nclause 1\nloss 0\n", 5, "a sheet has one loss, and this is the second"),
    ("cost 1 3\nclause 1\nloss 4\n", 4, "the loss stands before the clauses"),
    ("cost 1 3\nloss 4\ncost 2 5\n", 4, "costs stand before the loss"),
    ("cost 1 3\nlost 4\n", 3, "a sheet has lines 'cost', 'loss' and 'clause'"),
];

#[test]
fn a_wrong_loss_is_told_with_its_line() {
    for (lines, line, reason) in FAULTS {
        let fault = pack(&format!("sheet\n{lines}")).unwrap_err();
        assert_eq!((fault.line, fault.reason.as_str()), (line, reason));
    }
    // A record has no loss.
    let fault = pack("record\nvariables 2\nloss 4\n").unwrap_err();
    let reason = "'claim' is due here, not 'loss'";
    assert_eq!((fault.line, fault.reason.as_str()), (3, reason));
}

/// One variable more would be read as the mark and none.
#[test]
fn n_has_15_bits() {
    let costs = |count: usize| (1..=count).map(|v| format!("cost {v} 1\n"));
    let text = |count| format!("sheet\n{}", costs(count).collect::<String>());
    let most = packed(&text(32_767));
    assert_eq!(most[..2], 0x7FFF_u16.to_le_bytes());
    let marked = packed(&(text(32_767) + "loss 9\n"));
    assert_eq!(marked[..2], 0xFFFF_u16.to_le_bytes());
    assert_eq!(marked[most.len()..], [9, 0, 0, 0]);
    let fault = pack(&text(32_768)).unwrap_err();
    let reason = "a sheet counts to 32767 variables at most: n has 15 bits, and the highest bit of its field is the mark";
    assert_eq!((fault.line, fault.reason.as_str()), (32_769, reason));
    // A record has the number of its sheet's variables, and so the same limit.
    let record =
        |count: u64| format!("record\nvariables {count}\nclaim 0\nassign\ncost : bound 0\n");
    let assignment = 32_767_usize.div_ceil(8);
    assert_eq!(packed(&record(32_767)).len(), 12 + assignment + 8 + 12);
    for count in [32_768, 65_535, 65_536, u64::MAX] {
        let fault = pack(&record(count)).unwrap_err();
        assert_eq!((fault.line, fault.reason.as_str()), (2, reason));
    }
    // The number of clauses keeps its 16 bits.
    let clauses = |count| packed(&format!("sheet\n{}", "clause\n".repeat(count)));
    assert_eq!(clauses(65_535)[2..4], [0xFF, 0xFF]);
    let fault = pack(&format!("sheet\n{}", "clause\n".repeat(65_536))).unwrap_err();
    assert_eq!(fault.reason, "a sheet counts to 65535 clauses at most");
}

/// Document 001's example 2, as in document 01's case C, with a loss.
const C: &str = "sheet\ncost 1 1\ncost 2 2\ncost 3 3\ncost 4 4\ncost 5 5\ncost 6 6\nloss 4\n\
    clause 1 3 5\nclause 2 4 5 -6\nclause -1 -2\n";

/// What is said of a record of one step, under a head of claim and assignment.
fn explained(sheet: &str, head: &str, step: &str) -> String {
    let sheet = packed(sheet);
    let variables = Sheet::open(&sheet).unwrap().variables;
    let record = packed(&format!("record\nvariables {variables}\n{head}{step}\n"));
    explain(&sheet, &record, &judged(&sheet, &record)).join("\n")
}

const CLOSE: &str = "\
refused 19 at 1
Close: step 1 is the last and still has literals, or the claim is none and its bound is not none.
";
const HEAD: &str = "claim 5\nassign 1\n";

#[test]
fn the_assignments_cost_has_the_loss() {
    let Example { sheet, record, .. } = example("L1");
    let wanted = "\
least 7 open 1 steps 5
Accepted: the record's assignment satisfies every clause and costs 7, and no assignment that satisfies every clause costs less.
assignment (record, byte 12): true are: variable 1 costs 3; loss 4; together 7
step 5 (record, byte 131): resolve 3 4 on 1 : bound 7
step 3 (record, byte 93): resolve 1 2 on 2 : 1 bound none
step 4 (record, byte 117): cost : -1 bound 7";
    let lines = explain(&sheet, &record, &judged(&sheet, &record));
    assert_eq!(lines.join("\n"), wanted);
}

#[test]
fn a_claim_without_the_loss_is_told_with_it() {
    let wanted = "\
refused 11 at 0
Claimed cost: the claim is not what the assignment costs.
claim (record, byte 0): 1
assignment (record, byte 12): true are: variable 1 costs 1; loss 4; together 5";
    let step = "cost : bound 4";
    assert_eq!(explained(C, "claim 1\nassign 1\n", step), wanted);
    // The loss alone is left where nothing is true, and it may be 0.
    for (loss, claim) in [(4, 0), (0, 4)] {
        let sheet = format!("sheet\ncost 1 7\nloss {loss}\n");
        let wanted = format!("nothing is true; loss {loss}; together {loss}");
        let told = explained(&sheet, &format!("claim {claim}\nassign\n"), step);
        assert!(told.starts_with("refused 11 at 0\n"), "{told}");
        assert!(told.ends_with(&wanted), "{told}");
    }
}

#[test]
fn a_gap_is_told_of_costs_with_the_loss() {
    let wanted = "\
within 3 cost 7 open 1 steps 1
Within 3, neither accepted nor refused: the record's assignment satisfies every clause and costs 7, and the least cost lies \
between 4 and 7. The record does not show that 7 is the least.
assignment (record, byte 12): true are: variable 1 costs 3; loss 4; together 7
the last step's bound is 4: 3 below the claim, 7
step 1 (record, byte 21): cost : bound 4
nothing is made true; loss 4; together 4";
    let told = explained(
        &sheet_a("loss 4\n"),
        "claim 7\nassign 1\n",
        "cost : bound 4",
    );
    assert_eq!(told, wanted);
}

#[test]
fn the_bound_of_a_cost_step_has_the_loss() {
    let right = "cost : -3 5 -6 bound 13";
    let sum = "costs made true: variable 3 costs 3, variable 6 costs 6; loss 4; together 13";
    let wanted =
        format!("{CLOSE}step 1 (record, byte 21): {right}\nclaim (record, byte 0): 5\n{sum}");
    assert_eq!(explained(C, HEAD, right), wanted);
    let wrong = right.replace("13", "9");
    let wanted = format!(
        "refused 13 at 1\nCost bound: the bound of step 1 is not the loss plus the sum of the costs of its negative literals' variables.\n\
        step 1 (record, byte 21): {wrong}\n{sum}"
    );
    assert_eq!(explained(C, HEAD, &wrong), wanted);
}

#[test]
fn the_bound_of_an_independent_set_has_the_loss() {
    let right = "independent 1 2 : 5 -6 bound 13";
    let sum = "\
costs made true: variable 6 costs 6; loss 4
clause 1 (sheet, byte 56): 1 3 5
  costs there: variable 1 costs 1, variable 3 costs 3, variable 5 costs 5
clause 2 (sheet, byte 62): 2 4 5 -6
  costs there: variable 2 costs 2, variable 4 costs 4, variable 5 costs 5, variable 6 costs 6
clauses add 3; together 13";
    let wanted =
        format!("{CLOSE}step 1 (record, byte 21): {right}\nclaim (record, byte 0): 5\n{sum}");
    assert_eq!(explained(C, HEAD, right), wanted);
    let wrong = right.replace("13", "9");
    let wanted = format!(
        "refused 15 at 1\nIndependent bound: the bound of step 1 is not the loss plus the settled costs plus the least cost of each cited clause.\n\
        step 1 (record, byte 21): {wrong}\n{sum}"
    );
    assert_eq!(explained(C, HEAD, &wrong), wanted);
    // Nothing is settled true.
    let told = explained(C, HEAD, "independent 1 : bound 5");
    let wanted = "\nnothing is made true; loss 4\nclause 1 (sheet, byte 56): 1 3 5\n  \
        costs there: variable 1 costs 1, variable 3 costs 3, variable 5 costs 5\nclauses add 1; together 5";
    assert!(told.ends_with(wanted), "{told}");
}

/// There is no sum of what is no independent set, and none beside the costs of a sheet without a loss.
#[test]
fn no_other_step_that_cites_clauses_has_that_sum() {
    let plain = C.replace("loss 4\n", "");
    for (sheet, step, number) in [
        (C, "independent : bound 4", 8),
        (C, "independent 1 : 4 2 bound 5", 8),
        (C, "independent 1 : 7 bound 5", 8),
        (C, "independent 2 1 : 5 -6 bound 13", 9),
        (C, "independent 1 4 : bound 5", 9),
        (C, "independent 1 : -1 bound 5", 14),
        (&plain, "independent 1 2 : 5 -6 bound 8", 15),
    ] {
        let told = explained(sheet, "claim none\nassign\n", step);
        assert!(
            told.starts_with(&format!("refused {number} at 1\n")),
            "{told}"
        );
        assert!(!told.contains("together"), "{told}");
    }
}

/// Where the step is no independent set, the loss is one of the costs that are left to show.
#[test]
fn other_faults_of_an_independent_set_show_the_loss_too() {
    let wanted = "\
refused 21 at 1
All settled: step 1 cites a clause that has no unsettled variable, so that there is no least cost to add.
step 1 (record, byte 21): independent 1 : 1 3 5 -6 bound 10
clause 1 (sheet, byte 56): 1 3 5
  nothing unsettled: making the step's literals false breaks it
  costs there: variable 1 costs 1, variable 3 costs 3, variable 5 costs 5
mend: do not cite clause 1; the step cites nothing then and has to be a cost step
mend: copy clause 1 instead, with its literals alone and the bound none
after a mend, work the bound out anew, and the steps that rest on this one
costs made true: variable 6 costs 6; loss 4";
    let step = "independent 1 : 1 3 5 -6 bound 10";
    assert_eq!(explained(C, HEAD, step), wanted);
}

/// Example 3 of document 001: the bound is 11 without the loss.
const TABLE: &str = "\
variable  1 x cost  - positive  + negative  remainder    settled  adds
       1         1           3           2          0  unsettled     0
       2         2           4           2          0  unsettled     0
       3         3           3           0          0  unsettled     0
       4         4           4           0          0  unsettled     0
       5         5           7           0         -2      false     0
       6         6           0           4         10       true    10
clause 1 (sheet, byte 56): 1 3 5
  adds 3 x (1 - 0) = 3
clause 2 (sheet, byte 62): 2 4 5 -6
  adds 4 x (1 - 1) = 0
clause 3 (sheet, byte 70): -1 -2
  adds 2 x (1 - 2) = -2
variables add 10, clauses add 1: total 11
bound 15: 11 / 1, rounded up, plus the loss 4";
const AFTER: &str = "after a mend, work out anew the steps that rest on this one";
const LINEAR: &str = "\
refused 24 at 1
Linear bound: the bound of step 1 is not the loss plus the least number that gives its total or more when it is multiplied by its divisor.
";

#[test]
fn the_bound_of_a_weighted_step_has_the_loss() {
    let step = "weighted 1*3 2*4 3*2 over 1 : 5 -6 bound 15";
    let wanted =
        format!("{CLOSE}step 1 (record, byte 21): {step}\nclaim (record, byte 0): 5\n{TABLE}");
    assert_eq!(explained(C, HEAD, step), wanted);
    for bound in ["11", "0", "14", "none"] {
        let step = step.replace("15", bound);
        let wanted = format!(
            "{LINEAR}step 1 (record, byte 21): {step}\n{TABLE}\nmend: write bound 15 instead of {bound}\n{AFTER}"
        );
        assert_eq!(explained(C, HEAD, &step), wanted);
    }
}

/// The total with the loss in it would come to 7 / 2, and that rounded up to 4.
#[test]
fn the_loss_comes_after_the_rounding() {
    let Example { sheet, record, .. } = example("L2");
    let lines = explain(&sheet, &record, &judged(&sheet, &record));
    assert!(lines.join("\n").starts_with(LINEAR));
    let wanted = [
        "variables add 0, clauses add 3: total 3",
        "bound 6: 3 / 2, rounded up, plus the loss 4",
        "mend: write bound 6 instead of 4",
        AFTER,
    ];
    assert_eq!(lines[lines.len() - 4..], wanted);
    // A total of 0 or below gives 0, and the loss is added to that.
    for (cited, clauses) in [("3*2 over 3", -2), ("2*1 over 1", 0)] {
        let told = explained(C, HEAD, &format!("weighted {cited} : bound 0"));
        let end = format!(
            "variables add 0, clauses add {clauses}: total {clauses}\n\
            bound 4: 0, since the total is not positive, plus the loss 4\nmend: write bound 4 instead of 0\n{AFTER}"
        );
        assert!(told.starts_with(LINEAR) && told.ends_with(&end), "{told}");
    }
}

#[test]
fn bounds_after_a_mend_have_the_loss() {
    let told = explained(C, HEAD, "weighted 1*0 3*0 over 2 : 5 -6 bound 10");
    let end = "\nmend: make it a cost step, which cites nothing; bound 10 then\n\
        mend: give the 2 clauses of weight 0 the weight 1; bound 10 then\n";
    assert!(told.starts_with("refused 23 at 1\n"), "{told}");
    assert!(told.ends_with(&format!("{end}{AFTER}")), "{told}");
}

/// What is said of a sheet that is refused, by itself.
fn refused(sheet: &[u8]) -> String {
    explain(sheet, &[], &judged(sheet, &[])).join("\n")
}

#[test]
fn a_loss_cut_short_is_told_with_the_end_that_is_due() {
    let head = "refused 2 at 0\nSheet head: the sheet does not begin with 1 to 1024 variables and 0 to 4096 clauses, \
        or it ends before their costs, loss and pairs do.\nsheet (byte 0): marked, ";
    let sheet = packed("sheet\ncost 1 7\nloss 4\n");
    for size in [8, 11] {
        let told = refused(&sheet[..size]);
        let end = "1 variables, 0 clauses; costs, loss and pairs end at byte 12, the file has";
        assert_eq!(told, format!("{head}{end} {size} bytes"));
    }
    let longer = [&sheet[..], &[0]].concat();
    let wanted = "refused 3 at 0\nSheet pairs: the sheet has no clauses, but goes on after the loss.\n\
        sheet (byte 0): marked, 1 variables, 0 clauses; costs, loss and pairs end at byte 12, the file has 13 bytes";
    assert_eq!(refused(&longer), wanted);
    // A mark does not make room for more variables, nor for none.
    for count in [0, 1025] {
        let costs: String = (1..=count).map(|v| format!("cost {v} 1\n")).collect();
        let told = refused(&packed(&format!("sheet\n{costs}loss 4\n")));
        assert!(
            told.starts_with(&format!("{head}{count} variables, 0 clauses; ")),
            "{told}"
        );
    }
}

/// The commands that read a sheet alone say the same of it, and leave what they would write.
#[test]
fn a_refused_marked_sheet_is_told_by_every_command() {
    let folder = Folder::new("cut-loss");
    folder.write("sheet", &example("L1").sheet[..15]);
    let told = "plancheck: sheet: byte 0: refused 2 at 0\nSheet head: the sheet does not begin with 1 to 1024 variables and \
        0 to 4096 clauses, or it ends before their costs, loss and pairs do.\n";
    for command in ["text", "plan", "write"] {
        let refused = folder.run(&[command, "sheet", "-o", "out"]);
        let message = complained(&refused);
        assert_eq!(code(&refused), 1, "{message}");
        assert!(message.starts_with(told), "{message}");
        assert!(!folder.0.join("out").exists());
    }
}

/// An assignment, and a cost step that makes some of it true and false. Its bound is above every sum.
fn drawn_step(problem: &Problem, random: &mut Random) -> (Vec<bool>, Step) {
    let values = (0..problem.variables()).map(|_| random.percent(50));
    let values: Vec<bool> = values.collect();
    let settled = values.iter().enumerate().filter(|_| random.percent(60));
    let literals = settled.map(|(place, value)| Literal::new(place + 1, !value));
    let step = Step {
        literals: literals.collect(),
        bound: NONE - 1,
        reason: Reason::Cost,
    };
    (values, step)
}

/// The refusal's number, and the number behind `together` in the last line.
fn told(problem: &Problem, claim: u64, values: &[bool], step: &Step) -> (u64, Option<u64>) {
    let bodies: Bodies = [format::step_body(step)].iter().collect();
    let record = format::record_from(claim, &format::assignment_bytes(values), &bodies);
    let sheet = format::sheet(problem);
    let answer = judged(&sheet, &record);
    let lines = explain(&sheet, &record, &answer);
    let sum = lines.last().unwrap().rsplit_once("; together ");
    (answer.number, sum.map(|(_, sum)| sum.parse().unwrap()))
}

/// Sums that are told are those that the reference checker asks for.
#[test]
fn told_sums_are_the_ones_due() {
    let mut random = Random::new(41);
    let (mut claims, mut bounds) = (0, 0);
    for _ in 0..600 {
        let problem = sheets::small(&mut random);
        let (values, mut step) = drawn_step(&problem, &mut random);
        let (number, sum) = told(&problem, NONE - 1, &values, &step);
        // Where no assignment is right, the clauses are told before the claim.
        let (11, Some(claim)) = (number, sum) else {
            continue;
        };
        claims += usize::from(problem.loss.is_some());
        let (number, sum) = told(&problem, claim, &values, &step);
        assert_eq!(number, 13, "{problem:?}");
        assert_eq!(sum.is_some(), problem.loss.is_some(), "{problem:?}");
        if let Some(bound) = sum {
            step.bound = bound;
            let (number, _) = told(&problem, claim, &values, &step);
            assert!([0, 19].contains(&number), "{problem:?}");
            bounds += 1;
        }
    }
    assert!(claims > 100 && bounds == claims, "{claims}, {bounds}");
}

/// Some literals, mostly positive, and some clauses. The bound is above every sum.
fn drawn_set(problem: &Problem, random: &mut Random) -> Step {
    let literals = (1..=problem.variables()).filter_map(|variable| {
        let literal = Literal::new(variable, random.percent(70));
        random.percent(25).then_some(literal)
    });
    let literals = literals.collect();
    let cited = (1..=problem.clauses.len() as u32).filter(|_| random.percent(20));
    let clauses = cited.collect();
    Step {
        literals,
        bound: NONE - 1,
        reason: Reason::Independent { clauses },
    }
}

/// The same of independent sets.
#[test]
fn told_sums_of_independent_sets_are_the_ones_due() {
    let mut random = Random::new(43);
    let (mut marked, mut larger) = (0, 0);
    for _ in 0..4_000 {
        let problem = sheets::small(&mut random);
        let nothing = vec![false; problem.variables()];
        let mut step = drawn_set(&problem, &mut random);
        let (number, sum) = told(&problem, NONE, &nothing, &step);
        let due = number == 15 && problem.loss.is_some();
        assert_eq!(sum.is_some(), due, "{problem:?} {step:?}");
        if let Some(bound) = sum {
            step.bound = bound;
            assert_eq!(told(&problem, NONE, &nothing, &step), (19, Some(bound)));
            marked += 1;
            let several =
                matches!(&step.reason, Reason::Independent { clauses } if clauses.len() > 1);
            larger += usize::from(several);
        }
    }
    assert!(marked > 100 && larger > 20, "{marked}, {larger}");
}
