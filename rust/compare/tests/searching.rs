//! The proved search and the reference one give the same answers: on every example and on many generated sheets with every
//! budget, on larger and on damaged sheets with some. What they answer is also held to all assignments, where these can be
//! tried, and else to a plan of the planner's that is judged. A difference prints the sheet.

use compare::{hex, judge, search, setting};
use planner::{format, search::plan};
use reference::brute::Tried;
use reference::{Found, Verdict, NONE};
use samples::draft::Body;
use samples::examples::{example, examples};
use samples::random::Random;
use samples::searching::{damaged, large, small, too_wide, MOST_SEARCHED};
use samples::sheets::{loss_sort, middle, LOSS_SORTS};
use samples::writing::{Case, Listing};
use std::collections::BTreeMap;

/// How many small sheets are searched with every budget, unless COMPARE_COUNT says otherwise; from which seed, unless
/// COMPARE_SEED does.
const COUNT: usize = 20_000;
const SEED: u64 = 2;

/// With this budget the sheets here that are searched to the end are, and a search that does not come to one is not waited for.
const ENOUGH: u64 = 10_000;

/// The refusal of a sheet with too many variables.
const TOO_WIDE: u32 = 26;

/// What both searches answer, where it is the same.
fn same(sheet: &[u8], budget: u64, what: &str) -> Found {
    let ours = search(sheet, budget);
    let wanted = reference::search(sheet, budget);
    assert_eq!(
        ours,
        wanted,
        "{what}, budget {budget}\nsheet {}",
        hex(sheet)
    );
    ours
}

/// The same with every budget up to the choices of the search that ended, with one more, and with the greatest: the answers to
/// the first of these, up to the one that ended.
fn with_every_budget(sheet: &[u8], what: &str) -> Vec<Found> {
    let end = same(sheet, ENOUGH, what);
    assert!(end.ended, "{what}\nsheet {}", hex(sheet));
    let answers: Vec<Found> = (0..=end.choices).map(|b| same(sheet, b, what)).collect();
    assert_eq!(answers.last(), Some(&end), "{what}");
    for budget in [end.choices + 1, u64::MAX] {
        assert_eq!(same(sheet, budget, what), end, "{what}");
    }
    answers
}

/// The answers to the budgets 0, 1 and so on are what all assignments say.
fn assert_confirmed(sheet: &[u8], answers: &[Found], what: &str) {
    let tried = Tried::on(sheet).expect("a small sheet");
    for (budget, found) in answers.iter().enumerate() {
        let is_confirmed = tried.confirms(budget as u64, found);
        assert!(is_confirmed, "{what}, {found:?}\nsheet {}", hex(sheet));
    }
}

#[test]
fn on_every_example() {
    for example in examples() {
        let what = example.folder.display().to_string();
        let answers = with_every_budget(&example.sheet, &what);
        assert_confirmed(&example.sheet, &answers, &what);
    }
}

/// What the small sheets of a shape came to.
#[derive(Debug, Default)]
struct Course {
    sheets: usize,
    budgets: usize,
    /// Without a choice; without a plan; with a plan that was given up for a cheaper one.
    unchosen: usize,
    without: usize,
    improved: usize,
}

impl Course {
    fn add(&mut self, answers: &[Found]) {
        let mut plans: Vec<u64> = answers.iter().filter_map(|found| found.plan).collect();
        plans.dedup();
        self.sheets += 1;
        self.budgets += answers.len();
        self.unchosen += usize::from(answers.len() == 1);
        self.without += usize::from(plans.is_empty());
        self.improved += usize::from(plans.len() > 1);
    }
}

#[test]
fn on_small_sheets_with_every_budget() {
    let count = setting("COMPARE_COUNT", COUNT);
    let seed = setting("COMPARE_SEED", SEED);
    let mut courses: BTreeMap<&str, Course> = BTreeMap::new();
    let mut losses: BTreeMap<&str, usize> = BTreeMap::new();
    for Case { sheet, what } in small(seed).take(count) {
        let answers = with_every_budget(&sheet, what);
        assert_confirmed(&sheet, &answers, what);
        courses.entry(what).or_default().add(&answers);
        let loss = Listing::read(&sheet).expect("a sheet in form").loss;
        *losses.entry(loss_sort(loss)).or_default() += 1;
    }
    println!("seed {seed}, losses {losses:?}");
    for (what, course) in &courses {
        println!("{what}: {course:?}");
    }
    // A short run may miss something.
    if count >= COUNT / 10 {
        assert_met(&courses, count);
        assert!(LOSS_SORTS.iter().all(|sort| losses[sort] > count / 20));
    }
}

/// Each shape led to what it is for.
fn assert_met(courses: &BTreeMap<&str, Course>, count: usize) {
    let few = count / 100;
    for (what, course) in courses {
        assert!(course.sheets > few, "few of {what}");
    }
    let all = |part: fn(&Course) -> usize| courses.values().map(part).sum::<usize>();
    assert!(all(|course| course.budgets) > 10 * count);
    assert!(all(|course| course.unchosen) > few);
    assert!(all(|course| course.without) > few);
    assert!(all(|course| course.improved) > few);
}

/// 64 variables, with every budget, or as many clauses as there may be, with some. That plans are models is judged, and that
/// the end is the least, by a record of the planner's.
#[test]
fn on_large_sheets() {
    let (mut without, mut most_choices, mut searches) = (0, 0, 0);
    for Case { sheet, what } in large(SEED).take(300) {
        let (known, end) = (Known::of(&sheet), same(&sheet, ENOUGH, what));
        assert!(end.ended, "{what}");
        for budget in some_budgets(end.choices, known.listing.clauses.len()) {
            let found = same(&sheet, budget, what);
            assert_eq!(found.ended, budget >= end.choices, "{what}");
            known.assert_true(&found, what);
            searches += 1;
        }
        without += usize::from(end.plan.is_none());
        most_choices = most_choices.max(end.choices);
    }
    println!(
        "{searches} searches, {without} sheets without a plan, {most_choices} choices at most"
    );
    assert!((30..200).contains(&without) && most_choices > 30 && searches > 2_000);
}

/// Every budget up to one more than the choices, or of a sheet with many clauses those that decide something.
fn some_budgets(choices: u64, clauses: usize) -> Vec<u64> {
    if clauses < 1_000 {
        return (0..=choices + 1).chain([u64::MAX]).collect();
    }
    let mut budgets = vec![0, 1, 2, choices / 2, choices, choices + 1, u64::MAX];
    budgets.extend(choices.checked_sub(1));
    budgets
}

/// A sheet, and the least cost on it or that there is none, which the planner found and the proved checker accepted.
struct Known<'a> {
    sheet: &'a [u8],
    listing: Listing,
    least: u64,
}

impl Known<'_> {
    fn of(sheet: &[u8]) -> Known<'_> {
        let listing = Listing::read(sheet).expect("a sheet in form");
        let plan = plan(&listing.problem());
        let verdict = judge(sheet, &plan.record()).verdict();
        assert!(matches!(verdict, Verdict::Least | Verdict::NoneExists));
        let least = plan.claim;
        Known {
            sheet,
            listing,
            least,
        }
    }

    /// Nothing is below the floor, the proved checker does not refuse the plan with its cost, and at the end that is the least.
    fn assert_true(&self, found: &Found, what: &str) {
        let told = || format!("{what}, {found:?}\nsheet {}", hex(self.sheet));
        assert!(found.floor <= self.least, "{}", told());
        let cost = found.plan.map(|plan| cost_of(&self.listing, plan));
        if let (Some(plan), Some(cost)) = (found.plan, cost) {
            let answer = judge(self.sheet, &record_of(&self.listing, plan, cost));
            assert_eq!((answer.number, answer.cost), (0, cost), "{}", told());
        }
        if found.ended {
            let end = (found.floor, cost.unwrap_or(NONE));
            assert_eq!(end, (self.least, self.least), "{}", told());
        }
    }
}

/// The loss, and what the true variables of a plan cost.
fn cost_of(listing: &Listing, plan: u64) -> u64 {
    let paid = listing.costs.iter().enumerate();
    let paid = paid.filter(|(place, _)| plan >> place & 1 == 1);
    let loss = u64::from(listing.loss.unwrap_or(0));
    loss + paid.map(|(_, cost)| u64::from(*cost)).sum::<u64>()
}

/// A record of the plan, with a step that says that everything costs the loss at least.
fn record_of(listing: &Listing, plan: u64, claim: u64) -> Vec<u8> {
    let step = Body {
        kind: 2,
        spare: 0,
        literals: Vec::new(),
        bound: u64::from(listing.loss.unwrap_or(0)),
        tail: Vec::new(),
    };
    let assignment = &plan.to_le_bytes()[..listing.costs.len().div_ceil(8)];
    format::record_from(claim, assignment, &[step.bytes()].iter().collect())
}

/// 17 to 40 variables, on which a search may go on for long: what it has come to with a budget is true all the same.
#[test]
fn on_searches_that_do_not_end() {
    let mut random = Random::new(17);
    let (mut ended, mut found_early) = (0, 0);
    for _ in 0..60 {
        let sheet = format::sheet(&middle(&mut random));
        let known = Known::of(&sheet);
        for budget in [0, 1, 7, 20, 55, 400] {
            let found = same(&sheet, budget, "a sheet of middle size");
            known.assert_true(&found, "a sheet of middle size");
            let paid = found.choices == budget || (found.ended && found.choices < budget);
            assert!(paid, "{found:?}");
            ended += usize::from(found.ended);
            found_early += usize::from(!found.ended && found.plan.is_some());
        }
    }
    println!("{ended} ended, {found_early} with a plan before the end");
    assert!(ended > 10 && found_early > 60);
}

/// One variable too many, or more, and nothing else wrong: whatever the budget.
#[test]
fn on_sheets_that_are_too_wide() {
    let mut met: BTreeMap<usize, usize> = BTreeMap::new();
    for Case { sheet, what } in too_wide(SEED).take(200) {
        let listing = Listing::read(&sheet).expect("a sheet in form");
        for budget in [0, 1, u64::MAX] {
            let found = same(&sheet, budget, what);
            assert_eq!((found.number, found.place), (TOO_WIDE, 0));
        }
        *met.entry(listing.costs.len()).or_default() += 1;
    }
    assert!(met[&(MOST_SEARCHED + 1)] > 50 && met.len() > 30);
}

/// Faults that the refusals 2 to 4 tell, in small sheets and in those that are too wide as well.
#[test]
fn on_damaged_sheets() {
    let mut met: BTreeMap<(u32, bool), usize> = BTreeMap::new();
    for Case { sheet, what } in damaged(SEED).take(6_000) {
        let found = same(&sheet, 20, what);
        let is_wide = Listing::read(&sheet).is_some_and(|l| l.costs.len() > MOST_SEARCHED);
        *met.entry((found.number, is_wide)).or_default() += 1;
    }
    println!("by number, and whether it is too wide: {met:?}");
    let wide = [2, 3, 4, TOO_WIDE].map(|number| (number, true));
    let others = [0, 2, 3, 4].map(|number| (number, false));
    for key in wide.into_iter().chain(others) {
        assert!(met.get(&key).is_some_and(|count| *count > 50), "{key:?}");
    }
}

/// Each refusal with its place, and each change that leaves a sheet.
#[test]
fn on_sheets_cut_or_with_a_bit_changed() {
    let mut met: BTreeMap<u32, usize> = BTreeMap::new();
    for name in ["A1", "D", "W1", "L1"] {
        let sheet = example(name).sheet;
        for end in 0..sheet.len() {
            let number = same(&sheet[..end], 9, "a cut sheet").number;
            *met.entry(number).or_default() += 1;
        }
        let mut changed = sheet.clone();
        for place in 0..8 * sheet.len() {
            changed[place / 8] ^= 1 << (place % 8);
            let number = same(&changed, 9, "one bit changed").number;
            *met.entry(number).or_default() += 1;
            changed[place / 8] = sheet[place / 8];
        }
    }
    println!("by number: {met:?}");
    assert!([0, 2, 3, 4].iter().all(|number| met[number] > 100));
    assert_eq!(met.len(), 4);
}
