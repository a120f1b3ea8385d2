//! The proved writer of sheets and the reference one give the same answers and leave the same buffers: on every example, and
//! on many generated and damaged sheets, in buffers that are too short, fit and are too long. What they write is also held to
//! the owner's sentences themselves, and judged. A difference prints the sheet.

use compare::{hex, judge, setting, write_sheet};
use planner::{search, MOST_CLAUSES, MOST_VARIABLES};
use reference::brute::{least_cost, within_reach};
use reference::{Verdict, Written};
use samples::examples::{example, examples};
use samples::random::Random;
use samples::writing::contents::of_count;
use samples::writing::listings::{shuffle, LISTINGS};
use samples::writing::{families, Case, Content, Family, Listing};
use std::collections::{BTreeMap, BTreeSet};

/// How many sheets are compared, unless COMPARE_COUNT says otherwise; from which seed, unless COMPARE_SEED does.
const COUNT: usize = 10_000;
const SEED: u64 = 2;

/// The refusal of a buffer that is too short.
const SHORT_BUFFER: u32 = 25;

/// So many bytes lie on either side of each buffer, to be left alone.
const MARGIN: usize = 16;

/// How often each number was answered.
#[derive(Default)]
struct Met(BTreeMap<u32, usize>);

impl Met {
    fn add(&mut self, answer: Written) {
        *self.0.entry(answer.number).or_default() += 1;
    }

    /// Each number that a short sheet can meet was met so often at least.
    fn assert_each(&self, few: usize) {
        println!("by number: {:?}", self.0);
        for number in [0, 2, 3, 4, SHORT_BUFFER] {
            let count = self.0.get(&number).copied().unwrap_or(0);
            assert!(count >= few, "{number} met {count} times, under {few}");
        }
        assert_eq!(self.0.len(), 5);
    }
}

/// What both writers answer and what they write, where it is the same, into a buffer of so many bytes. All that is not written
/// stays: behind it, around the buffer, and with a refusal everywhere.
fn same(sheet: &[u8], size: usize, what: &str) -> (Written, Vec<u8>) {
    let before: Vec<u8> = (0..size + 2 * MARGIN)
        .map(|place| (place * 89 + size) as u8)
        .collect();
    let (mut ours, mut wanted) = (before.clone(), before.clone());
    let buffer = MARGIN..MARGIN + size;
    let answer = write_sheet(sheet, &mut ours[buffer.clone()]);
    let told = || format!("{what}, buffer of {size}\nsheet {}", hex(sheet));
    let wanted_answer = reference::write_sheet(sheet, &mut wanted[buffer]);
    assert_eq!(answer, wanted_answer, "{}", told());
    assert!(ours == wanted, "{}\nleft {}", told(), hex(&ours));
    let end = MARGIN + answer.length as usize;
    let stays = ours[..MARGIN] == before[..MARGIN] && ours[end..] == before[end..];
    assert!(stays, "{}\nleft {}", told(), hex(&ours));
    assert!(answer.number == 0 || answer.length == 0, "{}", told());
    (answer, ours[MARGIN..end].to_vec())
}

/// The same in buffers of many sizes, and that a size decides on nothing but 25. Nothing comes of a refused sheet.
fn written(sheet: &[u8], what: &str, met: &mut Met) -> Option<Vec<u8>> {
    let (answer, bytes) = same(sheet, sheet.len(), what);
    met.add(answer);
    let length = bytes.len();
    let sizes = [0, 1, length / 2, length, length + 1, sheet.len() + 40];
    for size in sizes.into_iter().chain(length.checked_sub(1)) {
        let (again, part) = same(sheet, size, what);
        met.add(again);
        if answer.number == 0 && size < length {
            let short = (again.number, again.place, again.length);
            assert_eq!(short, (SHORT_BUFFER, 0, 0), "{what}, buffer of {size}");
        } else {
            assert_eq!((again, &part), (answer, &bytes), "{what}, buffer of {size}");
        }
    }
    (answer.number == 0).then_some(bytes)
}

/// The bytes hold what the sheet says, in the one way, and written again they stay.
fn assert_one_way(sheet: &[u8], bytes: &[u8], what: &str) {
    let [before, after] = [sheet, bytes].map(|file| Listing::read(file).expect("a sheet in form"));
    let told = || format!("{what}\nsheet {}\nwritten {}", hex(sheet), hex(bytes));
    assert_eq!(before.content(), after.content(), "{}", told());
    // A list of numbers is below those that begin with it, and else the first number that differs decides.
    let rises = after.clauses.windows(2).all(|pair| pair[0] < pair[1]);
    assert!(rises && after.sheet() == bytes, "{}", told());
    assert_ne!(after.loss, Some(0), "{}", told());
    assert!(bytes.len() <= sheet.len(), "{}", told());
    let (_, again) = same(bytes, bytes.len(), what);
    assert!(again == bytes, "{}", told());
}

/// What a good sheet is written as, with all that is asked of it.
fn well_written(sheet: &[u8], what: &str, met: &mut Met) -> Vec<u8> {
    let bytes = written(sheet, what, met).unwrap_or_else(|| panic!("{what} refused"));
    assert_one_way(sheet, &bytes, what);
    bytes
}

#[test]
fn on_every_example() {
    let mut moved = 0;
    for example in examples() {
        let what = example.folder.display().to_string();
        let bytes = well_written(&example.sheet, &what, &mut Met::default());
        moved += usize::from(bytes != example.sheet);
    }
    assert!(moved > 0, "all of them are sorted already");
}

#[test]
fn on_generated_sheets() {
    let count = setting("COMPARE_COUNT", COUNT);
    let seed = setting("COMPARE_SEED", SEED);
    let (mut sheets, mut met) = (0, Met::default());
    for family in families(seed) {
        if sheets >= count {
            break;
        }
        sheets += on_a_family(&family, &mut met);
    }
    println!("seed {seed}, {sheets} sheets in buffers of many sizes");
    met.assert_each((count / 50).max(1));
}

/// Sheets that say the same are written as the same bytes, and others as others. Answers how many sheets there were.
fn on_a_family(family: &Family, met: &mut Met) -> usize {
    let Family {
        same,
        others,
        damaged,
        ..
    } = family;
    let mut first = None;
    for Case { sheet, what } in same {
        let bytes = well_written(sheet, what, met);
        let first = first.get_or_insert_with(|| bytes.clone());
        assert!(*first == bytes, "{what}\nsheet {}", hex(sheet));
    }
    let mut all = BTreeMap::from_iter(first.map(|bytes| (bytes, family.content.clone())));
    for Case { sheet, what } in others {
        let bytes = well_written(sheet, what, met);
        let content = Listing::read(sheet).expect("a sheet in form").content();
        // Two others may say the same by chance.
        let before = all.entry(bytes).or_insert_with(|| content.clone());
        assert_eq!(*before, content, "{what}\nsheet {}", hex(sheet));
    }
    for Case { sheet, what } in damaged {
        if let Some(bytes) = written(sheet, what, met) {
            assert_one_way(sheet, &bytes, what);
        }
    }
    same.len() + others.len() + damaged.len()
}

/// The losses that sheets are told apart by, and that of a sheet without a mark.
const LOSSES: [Option<u32>; 9] = [
    None,
    Some(0),
    Some(1),
    Some(2),
    Some(255),
    Some(256),
    Some(0x8000),
    Some(1 << 31),
    Some(u32::MAX),
];

/// Sheets that have all but mark and loss in common are written alike where the losses are the same, a mark of loss 0 and none
/// included, and there alone.
#[test]
fn on_sheets_that_differ_in_mark_and_loss_alone() {
    let (mut met, mut pairs) = (Met::default(), [0, 0]);
    let listed = families(SEED + 1).map(|family| Listing::read(&family.same[2].sheet));
    for listing in listed.take(150) {
        let listing = listing.expect("a sheet in form");
        let written = LOSSES.map(|loss| {
            let sheet = Listing {
                loss,
                ..listing.clone()
            }
            .sheet();
            let bytes = well_written(&sheet, &format!("loss {loss:?}"), &mut met);
            assert_eq!(Listing::read(&bytes).unwrap().loss, loss.filter(|l| *l > 0));
            (loss.unwrap_or(0), bytes)
        });
        for (place, (loss, bytes)) in written.iter().enumerate() {
            for (other, others) in &written[..place] {
                assert_eq!(loss == other, bytes == others, "{loss} and {other}");
                pairs[usize::from(loss == other)] += 1;
            }
        }
    }
    println!("{pairs:?} pairs of different and of the same loss");
    assert_eq!(pairs, [150 * 35, 150]);
}

/// All lists of up to five of these clauses: every order, and repeats in every place. The clauses stand sorted here; by their
/// bytes the last would come before all but the first.
#[test]
fn on_every_short_list() {
    let clauses = [&[][..], &[254], &[254, 257], &[255], &[256]].map(<[u16]>::to_vec);
    let (costs, mut met) = (vec![7; 128], Met::default());
    let mut lists: Vec<Vec<Vec<u16>>> = vec![Vec::new()];
    let mut by_content: BTreeMap<Content, Vec<u8>> = BTreeMap::new();
    for length in 0..=5 {
        for list in &lists {
            let listing = Listing {
                loss: None,
                costs: costs.clone(),
                clauses: list.clone(),
            };
            let bytes = well_written(&listing.sheet(), &format!("{list:?}"), &mut met);
            let first = by_content.entry(listing.content()).or_insert(bytes.clone());
            assert_eq!(*first, bytes, "{list:?}");
        }
        assert_eq!(lists.len(), clauses.len().pow(length));
        lists = longer(&lists, &clauses);
    }
    // Every set of them, and each is written in its own way.
    let ways: BTreeSet<&Vec<u8>> = by_content.values().collect();
    assert_eq!((by_content.len(), ways.len()), (32, 32));
}

/// Each list with each of the clauses behind it.
fn longer(lists: &[Vec<Vec<u16>>], clauses: &[Vec<u16>]) -> Vec<Vec<Vec<u16>>> {
    let with = |list: &Vec<Vec<u16>>, clause: &Vec<u16>| {
        let mut list = list.clone();
        list.push(clause.clone());
        list
    };
    let each = |list| clauses.iter().map(move |clause| with(list, clause));
    lists.iter().flat_map(each).collect()
}

/// A sort may go wrong at a number of clauses: each small one, and those about the powers of two, up to the most.
#[test]
fn on_every_number_of_clauses() {
    let mut random = Random::new(64);
    let powers = (6..=12).map(|power| 1 << power);
    let about = powers.flat_map(|count: usize| [count - 1, count, count + 1]);
    let counts = (0..=40).chain(about.filter(|count| *count <= MOST_CLAUSES));
    for count in counts {
        let content = of_count(count, 100, &mut random);
        let sorted = content.sorted();
        let wanted = content.listed(sorted.clone()).sheet();
        for (what, list) in LISTINGS {
            let sheet = content.listed(list(&sorted, &mut random)).sheet();
            let what = format!("{count} clauses, {what}");
            let (answer, bytes) = same(&sheet, sheet.len(), &what);
            assert_eq!(answer.number, 0, "{what}");
            assert!(bytes == wanted, "{what}");
            assert_eq!(same(&sheet, bytes.len(), &what).1, bytes, "{what}");
        }
    }
}

/// As many variables, clauses and literals as there may be: 8 MB. All clauses are equal, or the last twelve literals alone
/// tell them apart.
#[test]
fn on_the_largest_sheets() {
    let turned = |place: usize| {
        let literal = |variable: usize| {
            let from_end = MOST_VARIABLES - variable;
            2 * variable as u16 + u16::from(from_end < 12 && place >> from_end & 1 == 1)
        };
        (1..=MOST_VARIABLES).map(literal).collect::<Vec<u16>>()
    };
    let costs = vec![u32::MAX; MOST_VARIABLES];
    let every: Vec<Vec<u16>> = (0..MOST_CLAUSES).map(turned).collect();
    let mut shuffled = every.clone();
    shuffle(&mut shuffled, &mut Random::new(12));
    let equal = vec![turned(5); MOST_CLAUSES];
    for (clauses, wanted) in [(shuffled, every), (equal, vec![turned(5)])] {
        let [sheet, wanted] = [clauses, wanted].map(|clauses| {
            let costs = costs.clone();
            let loss = Some(u32::MAX);
            Listing {
                loss,
                costs,
                clauses,
            }
            .sheet()
        });
        let (answer, bytes) = same(&sheet, sheet.len(), "a largest sheet");
        assert_eq!(answer.length, wanted.len() as u64);
        assert!(bytes == wanted);
        let (short, _) = same(&sheet, wanted.len() - 1, "a largest sheet");
        assert_eq!(short.number, SHORT_BUFFER);
    }
}

/// Each refusal with its place, whatever the buffer.
#[test]
fn on_sheets_cut_or_with_a_bit_changed() {
    let mut met = Met::default();
    for name in ["A1", "D", "W1", "L1"] {
        let sheet = example(name).sheet;
        for end in 0..sheet.len() {
            written(&sheet[..end], "a cut sheet", &mut met);
        }
        let mut changed = sheet.clone();
        for place in 0..8 * sheet.len() {
            changed[place / 8] ^= 1 << (place % 8);
            if let Some(bytes) = written(&changed, "one bit changed", &mut met) {
                assert_one_way(&changed, &bytes, "one bit changed");
            }
            changed[place / 8] = sheet[place / 8];
        }
    }
    met.assert_each(100);
}

/// What the checkers say of a sheet stays when it is written in the one way: its least cost, by brute force and by a plan that
/// both accept. A record keeps to its own sheet: on the written one it may be refused, but with no other claim is it accepted.
#[test]
fn on_what_is_judged() {
    let (mut sheets, mut none, mut moved) = (0, 0, 0);
    for family in families(setting("COMPARE_SEED", SEED)).filter(|family| few(&family.content)) {
        if sheets >= 1_000 {
            break;
        }
        for Case { sheet, what } in family.same.iter().chain(&family.others) {
            let (_, bytes) = same(sheet, sheet.len(), what);
            let least = least_cost(sheet).unwrap_or(planner::NONE);
            assert!(within_reach(&bytes), "{what}");
            assert_eq!(least_cost(&bytes).unwrap_or(planner::NONE), least, "{what}");
            let [own, other] = [sheet, &bytes].map(|file| record_of(file));
            assert_eq!(claim_accepted(sheet, &own), Some(least), "{what}");
            assert_eq!(claim_accepted(&bytes, &other), Some(least), "{what}");
            let carried = claim_accepted(&bytes, &own);
            assert!(carried.is_none_or(|claim| claim == least), "{what}");
            moved += usize::from(carried.is_none());
            none += usize::from(least == planner::NONE);
            sheets += 1;
        }
    }
    println!("{sheets} sheets, {none} of them without a plan, {moved} records that went wrong");
    assert!(none > 50 && none < sheets / 2 && moved > 100);
}

/// So few variables and clauses that each sheet is soon planned, and all assignments are soon tried.
fn few(content: &Content) -> bool {
    content.variables() <= 12 && content.clauses.len() <= 60
}

fn record_of(sheet: &[u8]) -> Vec<u8> {
    let listing = Listing::read(sheet).expect("a sheet in form");
    search::plan(&listing.problem()).record()
}

/// The claim of a record that both checkers accept, and nothing where neither does. Their answers are the same.
fn claim_accepted(sheet: &[u8], record: &[u8]) -> Option<u64> {
    let answer = judge(sheet, record);
    let told = || format!("sheet {}\nrecord {}", hex(sheet), hex(record));
    assert_eq!(answer, reference::judge(sheet, record), "{}", told());
    match answer.verdict() {
        Verdict::Least | Verdict::NoneExists => Some(answer.cost),
        Verdict::Within | Verdict::Refused => None,
    }
}
