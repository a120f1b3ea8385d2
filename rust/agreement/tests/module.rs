//! The theorems: as many of each outcome, and each with the answer that the reference checker gave.

use agreement::{choose, least_wider, module, tally, Case};
use reference::{judge, show};
use samples::draft::Head;
use samples::examples::{example, Example};
use samples::outcome::Outcome;

fn case(name: &str) -> Case {
    let Example { sheet, record, .. } = example(name);
    let answer = judge(&sheet, &record);
    let (aimed, wider) = ("an example", name == "R1");
    let marked = name.starts_with('L');
    Case {
        sheet,
        record,
        answer,
        aimed,
        wider,
        marked,
    }
}

/// The answer in a module of one case.
fn answer_of(name: &str) -> String {
    let module = module(&[case(name)]);
    let (_, rest) = module.split_once("answer = ").expect("an answer");
    let (answer, _) = rest.split_once(" }").expect("its end");
    answer.to_string()
}

#[test]
fn answers_are_written_by_their_names() {
    assert_eq!(answer_of("A1"), "accepted 3 1 5");
    assert_eq!(answer_of("B2"), format!("accepted {} 0 1", u64::MAX));
    assert_eq!(answer_of("A4"), "within 5 8 2 5");
    assert_eq!(answer_of("S1"), "within 3 11 3 7");
    assert_eq!(answer_of("C1"), "refused 19 1");
    assert_eq!(answer_of("R1"), "accepted 3 1 9");
    assert_eq!(answer_of("R2"), "refused 17 4");
    assert_eq!(answer_of("L1"), "accepted 7 1 5");
    assert_eq!(answer_of("L2"), "refused 24 1");
}

/// The head takes in what the theorems are written with, each name from the file that has it.
#[test]
fn the_head_has_every_name() {
    let head = module(&[]);
    let specs = concat!(env!("CARGO_MANIFEST_DIR"), "/../../crates/judgement/specs");
    for (file, names) in [
        ("Computed", &["accepted", "within", "right", "shows"][..]),
        ("Judgement", &["refused"]),
    ] {
        let (_, taken) = head.split_once(&format!("{file}.{{")).expect("the file");
        let (taken, _) = taken.split_once('}').expect("the names");
        let definitions = std::fs::read_to_string(format!("{specs}/{file}.antt")).unwrap();
        assert_eq!(taken.split(", ").collect::<Vec<_>>(), names);
        for name in names {
            assert!(definitions.contains(&format!(" pub {name} : ")), "{name}");
        }
    }
}

/// Of the first case step 1 is shown: a copy, whose literals are those of the sheet's first clause.
#[test]
fn steps_are_shown_unless_the_record_is_refused() {
    for (name, wanted) in [("A1", true), ("B2", true), ("A4", true), ("C1", false)] {
        let module = module(&[case(name)]);
        assert_eq!(module.contains("shown_1 : T (shows ("), wanted, "{name}");
    }
    let Case { sheet, record, .. } = case("A4");
    assert_eq!(show(&sheet, &record, 1), &sheet[28..32]);
    assert!(module(&[case("A4")]).contains(" 1 (bytes_of 4 0x000040002))"));
}

#[test]
fn every_outcome_has_its_share() {
    let share = 3;
    let outcomes = Outcome::of_short_files().count();
    let cases = choose(7, share * outcomes);
    let tally = tally(&cases);
    println!("{tally}");
    for outcome in Outcome::of_short_files() {
        assert_eq!(tally.of(outcome), share, "{outcome}");
    }
    assert_eq!(cases.len(), share * outcomes);
}

/// Wider resolutions are held to the definitions where an answer hangs on them, and so are others.
#[test]
fn half_of_what_hangs_on_resolutions_has_wider_ones() {
    let share = 4;
    let cases = choose(8, share * Outcome::of_short_files().count());
    for outcome in Outcome::of_short_files() {
        let of = cases
            .iter()
            .filter(|case| Outcome::of(&case.answer) == outcome);
        let wider = of.filter(|case| case.wider).count();
        println!("{outcome}: {wider} of {share}");
        assert!(wider >= least_wider(outcome, share), "{outcome}");
    }
    let resolved = [Outcome::Least, Outcome::Within].into_iter();
    let resolved = resolved.chain((16..=19).map(Outcome::Refused));
    for outcome in resolved.chain([Outcome::NoneExists]) {
        assert_eq!(least_wider(outcome, share), 2, "{outcome}");
    }
    assert!(cases.iter().any(|case| !case.wider));
}

/// Marked sheets are held to the definitions beside every outcome, and where an answer hangs on the loss, one that costs
/// something.
#[test]
fn half_of_each_outcome_has_a_marked_sheet() {
    let share = 5;
    let cases = choose(9, share * Outcome::of_short_files().count());
    let losses = |outcome: Outcome| {
        let of = cases
            .iter()
            .filter(move |case| Outcome::of(&case.answer) == outcome && case.marked);
        of.map(|case| Head::read(&case.sheet).unwrap().loss(&case.sheet))
    };
    for outcome in Outcome::of_short_files() {
        let marked = losses(outcome).count();
        println!("{outcome}: {marked} of {share} marked");
        assert!((share.div_ceil(2)..=share).contains(&marked), "{outcome}");
    }
    let hang = [11, 13, 15, 24].map(Outcome::Refused);
    for outcome in hang.into_iter().chain([Outcome::Least, Outcome::Within]) {
        let mut losses = losses(outcome).flatten();
        assert!(losses.any(|loss| loss > 0), "{outcome}");
    }
    assert!(cases.iter().any(|case| !case.marked));
}
