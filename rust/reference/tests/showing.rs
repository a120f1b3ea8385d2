//! Showing one step's literals, and the printed line.

mod common;

use common::*;
use reference::{judge, line, show};

#[test]
fn kind_1_shows_the_clause_in_the_sheet() {
    let (sheet, record) = (sheet_a(), record_a());
    assert_part(show(&sheet, &record, 1), &sheet, 28..32);
    assert_part(show(&sheet, &record, 2), &sheet, 32..36);
    assert_eq!(show(&sheet, &record, 2), two_bytes(&[pos(1), neg(2)]));
}

#[test]
fn kinds_2_and_4_show_the_literals_in_the_step() {
    let (sheet, record) = (sheet_a(), record_a());
    assert_part(show(&sheet, &record, 3), &record, 105..107);
    assert_part(show(&sheet, &record, 4), &record, 129..131);
    assert_eq!(show(&sheet, &record, 3), two_bytes(&[pos(1)]));
    assert_eq!(show(&sheet, &record, 4), two_bytes(&[neg(1)]));
}

/// Step 5 has no literals: the part is empty, and stands where they would.
#[test]
fn no_literals_are_an_empty_part_inside_the_step() {
    let (sheet, record) = (sheet_a(), record_a());
    assert_part(show(&sheet, &record, 5), &record, 143..143);
}

/// The cited clause is not the first, and the sheet's clauses differ in length.
#[test]
fn kind_3_shows_the_literals_in_the_step() {
    let sheet = sheet(&[1, 2, 4], &[&[pos(2), pos(3)], &[pos(1)]]);
    let steps = [
        independent_step(&[pos(3)], 2, &[1]),
        independent_step(&[], 3, &[1, 2]),
    ];
    let record = record(3, &[0b011], &steps);
    assert_eq!(judge(&sheet, &record), accepted(3, 2, 2));
    assert_part(show(&sheet, &record, 1), &record, 41..43);
    assert_part(show(&sheet, &record, 2), &record, 59..59);
}

/// A divisor is as long as a literal and follows the last of them; the part ends before it.
#[test]
fn kind_5_shows_the_literals_in_the_step() {
    let sheet = sheet(&[1, 2, 4], &[&[pos(2), pos(3)], &[pos(1)]]);
    let steps = [
        weighted_step(&[pos(3)], 2, 1, &[(1, 2)]),
        weighted_step(&[], 3, 1, &[(1, 2), (2, 1)]),
    ];
    let record = record(3, &[0b011], &steps);
    assert_eq!(judge(&sheet, &record), accepted(3, 2, 2));
    assert_part(show(&sheet, &record, 1), &record, 41..43);
    assert_eq!(show(&sheet, &record, 1), two_bytes(&[pos(3)]));
    // The second body starts at 51: its literals would stand before the divisor.
    assert_part(show(&sheet, &record, 2), &record, 63..63);
}

/// Step 3 starts at 101 and has one literal more than its resolvent; it is shown with the rest.
#[test]
fn a_wider_statement_shows_all_its_literals() {
    let (sheet, record) = (sheet_a(), record(3, &[0x01], &steps_a_wider()));
    assert_eq!(judge(&sheet, &record), accepted(3, 1, 6));
    assert_part(show(&sheet, &record, 3), &record, 113..117);
    assert_eq!(show(&sheet, &record, 3), two_bytes(&[pos(1), pos(2)]));
    assert_part(show(&sheet, &record, 4), &record, 139..141);
    assert_part(show(&sheet, &record, 6), &record, 177..177);
}

/// The sheet's clauses stand in another order than the steps that copy them.
#[test]
fn kind_1_shows_the_clause_that_it_cites() {
    let sheet = sheet(&[7], &[&[pos(1)], &[], &[neg(1)]]);
    let steps = [
        clause_step(&[neg(1)], 3),
        clause_step(&[pos(1)], 1),
        clause_step(&[], 2),
    ];
    let record = record(NONE, &[0], &steps);
    assert_eq!(judge(&sheet, &record), accepted(NONE, 0, 3));
    assert_part(show(&sheet, &record, 1), &sheet, 34..36);
    assert_part(show(&sheet, &record, 2), &sheet, 32..34);
    // The empty clause: an empty part, between its neighbours in the sheet.
    assert_part(show(&sheet, &record, 3), &sheet, 34..34);
}

#[test]
fn a_step_number_not_1_to_t_shows_the_empty_part_at_the_records_start() {
    let (sheet, record) = (sheet_a(), record_a());
    for step in [0, 6, 1 << 32, (1 << 32) + 1, u64::MAX] {
        assert_part(show(&sheet, &record, step), &record, 0..0);
    }
}

/// Record A4 has record A's layout, so the same parts are shown.
#[test]
fn a_record_within_shows_its_steps() {
    let (sheet, record) = (sheet_a(), record_a4());
    assert_eq!(judge(&sheet, &record), within(5, 8, 2, 5));
    assert_part(show(&sheet, &record, 1), &sheet, 28..32);
    assert_part(show(&sheet, &record, 2), &sheet, 32..36);
    assert_part(show(&sheet, &record, 3), &record, 105..107);
    assert_part(show(&sheet, &record, 4), &record, 129..131);
    assert_part(show(&sheet, &record, 5), &record, 143..143);
    for step in [0, 6, (1 << 32) + 1, u64::MAX] {
        assert_part(show(&sheet, &record, step), &record, 0..0);
    }
}

/// The same two steps as for kinds 3 and 5 above, under a claim that is dearer by variable 3.
#[test]
fn a_record_within_shows_kinds_3_and_5() {
    let sheet = sheet(&[1, 2, 4], &[&[pos(2), pos(3)], &[pos(1)]]);
    let steps = [
        independent_step(&[pos(3)], 2, &[1]),
        weighted_step(&[], 3, 1, &[(1, 2), (2, 1)]),
    ];
    let record = record(7, &[0b111], &steps);
    assert_eq!(judge(&sheet, &record), within(4, 7, 3, 2));
    assert_part(show(&sheet, &record, 1), &record, 41..43);
    // The first body ends with its one citation at 47, and 12 bytes on the literals would stand.
    assert_part(show(&sheet, &record, 2), &record, 59..59);
}

/// What is dropped from the end decides over all steps that are left: a last one without literals leaves them to be
/// shown, one with literals does not.
#[test]
fn a_record_cut_short_shows_its_steps_only_where_it_is_within() {
    let sheet = sheet_a();
    let steps = [&[cost_step(&[], 0)], &steps_a()[..]].concat();
    let bare = record(3, &[0x01], &steps[..1]);
    assert_eq!(judge(&sheet, &bare), within(3, 3, 1, 1));
    assert_part(show(&sheet, &bare, 1), &bare, 33..33);
    let with_literals = record(3, &[0x01], &steps[..2]);
    assert_eq!(judge(&sheet, &with_literals), refused(19, 2));
    for step in 0..=3 {
        assert_part(show(&sheet, &with_literals, step), &with_literals, 0..0);
    }
}

#[test]
fn a_refused_record_shows_the_empty_part_at_its_start() {
    let sheet = sheet_a();
    // The first steps are in order; the last one is not.
    let record = edited(&record_a(), 135, &4_u64.to_le_bytes());
    for step in 0..=6 {
        assert_part(show(&sheet, &record, step), &record, 0..0);
    }
}

#[test]
fn a_refused_sheet_shows_the_empty_part_at_the_records_start() {
    let record = record_a();
    for step in 0..=6 {
        assert_part(show(&[], &record, step), &record, 0..0);
    }
    assert_part(show(&sheet_a(), &record[..0], 1), &record, 0..0);
}

#[test]
fn the_lines_of_the_acceptances() {
    assert_eq!(line(&accepted(11, 3, 17)), "least 11 open 3 steps 17");
    assert_eq!(line(&accepted(0, 0, 1)), "least 0 open 0 steps 1");
    let greatest_cost = "least 18446744073709551614 open 1 steps 1";
    assert_eq!(line(&accepted(NONE - 1, 1, 1)), greatest_cost);
    assert_eq!(line(&accepted(NONE, 0, 4)), "none open 0 steps 4");
}

#[test]
fn the_lines_of_the_refusals() {
    assert_eq!(line(&refused(2, 0)), "refused 2 at 0");
    assert_eq!(
        line(&refused(19, 4_294_967_295)),
        "refused 19 at 4294967295"
    );
}

/// All four numbers differ, so that none can stand in another's place.
#[test]
fn the_line_of_a_gap() {
    let answer = within(5, 8, 2, 17);
    assert_eq!(line(&answer), "within 5 cost 8 open 2 steps 17");
    assert_eq!(line(&within(1, 1, 1, 1)), "within 1 cost 1 open 1 steps 1");
    let greatest = NONE - 1;
    assert_eq!(
        line(&within(greatest, greatest, 1_024, 4_294_967_295)),
        "within 18446744073709551614 cost 18446744073709551614 open 1024 steps 4294967295"
    );
}
