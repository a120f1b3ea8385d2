/* The proved plan checker. Link with the static library that `tools/staticlib` writes.
 *
 * A file is its bytes and their number; any bytes are answered for, also none: with the number 0 nothing is read through the
 * pointer, which may be NULL. The calls only read the files, keep nothing, and may be made from several threads at once. The
 * two files may overlap, or be one. The array that a call writes, answer or part, may not overlap a file or the list of turns, nor
 * what a call that is made at the same time reads or writes; it may not be NULL. The same goes for the buffers that
 * plan_write_sheet, plan_trim and plan_turn write: out, marks, assignment, index and counts. Those of one call may not overlap each
 * other or the answer either; but where a buffer has no bytes, or the list no turns, it may be NULL. A call takes less than 88 KB
 * of stack, plan_search less than 336 KB. */
#ifndef PLAN_H
#define PLAN_H

#include <stddef.h>
#include <stdint.h>

#ifdef __cplusplus
extern "C" {
#endif

/* The claim that no assignment satisfies every clause, and the bound of a step or the floor of a search that says so. */
#define PLAN_NONE UINT64_MAX

/* The places of an answer's numbers. */
enum { PLAN_NUMBER, PLAN_PLACE, PLAN_COST, PLAN_OPEN_COUNT, PLAN_STEP_COUNT, PLAN_GAP };

/* Judges a record. Where the number is not 0, the record is refused: it is the refusal's number in the table of docs/FORMATS.md,
 * with its place, and the last four are 0. Where it is 0, the last four are the claim, the count of true variables, the count of
 * steps and the gap, and there are three such answers, of which the first two alone are acceptances:
 *
 *   least    the gap is 0 and the claim is not PLAN_NONE: it is the least cost of any assignment that satisfies every clause;
 *   none     the gap is 0 and the claim is PLAN_NONE: no assignment satisfies every clause;
 *   within   the gap is not 0: the record's assignment satisfies every clause at the claimed cost, and no assignment that satisfies
 *            every clause costs less than the claim minus the gap. That the claim is the least is not said.
 *
 * The cost of an assignment is the sheet's loss and the costs of its true variables. */
void plan_judge(const uint8_t *sheet, size_t sheet_len, const uint8_t *record, size_t record_len, uint64_t answer[6]);

/* Where the literals of a step stand: part[0] is 1 for the sheet or 0 for the record, part[1] the first byte, part[2] how many
 * bytes. Of a refused record, and of a step that is not there, all three are 0. */
void plan_show(const uint8_t *sheet, size_t sheet_len, const uint8_t *record, size_t record_len, uint32_t step, uint64_t part[3]);

/* The places of the writer's and the trimmer's numbers: PLAN_NUMBER and PLAN_PLACE, and then this one. */
enum { PLAN_LENGTH = 2 };

/* Writes a sheet in the one way: the same variables, costs and loss, and the clauses sorted by their codes, a list before the
 * longer ones that begin with it, each clause once. A mark whose loss is 0 is left out. Two sheets are written as the same bytes
 * exactly where their variables, costs, losses and sets of clauses are the same, and what was written once stays as it is when
 * it is written again.
 *
 * Where the number is 0, out begins with the written sheet, of so many bytes as the length says, and the bytes behind it stay
 * as they were. Where it is not, it is the refusal's number in the table of docs/FORMATS.md, 1 to 4 of the sheet or 25 where
 * out is too short, with its place; the length is 0, and all of out stays as it was. A buffer as long as the sheet is always
 * enough.
 *
 * Clauses may get other numbers, so that a record goes with the sheet that it was made for. */
void plan_write_sheet(const uint8_t *sheet, size_t sheet_len, uint8_t *out, size_t out_len, uint64_t answer[3]);

/* The places of the search's numbers: PLAN_NUMBER and PLAN_PLACE, and then these. */
enum { PLAN_FOUND = 2, PLAN_PLAN, PLAN_CHOICES, PLAN_ENDED, PLAN_FLOOR };

/* Searches a sheet of 64 variables at most for a plan: an assignment that satisfies every clause, at the least cost if the budget
 * lasts. It takes the variables by number, false before true. What a clause forces is settled without a choice; each value that
 * is tried beyond that is one choice, and no more of them are made than the budget says.
 *
 * Where the number is not 0, it is the refusal's number in the table of docs/FORMATS.md, 1 to 4 of the sheet or 26 where it has
 * more than 64 variables, with its place, and the last five are 0. Where it is 0:
 *
 *   found     1 where there is a plan, else 0;
 *   plan      its true variables: variable v is bit v - 1, and the other bits are 0. It satisfies every clause;
 *   choices   how many were made, the whole budget where the search has not ended;
 *   ended     1 where no branch is left untried, else 0. Then there is a plan exactly where some assignment satisfies every
 *             clause; it is of the least cost, and of all of that cost the first: at the lowest variable in which two of them
 *             differ, it has false;
 *   floor     no assignment that satisfies every clause costs less. Of a search that has ended, the cost of its plan, or
 *             PLAN_NONE where it has none.
 *
 * A budget is asked for a unit only where a choice is due, so that a search that has ended gives the same answer to every larger
 * one. The call takes as long as its choices do, and says nothing meanwhile: a caller who cannot wait gives a small budget. It
 * leaves no record. */
void plan_search(const uint8_t *sheet, size_t sheet_len, uint64_t budget, uint64_t answer[7]);

/* Trims a record: keeps step t, the last one, and each step that a kept one cites, in their order, and leaves out the rest. The
 * trimmed record has the same claim and assignment, and its steps of kind 4 cite by the new numbers. Judged on the same sheet it
 * has the record's answer but for the step count; it is no longer than the record, and trimmed again it stays as it is.
 *
 * The answer has the writer's three numbers. Where the number is 0, out begins with the trimmed record, of so many bytes as the
 * length says, and the first t bytes of marks, t being the record's step count, are 1 for a kept step and 0 for another; the
 * bytes behind both stay as they were. Where it is not, it is the refusal's number in the table of docs/FORMATS.md, with its
 * place, the length is 0, and all of out stays as it was:
 *
 *   27        marks has fewer than t bytes. The place is 0;
 *   28        out is shorter than the trimmed record. The place is 0, and the marks are written, so that they tell which steps
 *             would be kept;
 *   another   the record is refused, as plan_judge has it; one that is within is not.
 *
 * After any refusal but 28, marks stays as it was too. An out as long as the record is always enough. */
void plan_trim(const uint8_t *sheet, size_t sheet_len, const uint8_t *record, size_t record_len, uint8_t *marks, size_t marks_len,
               uint8_t *out, size_t out_len, uint64_t answer[3]);

/* The places of turning's numbers: PLAN_NUMBER and PLAN_PLACE, and then this one. */
enum { PLAN_BROKEN = 2 };

/* Turns variables: switches each one of the list from false to true or back, in order, and tells what comes of it. A variable
 * that is listed twice is as it was. Of a sheet with n variables and m clauses, the three buffers begin with this afterwards, all
 * numbers with the lowest byte first:
 *
 *   assignment   (n + 7) / 8 bytes, as a record has them: variable v is bit (v - 1) % 8 of byte (v - 1) / 8. Before the call they
 *                are the assignment that is turned. A bit behind variable n may be set, and stays as it is;
 *   index        for each variable a pair of 4 bytes each, the offset of its clauses from the index's first byte and how many
 *                bytes they take; then, from byte 8 n on, the numbers of the clauses that mention variable 1, rising, in 4 bytes
 *                each, those of variable 2, and so on. That is 8 n bytes, and 4 for each literal of the sheet;
 *   counts       for each clause, in 2 bytes, how many of its literals are true: 2 m bytes. It is broken where that is 0.
 *
 * Index and counts are written whole, whatever they held. The bytes behind these parts stay as they were.
 *
 * Where the number is 0, PLAN_BROKEN is how many clauses are broken. Where it is not, it is the refusal's number in the table of
 * docs/FORMATS.md, with its place, PLAN_BROKEN is 0, and all three buffers stay as they were:
 *
 *   1 to 4    the sheet is refused;
 *   29        one of the buffers is shorter than its part. The place is 0;
 *   30        a turn is not a variable from 1 to n. The place is that of the first such turn in the list, counted from 1, and no
 *             turn is done.
 *
 * An assignment and counts as long as the sheet, and an index twice as long, are always enough. */
void plan_turn(const uint8_t *sheet, size_t sheet_len, uint8_t *assignment, size_t assignment_len, const uint16_t *turns,
               size_t turn_count, uint8_t *index, size_t index_len, uint8_t *counts, size_t counts_len, uint64_t answer[3]);

#ifdef __cplusplus
}
#endif

#endif
