/* Leaves out the idle steps of a record from C, from one file to another. Exits with 0 where that is done, for a record within a
 * gap too, 1 for a refusal, of which it prints the line and leaves the other file alone, and 2 where it cannot. The other file is
 * written where it stands, so that little of it may be left then: it should not be the only copy of a record.
 *
 * Build, at the repository's root, after `tools/staticlib`:
 *
 *     cc -std=c11 -O2 -Iinclude -o trim bindings/c/trim.c target/staticlib/libexports.a
 */
#include <inttypes.h>
#include <stdio.h>
#include <stdlib.h>

#include "file.h"
#include "plan.h"

/* How many steps a record has, as far as it is not refused: so many marks are enough. */
static size_t step_count(const struct file *sheet, const struct file *record)
{
    uint64_t answer[6];
    plan_judge(sheet->bytes, sheet->len, record->bytes, record->len, answer);
    return answer[PLAN_STEP_COUNT];
}

/* Room for so many bytes, and never NULL for none. */
static uint8_t *room_for(size_t len)
{
    return malloc(len > 0 ? len : 1);
}

/* What the program exits with once the call has answered. */
static int finish(const uint64_t answer[3], const uint8_t *out, const char *path)
{
    int told;
    if (answer[PLAN_NUMBER] == 0)
        return write_file(path, out, answer[PLAN_LENGTH]) ? 0 : 2;
    told = printf("refused %" PRIu64 " at %" PRIu64 "\n", answer[PLAN_NUMBER], answer[PLAN_PLACE]);
    return told >= 0 && fflush(stdout) == 0 ? 1 : 2;
}

/* Lends as many marks as the record has steps, and an output as long as the record, which is always enough. */
static int trim(const struct file *sheet, const struct file *record, const char *path)
{
    size_t steps = step_count(sheet, record);
    uint8_t *marks = room_for(steps), *out = room_for(record->len);
    uint64_t answer[3];
    int status = 2;
    if (marks != NULL && out != NULL) {
        plan_trim(sheet->bytes, sheet->len, record->bytes, record->len, marks, steps, out, record->len, answer);
        status = finish(answer, out, path);
    } else {
        fprintf(stderr, "no memory for %s\n", path);
    }
    free(marks);
    free(out);
    return status;
}

int main(int count, char **words)
{
    struct file sheet = {NULL, 0}, record = {NULL, 0};
    int status = 2;
    if (count != 4) {
        fprintf(stderr, "usage: trim SHEET RECORD OUT\n");
        return status;
    }
    if (read_file(words[1], &sheet) && read_file(words[2], &record))
        status = trim(&sheet, &record, words[3]);
    free(sheet.bytes);
    free(record.bytes);
    return status;
}
