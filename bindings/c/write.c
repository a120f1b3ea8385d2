/* Writes a sheet in the one way from C, from one file to another. Exits with 0 where that is done, 1 for a refusal, of which it
 * prints the line and leaves the other file alone, and 2 where it cannot. The other file is written where it stands, so that
 * little of it may be left then: it should not be the only copy of a sheet.
 *
 * Build, at the repository's root, after `tools/staticlib`:
 *
 *     cc -std=c11 -O2 -Iinclude -o write bindings/c/write.c target/staticlib/libexports.a
 */
#include <inttypes.h>
#include <stdio.h>
#include <stdlib.h>

#include "file.h"
#include "plan.h"

/* What the program exits with, for a sheet and a buffer as long as it, which is always enough. */
static int write_sheet(const struct file *sheet, uint8_t *out, const char *path)
{
    uint64_t answer[3];
    plan_write_sheet(sheet->bytes, sheet->len, out, sheet->len, answer);
    if (answer[PLAN_NUMBER] != 0) {
        int told = printf("refused %" PRIu64 " at %" PRIu64 "\n", answer[PLAN_NUMBER], answer[PLAN_PLACE]);
        return told >= 0 && fflush(stdout) == 0 ? 1 : 2;
    }
    return write_file(path, out, answer[PLAN_LENGTH]) ? 0 : 2;
}

int main(int count, char **words)
{
    struct file sheet = {NULL, 0};
    uint8_t *out;
    int status = 2;
    if (count != 3) {
        fprintf(stderr, "usage: write SHEET OUT\n");
        return status;
    }
    if (read_file(words[1], &sheet)) {
        out = malloc(sheet.len > 0 ? sheet.len : 1);
        if (out != NULL)
            status = write_sheet(&sheet, out, words[2]);
        else
            fprintf(stderr, "no memory for %s\n", words[2]);
        free(out);
    }
    free(sheet.bytes);
    return status;
}
