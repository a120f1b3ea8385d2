/* A file read or written whole, for the programs in this folder. */
#ifndef FILE_H
#define FILE_H

#include <stdint.h>
#include <stdio.h>
#include <stdlib.h>

struct file {
    uint8_t *bytes;
    size_t len;
};

/* Makes room for one byte more at least. Returns 0 where there is no memory. */
static int grow(struct file *file, size_t *room)
{
    size_t more = *room < 4096 ? 4096 : *room;
    uint8_t *bytes = more > SIZE_MAX - *room ? NULL : realloc(file->bytes, *room + more);
    if (bytes == NULL)
        return 0;
    file->bytes = bytes;
    *room += more;
    return 1;
}

/* Reads a whole stream, without asking how long it is: a pipe cannot say. Returns 0 where that fails. */
static int read_stream(FILE *stream, struct file *file)
{
    size_t room = 0;
    do {
        if (file->len == room && !grow(file, &room))
            return 0;
        file->len += fread(file->bytes + file->len, 1, room - file->len, stream);
    } while (!feof(stream) && !ferror(stream));
    if (ferror(stream))
        return 0;
    /* The block ends where the file ends, so that a tool like valgrind sees any read past it. */
    uint8_t *bytes = realloc(file->bytes, file->len > 0 ? file->len : 1);
    if (bytes != NULL)
        file->bytes = bytes;
    return 1;
}

static int read_file(const char *path, struct file *file)
{
    FILE *stream = fopen(path, "rb");
    int done = stream != NULL && read_stream(stream, file);
    if (stream != NULL)
        fclose(stream);
    if (!done)
        fprintf(stderr, "cannot read %s\n", path);
    return done;
}

/* Inline, so that no compiler warns of it in the programs that only read. */
static inline int write_file(const char *path, const uint8_t *bytes, size_t len)
{
    FILE *stream = fopen(path, "wb");
    int done = stream != NULL && fwrite(bytes, 1, len, stream) == len;
    /* What is left of it may be written only now. */
    if (stream != NULL && fclose(stream) != 0)
        done = 0;
    if (!done)
        fprintf(stderr, "cannot write %s\n", path);
    return done;
}

#endif
