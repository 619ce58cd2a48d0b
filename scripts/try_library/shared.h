/* What the programs that try the library share: files in memory, and calls whose buffer has just the room that they want. */
#ifndef SHARED_H
#define SHARED_H

#include <stdio.h>
#include <stdlib.h>
#include <string.h>

#include "orcm.h"

typedef struct bytes {
    uint8_t *at;
    size_t length;
} bytes;

/* A call, and what it reads. */
typedef struct call {
    enum { CHECK, ROWS, SHOW, MERGE, WRITE } name;
    bytes file;            /* of merge all inputs, of write the lines */
    bytes text;            /* of rows the place, of write the schema */
    const size_t *lengths; /* of merge */
    size_t count;
    uint32_t rle, stride, stripe_rows; /* of write */
} call;

/* Ends the program if there is no memory. */
static void *some(size_t length)
{
    void *at = malloc(length ? length : 1);
    if (at == NULL) {
        fputs("no memory\n", stderr);
        exit(9);
    }
    return at;
}

/* The bytes of a text. */
static bytes of_text(const char *text)
{
    bytes found = {some(strlen(text)), strlen(text)};
    memcpy(found.at, text, found.length);
    return found;
}

/* The bytes of a file, put behind some others. */
static void read_behind(bytes *all, const char *path)
{
    FILE *file = fopen(path, "rb");
    size_t got = 1;
    if (file == NULL) {
        perror(path);
        exit(9);
    }
    while (got > 0) {
        all->at = realloc(all->at, all->length + 65536);
        if (all->at == NULL)
            exit(9);
        got = fread(all->at + all->length, 1, 65536, file);
        all->length += got;
    }
    fclose(file);
}

/* Makes a call. */
static orcm_answer make(const call *it, uint8_t *out, size_t room)
{
    switch (it->name) {
    case CHECK:
        return orcm_check(it->file.at, it->file.length, out, room);
    case ROWS:
        return orcm_rows(it->file.at, it->file.length, it->text.at, it->text.length, out, room);
    case SHOW:
        return orcm_show(it->file.at, it->file.length, out, room);
    case MERGE:
        return orcm_merge(it->file.at, it->file.length, it->lengths, it->count, out, room);
    default:
        return orcm_write(it->text.at, it->text.length, it->rle, it->stride, it->stripe_rows, it->file.at, it->file.length,
                          out, room);
    }
}

#endif
