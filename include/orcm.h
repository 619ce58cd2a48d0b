/* orcm.h: Apache ORC files in memory: what they say of themselves, their rows as JSON, files of rows, and files joined
 * into one. Each call answers what the program `orcm` answers for files of the same bytes; docs/USE.md explains lines
 * and options, docs/FAULTS.md the faults.
 *
 * Link liborcm.a or liborcm.so, which scripts/make-library makes. Both are for x86-64 Linux and processors of level
 * x86-64-v2 or later, and need nothing but the C library. */
#ifndef ORCM_H
#define ORCM_H

#include <stddef.h>
#include <stdint.h>

#ifdef __cplusplus
extern "C" {
#endif

/* What a call answers.
 *
 * If `layer` is ORCM_DONE, the call made `length` bytes: lines of UTF-8 that each end in a line feed, or an ORC file.
 * They begin at the front of the buffer `out`. If the buffer has less room, it holds as many of them as it has room for.
 * Then call again with a buffer of `length` bytes: the same bytes in give the same bytes out.
 *
 * Otherwise the call is refused, and `layer` and `number` name the fault. `out` begins with the fault's text, which has
 * `length` bytes and no null byte at its end, or with as much of it as it has room for: what the program prints behind
 * `orcm: `. The text is empty if there was no memory for it. 256 bytes have room for every text.
 *
 * In both cases what stands in `out` behind these bytes stays as it was. */
typedef struct orcm_answer {
    size_t length;
    uint32_t layer;
    uint32_t number;
} orcm_answer;

/* The layer of a fault, which is the first word of its text. The number is the second word, and docs/FAULTS.md lists
 * both. Of a fault that contains an inner one, as in "file 12 Stripe(0): stripe 2 BadEncoding(1)", they are those of the
 * outer one. Want of memory is a fault like any other: ORCM_TYPE 7, ORCM_JSON 8, ORCM_FILE 16, ORCM_MERGE 12. */
enum {
    ORCM_DONE = 0,
    ORCM_RUN = 1,   /* "run": runs of integers; no call answers it as the outer fault today */
    ORCM_TYPE = 2,  /* "type": a schema */
    ORCM_JSON = 3,  /* "json": a line of JSON, or the text `from` */
    ORCM_FILE = 4,  /* "file": an ORC file */
    ORCM_MERGE = 5, /* "merge": joining */
    ORCM_CALL = 6   /* "call": 1 lengths aren't those of the inputs, 2 options, 3 a text isn't UTF-8 */
};

/* What holds for each call.
 *
 * Shapes. Bytes are given by a pointer and their number. No pointer may be NULL; for no bytes any other pointer serves.
 * Texts have no null byte at their end. Numbers of rows, stripes and groups count from 0, and lengths are in bytes.
 *
 * What the caller has to see to, because no call can test it: each pointer leads to as many bytes as the number behind
 * it says (`lengths` to as many numbers), and a number is at most 2^63 - 1. `out` shares no byte with what is read.
 * During the call nobody else writes to what is read, or reads or writes `out`. A file that is mapped into memory must
 * neither change nor become shorter. The program's malloc, realloc and free belong together, and malloc and realloc
 * align as the C standard demands. No call is made from a signal handler, or from the forked child of a process that
 * had threads.
 *
 * Lifetimes. No call keeps a pointer, and none leaves memory behind: what a call allocates it frees before it returns.
 * So there is nothing to initialize and nothing to release.
 *
 * Threads. Calls share nothing, so that several threads may call at the same time, each with an `out` of its own.
 *
 * Stack. A call takes more of it than most C functions, and nothing tests that it suffices. In threads with 1 MiB of
 * stack check, rows, show and merge went over the files of vectors/ but those of vectors/tells-of-much; with 512 KiB
 * some ended the process (2026-12-01). write wasn't measured. Give 8 MiB, as a program's first thread has.
 *
 * Memory. Beside what the command itself takes (docs/USE.md, "Memory"), a call holds all the bytes that it makes before
 * it puts them into `out`, in a block that grows by doubling. A buffer that is too small costs as much as one that
 * isn't. If there is not enough memory, the call is refused, as far as malloc and realloc say so by NULL. */

/* Checks the statistics and row indexes of a file against its rows. Puts a line for each that is wrong or missing; if
 * there is none, `length` is 0. */
orcm_answer orcm_check(const uint8_t *file, size_t file_length, uint8_t *out, size_t out_length);

/* Puts the rows of a file, one line of JSON each, in order. `from` is a text such as "2:0": then the rows from stripe 2,
 * group 0 on are put. With `from_length` 0 all rows are. If a row can't be read, no line is put but the fault's text. */
orcm_answer orcm_rows(const uint8_t *file, size_t file_length, const uint8_t *from, size_t from_length,
                      uint8_t *out, size_t out_length);

/* Puts what a file says of itself, one line for each fact. */
orcm_answer orcm_show(const uint8_t *file, size_t file_length, uint8_t *out, size_t out_length);

/* Joins files into one, and puts that file. The inputs lie one behind the other in `inputs`, and `lengths` has the
 * length of each, in the same order. Together the lengths must be `inputs_length`. */
orcm_answer orcm_merge(const uint8_t *inputs, size_t inputs_length, const size_t *lengths, size_t count,
                       uint8_t *out, size_t out_length);

/* Writes a file of rows, and puts it. `lines` has the rows, one line of JSON each. `schema` is a text such as
 * "struct<n:bigint>". `rle` is the version of integer run lengths, 1 or 2. The row index has an entry for each `stride`
 * rows, or there is none if `stride` is 0. A stripe has `stripe_rows` rows, 1 to 2147483647. */
orcm_answer orcm_write(const uint8_t *schema, size_t schema_length, uint32_t rle, uint32_t stride,
                       uint32_t stripe_rows, const uint8_t *lines, size_t lines_length,
                       uint8_t *out, size_t out_length);

#ifdef __cplusplus
}
#endif

#endif
