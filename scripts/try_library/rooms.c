/* rooms FILE..: makes calls over these files with buffers of each size near the one that they want, and compares what
 * stands in the buffer, and behind it. The calls are check, rows, show, a merge of all files, a write of the rows of the
 * first one, and calls that are refused. Prints what differs, and last 'N passed, M failed'. */
#include "shared.h"

static int passed, failed;

static void judge(int holds, const char *what, size_t room)
{
    if (holds) {
        passed++;
    } else {
        failed++;
        printf("differs: %s, with room for %zu bytes\n", what, room);
    }
}

/* Whether each byte from a place on is the one that was there first. */
static int unchanged(const uint8_t *out, size_t from, size_t to)
{
    for (size_t i = from; i < to; i++)
        if (out[i] != 0xa5)
            return 0;
    return 1;
}

static void with_room(const call *it, const char *what, const uint8_t *whole, orcm_answer wanted, size_t room)
{
    size_t all = room + 64, least = room < wanted.length ? room : wanted.length;
    uint8_t *out = some(all);
    memset(out, 0xa5, all);
    orcm_answer answer = make(it, out, room);
    judge(answer.length == wanted.length && answer.layer == wanted.layer && answer.number == wanted.number &&
              memcmp(out, whole, least) == 0 && unchanged(out, least, all),
          what, room);
    free(out);
}

/* One byte too small, as large as it has to be, larger, and some others. */
static void try(const call *it, const char *what, int is_refused)
{
    static const size_t others[] = {0, 1, 2, 7, 64};
    uint8_t none = 0xa5;
    orcm_answer wanted = make(it, &none, 0);
    judge(none == 0xa5 && (wanted.layer != ORCM_DONE) == is_refused, what, 0);
    uint8_t *whole = some(wanted.length);
    orcm_answer answer = make(it, whole, wanted.length);
    judge(answer.length == wanted.length, what, wanted.length);
    for (size_t i = 0; i < sizeof others / sizeof others[0]; i++)
        with_room(it, what, whole, wanted, others[i]);
    for (size_t less = 0; less < 3 && less <= wanted.length; less++)
        with_room(it, what, whole, wanted, wanted.length - less);
    with_room(it, what, whole, wanted, wanted.length + 1);
    with_room(it, what, whole, wanted, wanted.length + 4096);
    free(whole);
}

/* The rows of a file, as lines. */
static bytes lines_of(bytes file)
{
    call it = {ROWS, file, of_text(""), NULL, 0, 0, 0, 0};
    uint8_t none = 0;
    bytes lines = {NULL, make(&it, &none, 0).length};
    lines.at = some(lines.length);
    make(&it, lines.at, lines.length);
    return lines;
}

int main(int count, char **words)
{
    bytes all = {some(1), 0};
    size_t *lengths = some(sizeof(size_t) * (size_t)count);
    for (int i = 1; i < count; i++) {
        size_t before = all.length;
        read_behind(&all, words[i]);
        lengths[i - 1] = all.length - before;
    }
    size_t files = (size_t)(count - 1), at = 0;
    for (size_t i = 0; i < files; at += lengths[i++]) {
        bytes file = {all.at + at, lengths[i]}, cut = {all.at + at, lengths[i] - 1};
        try(&(call){CHECK, file, of_text(""), NULL, 0, 0, 0, 0}, "check", 0);
        try(&(call){ROWS, file, of_text(""), NULL, 0, 0, 0, 0}, "rows", 0);
        try(&(call){ROWS, file, of_text("9999:0"), NULL, 0, 0, 0, 0}, "rows of no stripe", 1);
        try(&(call){SHOW, file, of_text(""), NULL, 0, 0, 0, 0}, "show", 0);
        try(&(call){SHOW, cut, of_text(""), NULL, 0, 0, 0, 0}, "show of a part", 1);
        try(&(call){CHECK, cut, of_text(""), NULL, 0, 0, 0, 0}, "check of a part", 1);
    }
    try(&(call){MERGE, all, of_text(""), lengths, files, 0, 0, 0}, "merge", 0);
    try(&(call){MERGE, all, of_text(""), lengths, files - 1, 0, 0, 0}, "merge with a length too few", 1);
    bytes lines = lines_of((bytes){all.at, lengths[0]});
    bytes schema = of_text("struct<n:bigint>");
    try(&(call){WRITE, lines, schema, NULL, 0, 2, 10, 2}, "write", 0);
    try(&(call){WRITE, lines, schema, NULL, 0, 3, 10, 2}, "write of no version", 1);
    printf("%d passed, %d failed\n", passed, failed);
    return failed != 0;
}
