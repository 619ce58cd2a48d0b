/* leaks NUMBER FILE: checks the file so often, and each hundredth time makes the other calls too, and ones that are
 * refused. Prints how many pages of memory the process holds behind the first tenth and at the end. If these differ by
 * more than a page in sixteen, the status is 1; but not for a NUMBER below 100000, which is for valgrind, since that
 * holds pages of its own. */
#include <unistd.h>

#include "shared.h"

static long pages(void)
{
    long size = 0, resident = 0;
    FILE *file = fopen("/proc/self/statm", "r");
    if (file == NULL || fscanf(file, "%ld %ld", &size, &resident) != 2)
        exit(9);
    fclose(file);
    return resident;
}

int main(int count, char **words)
{
    if (count != 3)
        return 9;
    long number = strtol(words[1], NULL, 10), first = 0;
    bytes file = {some(1), 0};
    read_behind(&file, words[2]);
    size_t lengths[2] = {file.length, 0};
    bytes none = of_text(""), schema = of_text("struct<n:bigint>"), wrong = of_text("struct<n:no>");
    bytes line = of_text("{\"n\":7}\n"), start = of_text("7:0");
    call calls[] = {
        {ROWS, file, none, NULL, 0, 0, 0, 0},       {SHOW, file, none, NULL, 0, 0, 0, 0},
        {MERGE, file, none, lengths, 1, 0, 0, 0},   {MERGE, file, none, lengths, 2, 0, 0, 0},
        {WRITE, line, schema, NULL, 0, 2, 10, 100}, {WRITE, line, wrong, NULL, 0, 2, 10, 100},
        {ROWS, file, start, NULL, 0, 0, 0, 0},      {WRITE, file, schema, NULL, 0, 1, 0, 1},
    };
    uint8_t out[4096];
    for (long i = 0; i < number; i++) {
        if (orcm_check(file.at, file.length, out, sizeof out).layer != ORCM_DONE)
            return 9;
        for (size_t j = 0; i % 100 == 0 && j < sizeof calls / sizeof calls[0]; j++)
            make(&calls[j], out, sizeof out);
        if (i == number / 10)
            first = pages();
    }
    long last = pages();
    printf("%ld pages behind the first tenth, %ld at the end\n", first, last);
    free(file.at), free(none.at), free(schema.at), free(wrong.at), free(line.at), free(start.at);
    return number >= 100000 && last - first > first / 16;
}
