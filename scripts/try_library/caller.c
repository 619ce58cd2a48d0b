/* The program `orcm` once more, over the library's calls: the same words, the same output, the same status. But after a
 * refusal of `rows` no line is printed. Each call is first made with a buffer of no room, which tells the room. */
#include "shared.h"

static int ends(orcm_answer answer, const uint8_t *out, const char *into)
{
    if (answer.layer != ORCM_DONE) {
        fprintf(stderr, "orcm: %.*s\n", (int)answer.length, (const char *)out);
        return 1;
    }
    FILE *file = into == NULL ? stdout : fopen(into, "wb");
    if (file == NULL || fwrite(out, 1, answer.length, file) != answer.length || fflush(file) != 0)
        return 9;
    return 0;
}

/* The value of an option, which stands behind it. */
static const char *option(int count, char **words, const char *name)
{
    for (int i = 2; i + 1 < count; i++)
        if (strcmp(words[i], name) == 0)
            return words[i + 1];
    return "";
}

int main(int count, char **words)
{
    const char *name = count > 2 ? words[1] : "", *into = NULL;
    size_t *lengths = some(sizeof(size_t) * (size_t)count);
    call it = {CHECK, {some(1), 0}, of_text(""), lengths, 0, 0, 0, 0};
    if (strcmp(name, "merge") == 0) {
        it.name = MERGE;
        into = words[2];
        for (int i = 3; i < count; i++) {
            size_t before = it.file.length;
            read_behind(&it.file, words[i]);
            lengths[it.count++] = it.file.length - before;
        }
    } else if (strcmp(name, "write") == 0) {
        it.name = WRITE;
        into = words[count - 1];
        it.text = of_text(option(count, words, "--schema"));
        it.rle = (uint32_t)strtoul(option(count, words, "--rle"), NULL, 10);
        it.stride = (uint32_t)strtoul(option(count, words, "--stride"), NULL, 10);
        it.stripe_rows = (uint32_t)strtoul(option(count, words, "--stripe-rows"), NULL, 10);
        read_behind(&it.file, words[count - 2]);
    } else {
        it.name = strcmp(name, "rows") == 0 ? ROWS : strcmp(name, "show") == 0 ? SHOW : CHECK;
        it.text = of_text(option(count, words, "--from"));
        read_behind(&it.file, words[count - 1]);
    }
    uint8_t none = 0;
    size_t room = make(&it, &none, 0).length;
    uint8_t *out = some(room);
    orcm_answer answer = make(&it, out, room);
    int status = answer.length == room ? ends(answer, out, into) : 9;
    return status == 0 && it.name == CHECK && room > 0 ? 3 : status;
}
