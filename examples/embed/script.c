/* Runs a script over parts, as `olap run SCRIPT [PART]...` does, within this program:

     cc script.c libolap_core.a -o script && ./script ../loads.olap ../loads.1.csv ../loads.2.csv */
#include "olap_core.h"

#include <stdio.h>
#include <stdlib.h>

struct bytes {
    uint8_t *at;
    size_t length;
};

/* The bytes, and those of a file behind them. */
static struct bytes and_file(struct bytes all, const char *name)
{
    FILE *file = fopen(name, "rb");
    size_t read;

    if (!file) {
        perror(name);
        exit(2);
    }
    do {
        all.at = realloc(all.at, all.length + 65536);
        if (!all.at)
            exit(3);
        read = fread(all.at + all.length, 1, 65536, file);
        all.length += read;
    } while (read > 0);
    fclose(file);
    return all;
}

int main(int count, char **words)
{
    struct bytes script = {0}, parts = {0}, out = {0};
    size_t *lengths = malloc((size_t)count * sizeof *lengths);
    size_t part_count = 0, length = 0;
    uint32_t status = OLAP_NO_ROOM;

    if (count < 2 || !lengths) {
        fprintf(stderr, "script SCRIPT [PART]...\n");
        return 2;
    }
    script = and_file(script, words[1]);
    parts.at = malloc(1);
    for (int at = 2; at < count; at++) {
        size_t before = parts.length;
        parts = and_file(parts, words[at]);
        lengths[part_count++] = parts.length - before;
    }
    /* The first call tells how much room there must be, if that is more. */
    for (length = 65536; status == OLAP_NO_ROOM;) {
        out.length = length;
        out.at = realloc(out.at, out.length);
        if (!out.at)
            return 3;
        status = olap_output(OLAP_CLASSIC, OLAP_MOST_ROWS, script.at, script.length, parts.at, parts.length, lengths,
                             part_count, out.at, out.length, &length);
    }
    if (status != OLAP_WRITTEN) {
        fprintf(stderr, "script: status %u\n", (unsigned)status);
        return 3;
    }
    fwrite(out.at, 1, length, stdout);
    free(out.at);
    free(parts.at);
    free(script.at);
    free(lengths);
    return 0;
}
