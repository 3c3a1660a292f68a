/*
 * Reads a line, from the file that is named or from standard input, and prints its report. It ends with status 0;
 * with 1 where the line is refused; with 2 where the line could not be read or the report not be written.
 *
 *   cc -Iinclude include/example.c target/staticlib/libjikhvanto.a -o example
 */
#include <stdio.h>
#include "jikhvanto.h"

enum status { READ, REFUSED, FAILED };

static enum status failed(const char *what)
{
    perror(what);
    return FAILED;
}

/* The lines of a report; that of a loss is followed by its cause. */
static const struct {
    const char *name;
    enum jk_place place;
} line[] = {
    {"place", JK_PLACE}, {"start", JK_START}, {"whole", JK_WHOLE}, {"used", JK_USED}, {"lost", JK_LOST},
    {"words", JK_WORDS}, {"wordbits", JK_WORDBITS}, {"compared", JK_COMPARED}, {"errored", JK_ERRORED},
    {"farend", JK_FAREND}
};

static void print(const uint64_t answer[JK_ANSWER])
{
    size_t i;

    for (i = 0; i < sizeof line / sizeof *line; i++) {
        uint64_t value = answer[line[i].place];

        if (line[i].place == JK_LOST && value == 0)
            printf("lost no\n");
        else
            printf("%s %lu\n", line[i].name, (unsigned long)value);
        if (line[i].place == JK_LOST && value != 0)
            printf("cause %s\n", answer[JK_CAUSE] == JK_CAUSE_WORD ? "word" : "bit2");
    }
}

int main(int argc, char **argv)
{
    static uint8_t image[8192 + 1]; /* one more than are taken, so that a longer line is refused */
    static uint8_t payload[16 * 496], slot0[16 * 16];
    const char *from = argc > 1 ? argv[1] : "standard input";
    FILE *in = argc > 1 ? fopen(from, "rb") : stdin;
    uint64_t answer[JK_ANSWER], number;
    size_t octets;

    if (!in)
        return failed(from);
    octets = fread(image, 1, sizeof image, in);
    if (ferror(in))
        return failed(from);
    number = jk_read(image, octets, payload, sizeof payload, slot0, sizeof slot0, answer);
    if (number == JK_ACCEPTED)
        print(answer);
    else
        printf("refused %lu\n", (unsigned long)number);
    if (number == JK_BASIC_ONLY)
        fprintf(stderr, "%s: basic alignment and no more, first at place %lu\n", from, (unsigned long)answer[JK_PLACE]);
    if (ferror(stdout) || fclose(stdout))
        return failed("standard output");
    return number == JK_ACCEPTED ? READ : REFUSED;
}
