/* Runs the book in a file and prints its end and its lists, as the program does.
 *
 *   caller-c FILE.book    exit status 2 for a wrong usage, or a file that cannot be read
 */
#include <errno.h>
#include <inttypes.h>
#include <stdio.h>
#include <string.h>

#include "saturation.h"

#define BUDGET 4000
#define MOST_BYTES 65536

static uint8_t book[MOST_BYTES + 1]; /* the last byte is for telling that a book is too long */
static uint32_t types[2 * BUDGET], edges[3 * BUDGET], pairs[4000];

/* Prints the rows in the first len entries of a list. */
static void print_rows(char letter, const uint32_t *list, size_t len, size_t width)
{
    for (size_t row = 0; row < len; row += width) {
        putchar(letter);
        for (size_t n = 0; n < width; n++) printf(" %" PRIu32, list[row + n]);
        putchar('\n');
    }
}

static void print_run(size_t len)
{
    uint32_t t, e, p;
    uint32_t end = zamoluvel_saturate(book, len, BUDGET, types, sizeof types / sizeof *types, edges,
                                      sizeof edges / sizeof *edges, pairs, sizeof pairs / sizeof *pairs, &t, &e, &p);
    switch (end) {
    case ZAMOLUVEL_FINISHED:
        printf("finished %" PRIu32 " %" PRIu32 " %" PRIu32 "\n", t, e, p);
        print_rows('t', types, 2 * (size_t)t, 2);
        print_rows('e', edges, zamoluvel_named_part(end, e, p, ZAMOLUVEL_EDGES), 3);
        print_rows('s', pairs, zamoluvel_named_part(end, e, p, ZAMOLUVEL_PAIRS), 2);
        break;
    case ZAMOLUVEL_CLASH: printf("clash %" PRIu32 " %" PRIu32 "\n", t, e); break;
    case ZAMOLUVEL_SPENT: puts("spent"); break;
    default: printf("refused %" PRIu32 "\n", end - ZAMOLUVEL_REFUSED);
    }
}

int main(int argc, char **argv)
{
    if (argc != 2) {
        fputs("usage: caller-c FILE.book\n", stderr);
        return 2;
    }
    FILE *file = fopen(argv[1], "rb");
    size_t len = file ? fread(book, 1, sizeof book, file) : 0;
    if (!file || ferror(file)) {
        fprintf(stderr, "caller-c: %s: %s\n", argv[1], strerror(errno));
        return 2;
    }
    if (len > MOST_BYTES) puts("long");
    else print_run(len);
    return fclose(stdout) ? 1 : 0; /* 1 where the lines could not be written */
}
