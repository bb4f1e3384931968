/* Writes the pack file of one post: `works POST < station.txt > post.txt`.
 *
 * The input is decimal numbers parted by spaces or line feeds: n and t; the n check points; the kinds of the 96 rows (0 empty,
 * 1 raw, 3 a triple's first row, with 0 for its other two); the numbers drawn, by rising row. What stands between a # and the
 * end of its line is not read. A refusal is said on standard error, and then nothing is written. The file is secret: `umask 077`
 * before, so that only its owner may read it. */
#define _POSIX_C_SOURCE 200809L
#include <stdio.h>
#include <stdlib.h>

#include "gantsorol.h"
#include "given.h"

/* Of each post. */
enum { POINTS = 1 };

/* The first byte of the next number, or EOF. */
static int behind_spaces(void) {
    int c = getchar();
    while (c == ' ' || c == '\n' || c == '#') {
        if (c == '#')
            while (c != '\n' && c != EOF)
                c = getchar();
        else
            c = getchar();
    }
    return c;
}

/* The next number of the input: 1, or 0 at its end, or -1 where something else stands. */
static int next(uint32_t *number) {
    int c = behind_spaces();
    if (c == EOF)
        return 0;
    uint64_t value = 0;
    for (; '0' <= c && c <= '9' && value <= UINT32_MAX; c = getchar())
        value = 10 * value + (uint64_t)(c - '0');
    if (value > UINT32_MAX || (c != EOF && c != ' ' && c != '\n'))
        return -1;
    *number = (uint32_t)value;
    return 1;
}

static int fail(const char *what) {
    fprintf(stderr, "works: %s\n", what);
    return 1;
}

int main(int count, char **arguments) {
    uint32_t post, n, t, number;
    if (count != 2 || !given_number(arguments[1], GANTSOROL_MAX_POSTS + 1, &post))
        return fail("which post?");
    if (next(&n) != 1 || next(&t) != 1 || n > GANTSOROL_MAX_POSTS || t >= GANTSOROL_MAX_POSTS)
        return fail("the input does not begin with n and t");

    uint32_t check_points[GANTSOROL_MAX_POSTS];
    uint8_t kinds[GANTSOROL_ROWS];
    for (size_t i = 0; i < n; i++)
        if (next(&check_points[i]) != 1)
            return fail("a check point is missing");
    for (size_t i = 0; i < GANTSOROL_ROWS; i++) {
        if (next(&number) != 1 || number > UINT8_MAX)
            return fail("a kind is missing");
        kinds[i] = (uint8_t)number;
    }

    /* No station has a larger draw than one of raw rows alone, nor a longer file. */
    size_t room = GANTSOROL_DRAWS_LEN((size_t)n, (size_t)t, POINTS, GANTSOROL_ROWS, 0), drawn = 0;
    size_t length = GANTSOROL_PACK_FILE_LEN((size_t)n, (size_t)t, POINTS, GANTSOROL_ROWS, 0);
    uint32_t *draws = (uint32_t *)malloc(room * sizeof *draws);
    uint8_t *file = (uint8_t *)malloc(length);
    if (draws == NULL || file == NULL)
        return fail("no memory");
    int more;
    while ((more = next(&number)) == 1) {
        if (drawn == room)
            return fail("more numbers are drawn than the rows of a station take");
        draws[drawn++] = number;
    }
    if (more < 0)
        return fail("what was drawn is no number");

    gantsorol_written written =
        gantsorol_write_pack(n, t, post, POINTS, check_points, n, kinds, GANTSOROL_ROWS, draws, drawn, file, length);
    if (written.refusal != GANTSOROL_OK)
        return fail(gantsorol_refusal_text(written.refusal));
    return fwrite(file, 1, written.len, stdout) == written.len && fflush(stdout) == 0 ? 0 : fail("the file is not written");
}
