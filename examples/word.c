/* From draws to an opened word: `word DIRECTORY WORD`. Draws a station of three posts from the operating system's random
 * numbers, writes each post's pack file, deals the word, and writes the lines by which every post opens it. The street program
 * then reads a post's file and these lines. A post's file is secret: only its owner may read it. */
#define _POSIX_C_SOURCE 200809L
#include "works.h"

enum { N = 3, T = 1, POINTS = 1, DRAW = GANTSOROL_ROW_DRAW_LEN(N, T, POINTS), ROW = GANTSOROL_ROW_LEN(N, T, POINTS) };
/* The pack file, of one raw row, is longer than any line. */
enum { TEXT = GANTSOROL_PACK_FILE_LEN(N, T, POINTS, 1, 0) };

int main(int count, char **arguments) {
    must(count == 3, "word: which directory, and which word?");
    const char *directory = arguments[1];
    uint32_t word;
    must(given_number(arguments[2], GANTSOROL_MODULUS, &word), "word: the word is no number below 2147483647");

    /* The works: check points, and one raw row, row 0. Its draw is f, then v1 to vn. */
    uint32_t check_points[POINTS * N], drawn[DRAW], packs[GANTSOROL_PACKS_LEN(N, T, POINTS)];
    uint8_t kinds[GANTSOROL_ROWS] = {GANTSOROL_KIND_RAW}, text[TEXT];
    draw(check_points, POINTS * N, drawn, DRAW);

    /* Each post's file. */
    for (int i = 1; i <= N; i++) {
        FILE *file = created_for_post(directory, i);
        put(file, text,
            gantsorol_write_pack(N, T, i, POINTS, check_points, POINTS * N, kinds, GANTSOROL_ROWS, drawn, DRAW, text,
                                 sizeof text));
        must(fclose(file) == 0, "word: a post's file");
    }

    /* The dealer, who got f, broadcasts c. */
    gantsorol_number c = gantsorol_dealer_number(word, drawn[0]);
    must(c.refusal == GANTSOROL_OK, gantsorol_refusal_text(c.refusal));
    FILE *lines = created(directory, "lines");
    put(lines, text, gantsorol_write_deal(N, T, 0, c.value, text, sizeof text));

    /* The posts broadcast their polynomials of row 0, and open it. */
    must(gantsorol_factory_row(N, T, POINTS, check_points, POINTS * N, drawn, DRAW, packs, N * ROW) == GANTSOROL_OK,
         "word: the packs");
    for (int i = 0; i < N; i++)
        put(lines, text,
            gantsorol_write_opening(N, T, POINTS, 0, i + 1, packs + i * ROW, GANTSOROL_MESSAGE_LEN(T, POINTS), text,
                                    sizeof text));
    must(fputs("G,0\n", lines) >= 0 && fclose(lines) == 0, "word: the lines");

    gantsorol_erase(check_points, sizeof check_points);
    gantsorol_erase(drawn, sizeof drawn);
    gantsorol_erase(packs, sizeof packs);
    gantsorol_erase(text, sizeof text);
    gantsorol_erase(&word, sizeof word);
    return 0;
}
