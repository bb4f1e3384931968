/* A works and the dealers of three numbers: `station DIRECTORY RIDES RATE FEE`. Draws a station of three posts from the
 * operating system's random numbers and writes each post's pack file, post-1.txt to post-3.txt, and the dealers' lines,
 * deals.txt, with who may call for what they deal. Then nothing of the draw is left here. */
#define _POSIX_C_SOURCE 200809L
#include "plan.h"
#include "works.h"

enum { DRAWS = GANTSOROL_DRAWS_LEN(N, T, POINTS, RAW_ROWS, TRIPLES) };
enum { FILE_LEN = GANTSOROL_PACK_FILE_LEN(N, T, POINTS, RAW_ROWS, TRIPLES) };

static uint32_t check_points[POINTS * N], draws[DRAWS];
static uint8_t kinds[GANTSOROL_ROWS], text[FILE_LEN];

/* Each post's pack file: its check points, and its parts of the rows and triples. */
static void write_packs(const char *directory) {
    for (int post = 1; post <= N; post++) {
        FILE *file = created_for_post(directory, post);
        put(file, text,
            gantsorol_write_pack(N, T, post, POINTS, check_points, POINTS * N, kinds, GANTSOROL_ROWS, draws, DRAWS, text,
                                 sizeof text));
        must(fclose(file) == 0, "station: a post's file is not written");
    }
}

/* Who may call for a row's opening, said before its number is dealt: a row made from such rows has the posts that all share. */
static void write_access(FILE *lines, int row) {
    must(fprintf(lines, "A,%d,%d\n", row, CALLER) > 0, "station: the deals are not written");
}

/* A row's dealer got f, the start of the row's draw, and broadcasts c, which hides the number. */
static void write_deal(FILE *lines, size_t row, uint32_t number) {
    gantsorol_number c = gantsorol_dealer_number(number, draws[gantsorol_draw_place(N, T, POINTS, kinds, row)]);
    must(c.refusal == GANTSOROL_OK, gantsorol_refusal_text(c.refusal));
    put(lines, text, gantsorol_write_deal(N, T, row, c.value, text, sizeof text));
}

int main(int count, char **arguments) {
    uint32_t numbers[RAW_ROWS];
    must(count == 2 + RAW_ROWS, "station: which directory, how many rides, which rate, which fee?");
    for (int i = 0; i < RAW_ROWS; i++)
        must(given_number(arguments[2 + i], GANTSOROL_MODULUS, &numbers[i]), "station: that is no number below 2147483647");

    kinds[RIDES] = kinds[RATE] = kinds[FEE] = GANTSOROL_KIND_RAW;
    kinds[TRIPLE] = kinds[OTHER_TRIPLE] = GANTSOROL_KIND_TRIPLE;
    draw(check_points, POINTS * N, draws, DRAWS);
    write_packs(arguments[1]);
    FILE *lines = created(arguments[1], "deals");
    write_access(lines, RIDES);
    write_access(lines, RATE);
    write_access(lines, FEE);
    write_deal(lines, RIDES, numbers[0]);
    write_deal(lines, RATE, numbers[1]);
    write_deal(lines, FEE, numbers[2]);
    must(fclose(lines) == 0, "station: the deals are not written");

    gantsorol_erase(check_points, sizeof check_points);
    gantsorol_erase(draws, sizeof draws);
    gantsorol_erase(text, sizeof text);
    gantsorol_erase(numbers, sizeof numbers);
    return 0;
}
