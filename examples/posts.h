/* Three posts, and what every example with products does first: numbers shared, triples loaded, messages heard. */
#include <stdio.h>
#include <string.h>

#include "gantsorol.h"

enum { N = 3, T = 1, POINTS = 1, ROW = GANTSOROL_ROW_LEN(N, T, POINTS), ALL = GANTSOROL_ROWS_LEN(N, T, POINTS) };
enum { RECORD = GANTSOROL_RECORD_LEN(N, T, POINTS), MESSAGE = GANTSOROL_MESSAGE_LEN(T, POINTS) };

static const uint32_t check_points[POINTS * N] = {2, 3, 5};
static uint32_t rows[N][ALL];
static gantsorol_session posts[N];

/* Keeps the session that a call hands back. */
static uint32_t keep(int post, gantsorol_answer answer) {
    posts[post] = answer.session;
    if (answer.refusal != 0)
        printf("post %d: refusal %d\n", post + 1, answer.refusal);
    return answer.value;
}

static void start(void) {
    for (int i = 0; i < N; i++)
        keep(i, gantsorol_new(N, T, i + 1, POINTS, check_points[i], 0));
}

static void expect_made(uint8_t refusal) {
    if (refusal != 0)
        printf("the factory: refusal %d\n", refusal);
}

/* The factory draws a row, and its dealer shares `number` with it. */
static void share(size_t row, uint32_t number, const uint32_t *draw) {
    uint32_t packs[GANTSOROL_PACKS_LEN(N, T, POINTS)], c = gantsorol_dealer_number(number, draw[0]).value;
    expect_made(gantsorol_factory_row(N, T, POINTS, check_points, POINTS * N, draw, GANTSOROL_ROW_DRAW_LEN(N, T, POINTS),
                                      packs, N * ROW));
    for (int i = 0; i < N; i++) {
        keep(i, gantsorol_load_row(posts[i], rows[i], ALL, row, packs + i * ROW, ROW));
        keep(i, gantsorol_deal(posts[i], rows[i], ALL, row, c));
    }
}

/* The factory draws a triple; each post gets its part of l, of l' and of l''. */
static void load_triple(size_t first, const uint32_t *draw) {
    uint32_t packs[GANTSOROL_TRIPLE_PACKS_LEN(N, T, POINTS)], pack[GANTSOROL_TRIPLE_PACK_LEN(N, T, POINTS)];
    expect_made(gantsorol_factory_triple(N, T, POINTS, check_points, POINTS * N, draw,
                                         GANTSOROL_TRIPLE_DRAW_LEN(N, T, POINTS), packs, 3 * N * ROW));
    for (int i = 0; i < N; i++) {
        for (int part = 0; part < 3; part++)
            memcpy(pack + part * ROW, packs + (part * N + i) * ROW, ROW * sizeof *pack);
        keep(i, gantsorol_load_triple(posts[i], rows[i], ALL, first, pack, 3 * ROW));
    }
}

/* What a post sent, into its block of a record. */
static void hear(uint32_t *record, int post, const uint32_t *coefficients) {
    uint8_t refusal =
        gantsorol_record_put(N, T, POINTS, record, RECORD, post + 1, coefficients, GANTSOROL_MESSAGE_LEN(T, POINTS));
    if (refusal != 0)
        printf("the record: refusal %d\n", refusal);
}
