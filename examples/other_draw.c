/* What a stolen pair of posts gives away: nothing. Five posts share 100; posts 2 and 4 are stolen. The draw behind 42 shows them
 * the same: both draws and both records are printed side by side, for one check point a post and for two. */
#include <stdio.h>

#include "gantsorol.h"

enum { N = 5, T = 2, MOST = GANTSOROL_MAX_POINTS, STOLEN = 2, SECRET = 100, WANTED = 42 };
enum { DRAW = GANTSOROL_ROW_DRAW_LEN(N, T, MOST), ROW = GANTSOROL_ROW_LEN(N, T, MOST), ROWS = GANTSOROL_ROWS_LEN(N, T, MOST) };
enum { MESSAGE = GANTSOROL_MESSAGE_LEN(T, MOST), RECORD = GANTSOROL_RECORD_LEN(N, T, MOST) };

static const uint32_t stolen[STOLEN] = {2, 4};

/* What becomes of a draw: the dealer's number, each post's row once it is dealt, and the number opened. */
typedef struct {
    uint32_t c, rows[N][ROWS], opened;
} run;

static run runs[2];

/* A refusal is said and ends the example: with these lists there is none. */
static int refused(const char *call, uint8_t refusal) {
    if (refusal != 0)
        fprintf(stderr, "%s: %s\n", call, gantsorol_refusal_text(refusal));
    return refusal != 0;
}

/* The row is loaded into row 0 of each post and dealt, and post 1 opens it with what all others send. */
static int share(size_t points, const uint32_t *check_points, const uint32_t *draw, uint32_t secret, run *of) {
    size_t row = GANTSOROL_ROW_LEN(N, T, points), rows = GANTSOROL_ROWS_LEN(N, T, points);
    size_t message = GANTSOROL_MESSAGE_LEN(T, points), record = GANTSOROL_RECORD_LEN(N, T, points);
    uint32_t packs[N * ROW], sent[MESSAGE], heard[RECORD] = {0};
    gantsorol_answer posts[N];
    of->c = gantsorol_dealer_number(secret, draw[0]).value;
    if (refused("factory row", gantsorol_factory_row(N, T, points, check_points, points * N, draw,
                                                     GANTSOROL_ROW_DRAW_LEN(N, T, points), packs, N * row)))
        return 1;
    for (size_t i = 0; i < N; i++) {
        const uint32_t *own = check_points + points * i;
        posts[i] = gantsorol_new(N, T, i + 1, points, own[0], own[points - 1]);
        posts[i] = gantsorol_load_row(posts[i].session, of->rows[i], rows, 0, packs + i * row, row);
        posts[i] = gantsorol_deal(posts[i].session, of->rows[i], rows, 0, of->c);
        posts[i] = gantsorol_opening_message(posts[i].session, of->rows[i], rows, 0, 1, sent, message);
        if (refused("post", posts[i].refusal) ||
            refused("record put", gantsorol_record_put(N, T, points, heard, record, i + 1, sent, message)))
            return 1;
    }
    gantsorol_answer opened = gantsorol_open(posts[0].session, of->rows[0], rows, 0, heard, record);
    of->opened = opened.value;
    return refused("open", opened.refusal);
}

/* Two lists beside each other. */
static void print(const char *name, size_t post, const uint32_t *left, const uint32_t *right, size_t count) {
    if (post == 0)
        printf("%-16s", name);
    else
        printf("%-14s%zu ", name, post);
    for (int side = 0; side < 2; side++) {
        int width = 0;
        for (size_t i = 0; i < count; i++)
            width += printf(" %u", (side == 0 ? left : right)[i]);
        printf(side == 0 ? "%*s |" : "\n", side == 0 ? 56 - width : 0, "");
    }
}

int main(void) {
    /* Check points and draws are small here, so that the eye can follow. Real ones are drawn at random. */
    const uint32_t check_points[MOST][MOST * N] = {{3, 5, 7, 5, 2}, {3, 4, 5, 6, 7, 8, 5, 9, 2, 11}};
    const uint32_t draws[MOST][DRAW] = {
        {7, 4, 9, 1, 2, 8, 3, 1, 6, 5, 6, 2, 4, 3, 5, 9, 8, 1},
        {7, 4, 9, 1, 2, 8, 5, 3, 3, 1, 6, 2, 7, 5, 6, 2, 1, 4, 4, 3, 5, 8, 6, 9, 8, 1, 7, 2}};
    for (size_t points = 1; points <= MOST; points++) {
        const uint32_t *own = check_points[points - 1], *draw = draws[points - 1];
        size_t length = GANTSOROL_ROW_DRAW_LEN(N, T, points), k = GANTSOROL_MESSAGE_LEN(T, points);
        uint32_t other[DRAW];
        if (refused("other draw", gantsorol_other_draw(N, T, points, own, points * N, draw, length, SECRET, WANTED, stolen, STOLEN,
                                                       other, length)) ||
            share(points, own, draw, SECRET, &runs[0]) || share(points, own, other, WANTED, &runs[1]))
            return 1;
        printf("%zu check point%s a post, posts 2 and 4 stolen\n", points, points == 1 ? "" : "s");
        printf("%-16s %-55s | %s\n", "", "the draw", "the other draw");
        print("f", 0, draw, other, T + 1);
        for (size_t j = 1; j <= N; j++)
            print("v of post", j, draw + T + 1 + (j - 1) * k, other + T + 1 + (j - 1) * k, k);
        printf("%-16s %-55s | %s\n", "", "what is seen", "what is seen");
        print("c", 0, &runs[0].c, &runs[1].c, 1);
        for (size_t i = 0; i < STOLEN; i++) {
            const uint32_t *left = runs[0].rows[stolen[i] - 1], *right = runs[1].rows[stolen[i] - 1];
            print("own v, post", stolen[i], left, right, k);
            print("checks, post", stolen[i], left + k, right + k, points * N);
            print("sums, post", stolen[i], left + k + points * N, right + k + points * N, N);
        }
        print("opens to", 0, &runs[0].opened, &runs[1].opened, 1);
        printf("\n");
    }

    /* A third post would know: no other draw shows three posts the same. */
    const uint32_t three[] = {2, 3, 4};
    uint32_t other[DRAW];
    uint8_t refusal = gantsorol_other_draw(N, T, 1, check_points[0], N, draws[0], GANTSOROL_ROW_DRAW_LEN(N, T, 1), SECRET, WANTED,
                                           three, 3, other, GANTSOROL_ROW_DRAW_LEN(N, T, 1));
    printf("three posts: refusal %d\n", refusal);
    return 0;
}
