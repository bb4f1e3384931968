/* What the parts of calls.c share: three posts with one check point each, and how a list is printed. */
#include <stdio.h>
#include <string.h>

#include "gantsorol.h"

enum { N = 3, T = 1, POINTS = 1, ROW = GANTSOROL_ROW_LEN(N, T, POINTS), BLOCK = GANTSOROL_BLOCK_LEN(T, POINTS) };
enum { ALL = GANTSOROL_ROWS_LEN(N, T, POINTS), MASKS = GANTSOROL_MASKS_LEN(T, POINTS), RECORD = GANTSOROL_RECORD_LEN(N, T, POINTS) };

static void print(const char *what, const uint32_t *list, size_t len) {
    printf("%s:", what);
    for (size_t i = 0; i < len; i++)
        printf(" %u", list[i]);
    printf("\n");
}

static gantsorol_session posts[N];
static uint32_t rows[N][ALL];

static uint32_t keep(int i, gantsorol_answer answer) {
    if (answer.refusal != 0)
        printf("post %d refuses: %d\n", i + 1, answer.refusal);
    posts[i] = answer.session;
    return answer.value;
}

/* What a post sent, into its block of a record. */
static void put(uint32_t *record, int i, const uint32_t *message) {
    uint8_t refusal = gantsorol_record_put(N, T, POINTS, record, RECORD, i + 1, message, T + 1);
    if (refusal != 0)
        printf("no block for post %d: %d\n", i + 1, refusal);
}
