/* A firm shows that its fee is its rides x its rate. Three posts hold the three numbers, and bring out none of them: only
   rides x rate - fee, which is 0. Another fee, of one more, is told apart. */
#include "posts.h"

enum { RECORDS = GANTSOROL_RELATION_RECORDS_LEN(N, T, POINTS, 1), MASKS = GANTSOROL_RELATION_MASKS_LEN(T, POINTS, 1) };
enum { MINUS_ONE = GANTSOROL_MODULUS - 1 };
/* The post that calls for the sums. */
enum { CALLER = 1 };

/* Where the posts keep the numbers and two triples, and where the sums go. */
enum { RIDES = 0, RATE = 1, FEE = 2, OTHER_FEE = 3, TRIPLE = 4, OTHER_TRIPLE = 7, SUM = 10, OTHER_SUM = 11 };

/* The sum of two terms, the first of them a product: masks, finish, and the sum's row opened. */
static uint32_t relate(const gantsorol_term terms[2], size_t sum) {
    uint32_t masks[MASKS], records[RECORDS] = {0}, opening[RECORD] = {0}, message[MESSAGE], value = 0;
    for (int i = 0; i < N; i++) {
        keep(i, gantsorol_relation_masks(posts[i], rows[i], ALL, terms, 2, masks, MASKS));
        hear(records, i, masks);
        hear(records + RECORD, i, masks + MESSAGE);
    }
    for (int i = 0; i < N; i++) {
        keep(i, gantsorol_relation_finish(posts[i], rows[i], ALL, terms, 2, sum, records, RECORDS));
        keep(i, gantsorol_opening_message(posts[i], rows[i], ALL, sum, CALLER, message, MESSAGE));
        hear(opening, i, message);
    }
    for (int i = 0; i < N; i++)
        value = keep(i, gantsorol_open(posts[i], rows[i], ALL, sum, opening, RECORD));
    return value;
}

int main(void) {
    /* Real draws are random: any numbers do here. */
    const uint32_t rides[] = {7, 4, 1, 2, 3, 1, 5, 6}, rate[] = {1, 9, 8, 2, 4, 4, 6, 3};
    const uint32_t fee[] = {5, 2, 3, 5, 3, 6, 0, 2}, other[] = {8, 7, 4, 7, 1, 3, 5, 2};
    const uint32_t one[] = {2, 3, 7, 1, 8, 2, 8, 1, 5, 8, 2, 8, 4, 5, 9, 0, 4, 5, 2, 3, 5, 3, 6};
    const uint32_t two[] = {1, 4, 1, 4, 2, 1, 3, 5, 6, 2, 3, 7, 3, 0, 9, 5, 0, 4, 8, 8, 0, 1, 6};
    const gantsorol_term terms[] = {{1, RIDES, RATE, TRIPLE}, {MINUS_ONE, FEE, GANTSOROL_NO_ROW, 0}};
    const gantsorol_term others[] = {{1, RIDES, RATE, OTHER_TRIPLE}, {MINUS_ONE, OTHER_FEE, GANTSOROL_NO_ROW, 0}};
    start();
    share(RIDES, 6, rides);
    share(RATE, 7, rate);
    share(FEE, 42, fee);
    share(OTHER_FEE, 43, other);
    load_triple(TRIPLE, one);
    load_triple(OTHER_TRIPLE, two);

    printf("the fee is rides x rate: %s\n", relate(terms, SUM) == 0 ? "shown" : "not so");
    printf("the other fee is rides x rate: %s\n", relate(others, OTHER_SUM) == 0 ? "shown" : "not so");

    /* A triple serves once: masks for a second use of it are refused. */
    uint32_t masks[MASKS];
    keep(0, gantsorol_relation_masks(posts[0], rows[0], ALL, terms, 2, masks, MASKS));
    return 0;
}
