/* Three posts hold 6 and 7; they bring out the product and show neither factor. */
#include "posts.h"

enum { MASKS = GANTSOROL_MASKS_LEN(T, POINTS) };

/* The post that calls for the product. */
enum { CALLER = 1 };

/* Where the posts keep the factors and the triple; the product takes the triple's third row. */
enum { A = 0, B = 1, TRIPLE = 2, PRODUCT = TRIPLE + 2 };

int main(void) {
    /* Real draws are random: any numbers do here. */
    const uint32_t a[] = {7, 4, 1, 2, 3, 1, 5, 6}, b[] = {1, 9, 8, 2, 4, 4, 6, 3};
    const uint32_t triple[] = {2, 3, 7, 1, 8, 2, 8, 1, 5, 8, 2, 8, 4, 5, 9, 0, 4, 5, 2, 3, 5, 3, 6};
    uint32_t masks[MASKS], record_a[RECORD] = {0}, record_b[RECORD] = {0}, opening[RECORD] = {0}, message[MESSAGE];
    start();
    share(A, 6, a);
    share(B, 7, b);
    load_triple(TRIPLE, triple);

    /* Each post sends its masks; what all have heard are two records. Until enough are there, collect gets 9. */
    for (int i = 0; i < N; i++) {
        keep(i, gantsorol_masks(posts[i], rows[i], ALL, A, B, TRIPLE, masks, MASKS));
        if (i == 0)
            keep(i, gantsorol_collect(posts[i], rows[i], ALL, TRIPLE, record_a, RECORD, record_b, RECORD));
        hear(record_a, i, masks);
        hear(record_b, i, masks + MESSAGE);
    }

    /* Each post collects the masks and multiplies by itself, and has its part of the product, which is opened like any held number. */
    for (int i = 0; i < N; i++) {
        keep(i, gantsorol_collect(posts[i], rows[i], ALL, TRIPLE, record_a, RECORD, record_b, RECORD));
        keep(i, gantsorol_multiply(posts[i], rows[i], ALL, TRIPLE));
        keep(i, gantsorol_opening_message(posts[i], rows[i], ALL, PRODUCT, CALLER, message, MESSAGE));
        hear(opening, i, message);
    }
    for (int i = 0; i < N; i++)
        printf("post %d: 6 x 7 = %u\n", i + 1,
               keep(i, gantsorol_open(posts[i], rows[i], ALL, PRODUCT, opening, RECORD)));
    return 0;
}
