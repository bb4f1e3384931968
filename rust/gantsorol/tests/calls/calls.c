/* Every call of the library once from C, and the layout of every struct: what tests/from_c.rs expects to be printed. */
#include "station.h"

#include "layout.h"
#include "lists.h"
#include "products.h"
#include "two_points.h"

int main(void) {
    layout();

    const uint32_t check_points[N] = {2, 3, 5}, draw[GANTSOROL_ROW_DRAW_LEN(N, T, POINTS)] = {7, 4, 1, 2, 3, 1, 5, 6};
    uint32_t packs[N * ROW], triple[GANTSOROL_TRIPLE_DRAW_LEN(N, T, POINTS)], triples[3 * N * ROW];
    printf("row %d\n", gantsorol_factory_row(N, T, POINTS, check_points, POINTS * N, draw, 8, packs, N * ROW));
    print("packs", packs, N * ROW);
    for (int i = 0; i < 23; i++)
        triple[i] = (uint32_t)i + 2;
    printf("triple %d\n", gantsorol_factory_triple(N, T, 1, check_points, N, triple, 23, triples, 3 * N * ROW));
    print("triples", triples, 3 * N * ROW);
    gantsorol_number c = gantsorol_dealer_number(100, draw[0]), bad = gantsorol_dealer_number(GANTSOROL_MODULUS, 0);
    printf("c %d %u, %d %u\n", c.refusal, c.value, bad.refusal, bad.value);
    pack_file(check_points, draw, triple);

    uint32_t record[RECORD], message[T + 1];
    for (int i = 0; i < N; i++) {
        uint32_t three[3 * ROW];
        for (int of = 0; of < 3; of++)
            memcpy(three + of * ROW, triples + (of * N + i) * ROW, ROW * sizeof *three);
        keep(i, gantsorol_new(N, T, i + 1, POINTS, check_points[i], 0));
        keep(i, gantsorol_load_row(posts[i], rows[i], ALL, 0, packs + i * ROW, ROW));
        keep(i, gantsorol_load_triple(posts[i], rows[i], ALL, 93, three, 3 * ROW));
        keep(i, gantsorol_load_triple(posts[i], rows[i], ALL, 90, three, 3 * ROW));
        /* Posts 1 and 3 may call for row 0, and for what is made from it alone. */
        keep(i, gantsorol_access(posts[i], (const uint8_t *)"A,0,1,3\n", 8));
        keep(i, gantsorol_deal(posts[i], rows[i], ALL, 0, c.value));
        keep(i, gantsorol_linear(posts[i], rows[i], ALL, 1, 0, 0, 2, 8));
        keep(i, gantsorol_opening_message(posts[i], rows[i], ALL, 1, 1, message, T + 1));
        put(record, i, message);
    }
    print("record", record, RECORD);
    for (int i = 0; i < N; i++)
        printf("post %d opens %u\n", i + 1, keep(i, gantsorol_open(posts[i], rows[i], ALL, 1, record, RECORD)));
    printf("marks %d %d %d %d %d\n", posts[2].marks[0], posts[2].marks[1], posts[2].marks[93], posts[2].marks[94],
           posts[2].marks[95]);
    multiply();
    relate();
    callers();
    turns();

    /* Refused: t posts alone, empty lists, and a new session that has 0 in every field. */
    for (int i = 1; i < N; i++)
        printf("removed %d\n", gantsorol_record_remove(N, T, POINTS, record, RECORD, i + 1));
    print("record", record, RECORD);
    printf("no block: %d %d\n", gantsorol_record_put(N, T, POINTS, record, RECORD, 2, NULL, 0),
           gantsorol_record_remove(N, T, POINTS, NULL, 0, 2));
    keep(0, gantsorol_open(posts[0], rows[0], ALL, 1, record, RECORD));
    keep(0, gantsorol_open(posts[0], NULL, 0, 1, NULL, 0));
    keep(0, gantsorol_deal(posts[0], NULL, 0, 1, 0));
    gantsorol_answer none = gantsorol_new(GANTSOROL_MAX_POSTS + 1, T, 1, POINTS, 2, 0);
    gantsorol_session zero = {0};
    printf("none %d %u %d\n", none.refusal, none.value, memcmp(none.session.marks, zero.marks, sizeof zero.marks));
    write_lines();
    two_points();
    other_draw(check_points, draw);
    return 0;
}
