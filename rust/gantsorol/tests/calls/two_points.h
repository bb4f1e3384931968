/* Two check points a post, and the draw behind another secret. */
/* Two check points a post: f = 7 + 4z, v1 = 1 + 2z + z^2, v2 = 3 + z + 2z^2, v3 = 5 + 6z + 3z^2. Post 1 opens what it was
   loaded with, with post 2's polynomial, with one that passes only at 2, and with one that passes at 2 and 4. */
static void two_points(void) {
    enum { TWO = 2, WIDE = GANTSOROL_ROW_LEN(N, T, TWO), DRAW = GANTSOROL_ROW_DRAW_LEN(N, T, TWO) };
    enum { SENT = GANTSOROL_MESSAGE_LEN(T, TWO), HEARD = GANTSOROL_RECORD_LEN(N, T, TWO), ROWS = 96 * WIDE };
    const uint32_t ws[TWO * N] = {2, 4, 3, 5, 5, 7}, draw[DRAW] = {7, 4, 1, 2, 1, 3, 1, 2, 5, 6, 3};
    const uint32_t sent[3][SENT] = {{3, 1, 2}, {9, 2, 0}, {11, GANTSOROL_MODULUS - 5, 3}};
    const uint8_t kinds[GANTSOROL_ROWS] = {1};
    static uint32_t all[ROWS];
    uint32_t packs[N * WIDE], record[HEARD] = {0};
    uint8_t file[GANTSOROL_PACK_FILE_LEN(N, T, TWO, 1, 0)];
    printf("row %d\n", gantsorol_factory_row(N, T, TWO, ws, TWO * N, draw, DRAW, packs, N * WIDE));
    print("packs", packs, N * WIDE);
    gantsorol_written written =
        gantsorol_write_pack(N, T, 1, TWO, ws, TWO * N, kinds, GANTSOROL_ROWS, draw, DRAW, file, sizeof file);
    printf("file %d %zu\n%.*s", written.refusal, written.len, (int)written.len, (const char *)file);
    keep(0, gantsorol_new(N, T, 1, TWO, ws[0], ws[1]));
    keep(0, gantsorol_load_row(posts[0], all, ROWS, 0, packs, WIDE));
    keep(0, gantsorol_deal(posts[0], all, ROWS, 0, 93));
    for (int i = 0; i < 3; i++) {
        gantsorol_record_put(N, T, TWO, record, HEARD, 2, sent[i], SENT);
        printf("post 1 opens %u\n", keep(0, gantsorol_open(posts[0], all, ROWS, 0, record, HEARD)));
    }
    /* Refused: no point, three, a second of 0 and of p. With one point the second is not looked at, and is 0 in the session. */
    printf("new %d %d %d %d\n", gantsorol_new(N, T, 1, 0, 2, 4).refusal, gantsorol_new(N, T, 1, 3, 2, 4).refusal,
           gantsorol_new(N, T, 1, TWO, 2, 0).refusal, gantsorol_new(N, T, 1, TWO, 2, GANTSOROL_MODULUS).refusal);
    gantsorol_answer one = gantsorol_new(N, T, 1, 1, 2, GANTSOROL_MODULUS);
    printf("one %d %zu %u %u\n", one.refusal, one.session.points, one.session.first, one.session.second);
}

/* The draw behind 42 in place of 100, with post 3 listed and with nobody; the draw itself for all posts; refused: a post twice, and
   more than t. Then with two points a post. */
static void other_draw(const uint32_t *check_points, const uint32_t *draw) {
    enum { DRAW = GANTSOROL_ROW_DRAW_LEN(N, T, POINTS), TWO = 2, WIDE = GANTSOROL_ROW_DRAW_LEN(N, T, TWO) };
    const uint32_t listed[N] = {1, 2, 3}, twice[TWO] = {2, 2};
    const uint32_t ws[TWO * N] = {2, 3, 5, 7, 11, 13}, wide[WIDE] = {7, 10, 1, 2, 8, 3, 9, 4, 5, 11, 0};
    uint32_t out[DRAW], other[WIDE];
    printf("other %d\n", gantsorol_other_draw(N, T, 1, check_points, N, draw, DRAW, 100, 42, listed + 2, 1, out, DRAW));
    print("draw", out, DRAW);
    printf("other %d\n", gantsorol_other_draw(N, T, 1, check_points, N, draw, DRAW, 100, 42, NULL, 0, out, DRAW));
    print("draw", out, DRAW);
    printf("other %d\n", gantsorol_other_draw(N, T, 1, check_points, N, draw, DRAW, 100, 100, listed, N, out, DRAW));
    print("draw", out, DRAW);
    printf("other %d %d\n", gantsorol_other_draw(N, T, 1, check_points, N, draw, DRAW, 100, 42, twice, TWO, out, DRAW),
           gantsorol_other_draw(N, T, 1, check_points, N, draw, DRAW, 100, 42, listed, TWO, out, DRAW));
    printf("other %d\n", gantsorol_other_draw(N, T, TWO, ws, TWO * N, wide, WIDE, 100, 106, listed, 1, other, WIDE));
    print("draw", other, WIDE);
}
