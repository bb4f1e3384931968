/* Who may call, dealers, lines and a pack file. */
/* Who may call: the sets of rows that were dealt, summed, multiplied, related and loaded; and callers outside them. */
static void callers(void) {
    const size_t of[] = {0, 1, 95, 2, 92, 90, 50};
    uint32_t message[T + 1];
    for (size_t i = 0; i < sizeof of / sizeof *of; i++) {
        printf("row %zu is barred to %u, may be called for by", of[i], posts[1].barred[GANTSOROL_SET_LEN * of[i]]);
        for (size_t post = 0; post <= N + 1; post++)
            printf(" %d", gantsorol_may_call(N, posts[1].barred, of[i], post));
        printf("\n");
    }
    /* Refused: posts outside the set of row 95, the own post among them; a held row, a line without its second comma, numbers
       that do not rise, a post outside 1 to n, no line. */
    const size_t outside[] = {0, 2, 4, 257};
    for (size_t i = 0; i < sizeof outside / sizeof *outside; i++)
        keep(1, gantsorol_opening_message(posts[1], rows[1], ALL, 95, outside[i], message, T + 1));
    const char *const lines[] = {"A,0,1\n", "A,0\n", "A,50,3,1\n", "A,50,4\n", ""};
    for (size_t i = 0; i < sizeof lines / sizeof *lines; i++)
        keep(1, gantsorol_access(posts[1], (const uint8_t *)lines[i], strlen(lines[i])));
    printf("%d %d\n", gantsorol_may_call(N, posts[1].barred, GANTSOROL_ROWS, 1), gantsorol_may_call(999, posts[1].barred, 0, 256));
}

/* Dealers 8 and 3 send for a raw row, dealer 5 sends no deal; turns take the three, and then there is no line. */
static void turns(void) {
    uint8_t state[GANTSOROL_DEALERS_LEN];
    const uint32_t pack[ROW] = {1, 2, 5, 5, 17, 12, 18, 24};
    const char *const lines[] = {"D,60,2147483640\n", "D,60,93\n", "O,60,1,1,1\n", "D,95,2147483646\n\n", ""};
    const size_t dealers[] = {8, 3, 5, 1, 1, 3, 0, 9};
    printf("state %d %d\n", gantsorol_new_state(state, sizeof state), gantsorol_new_state(NULL, 0));
    keep(0, gantsorol_load_row(posts[0], rows[0], ALL, 60, pack, ROW));
    printf("place");
    for (size_t i = 0; i < sizeof dealers / sizeof *dealers; i++) {
        const char *line = lines[i < 5 ? i : 0];
        printf(" %d", gantsorol_place(state, sizeof state, dealers[i], (const uint8_t *)line, strlen(line)));
    }
    printf(" %d\n", gantsorol_place(state, 136, 1, NULL, 0));
    for (int i = 0; i < 4; i++) {
        keep(0, gantsorol_turn(posts[0], rows[0], ALL, state, sizeof state));
        printf("dealer %d was served, waiting %d %d %d, mark %d\n", state[0], state[35], state[69], state[120],
               posts[0].marks[60]);
    }
    print("row", rows[0] + 60 * ROW, ROW);
    /* Refused before a line is taken: no rows, a place of 17 bytes. */
    gantsorol_place(state, sizeof state, 1, (const uint8_t *)"x", 1);
    keep(0, gantsorol_turn(posts[0], NULL, 0, state, sizeof state));
    state[18] = 17;
    keep(0, gantsorol_turn(posts[0], rows[0], ALL, state, sizeof state));
    printf("waiting %d\n", state[1]);
}

static void write_lines(void) {
    uint8_t text[GANTSOROL_LONGEST_LINE];
    const uint32_t two[] = {3, 1}, four[] = {1, 0, 2147483646, 4};
    uint32_t out[GANTSOROL_LINE_LIST_LEN(T, POINTS)];
    gantsorol_written written = gantsorol_write_deal(N, T, 0, 93, text, sizeof text);
    printf("%d %zu %.*s", written.refusal, written.len, (int)written.len, (const char *)text);
    gantsorol_line line = gantsorol_read(N, T, POINTS, text, written.len, out, 4);
    printf("%d %c %zu %zu\n", line.refusal, line.letter, line.row, line.post);
    print("numbers", out, 4);
    written = gantsorol_write_opening(N, T, POINTS, 95, 2, two, 2, text, sizeof text);
    printf("%d %zu %.*s", written.refusal, written.len, (int)written.len, (const char *)text);
    line = gantsorol_read(N, T, POINTS, text, written.len, out, 4);
    printf("%d %c %zu %zu\n", line.refusal, line.letter, line.row, line.post);
    print("numbers", out, 4);
    written = gantsorol_write_masks(N, T, POINTS, 93, 3, four, 4, text, sizeof text);
    printf("%d %zu %.*s", written.refusal, written.len, (int)written.len, (const char *)text);
    line = gantsorol_read(N, T, POINTS, text, written.len, out, 4);
    printf("%d %c %zu %zu\n", line.refusal, line.letter, line.row, line.post);
    print("numbers", out, 4);
    line = gantsorol_read(N, T, POINTS, (const uint8_t *)"D,0,093\n", 8, out, 4);
    printf("%d %d %zu %zu\n", line.refusal, line.letter, line.row, line.post);
}

/* A post's file, of a raw row and a triple, and a list one byte too short for it. */
static void pack_file(const uint32_t *check_points, const uint32_t *row, const uint32_t *triple) {
    enum { DRAW = GANTSOROL_ROW_DRAW_LEN(N, T, POINTS), TRIPLE = GANTSOROL_TRIPLE_DRAW_LEN(N, T, POINTS) };
    enum { DRAWS = DRAW + TRIPLE };
    const uint8_t kinds[GANTSOROL_ROWS] = {1, 0, 0, 3};
    uint32_t draws[DRAWS];
    memcpy(draws, row, DRAW * sizeof *row);
    memcpy(draws + DRAW, triple, TRIPLE * sizeof *triple);
    uint8_t file[256];
    gantsorol_written written = gantsorol_write_pack(N, T, 2, POINTS, check_points, POINTS * N, kinds, GANTSOROL_ROWS,
                                                     draws, DRAWS, file, sizeof file);
    printf("file %d %zu\n%.*s", written.refusal, written.len, (int)written.len, (const char *)file);
    written = gantsorol_write_pack(N, T, 2, POINTS, check_points, POINTS * N, kinds, GANTSOROL_ROWS, draws, DRAWS, file,
                                   written.len - 1);
    printf("file %d %zu\n", written.refusal, written.len);
}
