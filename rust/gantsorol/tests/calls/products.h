/* The calls of a product and of a relation. */
/* Rows 0 and 1, which hold 100 and 300, multiplied with the triple at row 93, and the product opened. */
static void multiply(void) {
    uint32_t masks[N * MASKS], record_a[RECORD], record_b[RECORD], record[RECORD], message[T + 1], none[RECORD] = {0};
    for (int i = 0; i < N; i++)
        keep(i, gantsorol_masks(posts[i], rows[i], ALL, 0, 1, 93, masks + i * MASKS, MASKS));
    print("masks", masks, N * MASKS);
    printf("marks %d %d %d, of rows %d and %d\n", posts[0].marks[93], posts[0].marks[94], posts[0].marks[95],
           posts[0].factor_a[93], posts[0].factor_b[93]);
    for (int i = 0; i < N; i++) {
        put(record_a, i, masks + i * MASKS);
        put(record_b, i, masks + i * MASKS + T + 1);
    }

    /* Refused: one triple for two products, one block only, p, no records, rows above 93, an empty triple, nothing collected. */
    keep(0, gantsorol_masks(posts[0], rows[0], ALL, 0, 1, 93, masks, MASKS));
    keep(0, gantsorol_collect(posts[0], rows[0], ALL, 93, record_a, RECORD, none, RECORD));
    keep(0, gantsorol_collect(posts[0], rows[0], ALL, 93, none, RECORD, record_b, RECORD));
    uint32_t true_one = record_b[BLOCK + 1];
    record_b[BLOCK + 1] = GANTSOROL_MODULUS;
    keep(0, gantsorol_collect(posts[0], rows[0], ALL, 93, record_a, RECORD, record_b, RECORD));
    record_b[BLOCK + 1] = true_one;
    keep(0, gantsorol_collect(posts[0], rows[0], ALL, 93, NULL, 0, NULL, 0));
    keep(0, gantsorol_collect(posts[0], rows[0], ALL, 94, record_a, RECORD, record_b, RECORD));
    keep(0, gantsorol_collect(posts[0], rows[0], ALL, 92, record_a, RECORD, record_b, RECORD));
    keep(0, gantsorol_multiply(posts[0], rows[0], ALL, 93));

    /* A false polynomial for b - l' from post 2 is not accepted where another post is there. */
    record_b[BLOCK + 1]++;
    keep(0, gantsorol_collect(posts[0], rows[0], ALL, 93, record_a, RECORD, record_b, RECORD));
    record_b[BLOCK + 1]--;
    for (int i = 1; i < N; i++)
        keep(i, gantsorol_collect(posts[i], rows[i], ALL, 93, record_a, RECORD, record_b, RECORD));
    printf("marks %d %d %d, numbers %u and %u\n", posts[0].marks[93], posts[0].marks[94], posts[0].marks[95],
           posts[0].y_a[93], posts[0].y_b[93]);

    /* Refused: collected once more, rows above 93, no rows, a remembered number of p. */
    keep(0, gantsorol_collect(posts[0], rows[0], ALL, 93, record_a, RECORD, record_b, RECORD));
    keep(0, gantsorol_multiply(posts[0], rows[0], ALL, 94));
    keep(0, gantsorol_multiply(posts[0], NULL, 0, 93));
    uint32_t number = posts[0].y_b[93];
    posts[0].y_b[93] = GANTSOROL_MODULUS;
    keep(0, gantsorol_multiply(posts[0], rows[0], ALL, 93));
    posts[0].y_b[93] = number;
    for (int i = 0; i < N; i++) {
        keep(i, gantsorol_multiply(posts[i], rows[i], ALL, 93));
        print("product", rows[i] + 95 * ROW, ROW);
        keep(i, gantsorol_opening_message(posts[i], rows[i], ALL, 95, 3, message, T + 1));
        put(record, i, message);
    }
    for (int i = 0; i < N; i++)
        printf("post %d opens %u\n", i + 1, keep(i, gantsorol_open(posts[i], rows[i], ALL, 95, record, RECORD)));
    printf("marks %d %d %d, of rows %d and %d, numbers %u and %u\n", posts[2].marks[93], posts[2].marks[94],
           posts[2].marks[95], posts[2].factor_a[93], posts[2].factor_b[93], posts[2].y_a[93], posts[2].y_b[93]);
    keep(0, gantsorol_collect(posts[0], rows[0], ALL, 93, record_a, RECORD, record_b, RECORD));
    keep(0, gantsorol_multiply(posts[0], rows[0], ALL, 93));
}

/* Twice the product of rows 0 and 1, with the triple at row 90, less the product in row 95, and 3 times row 0: 31100. */
static void relate(void) {
    const uint32_t minus = GANTSOROL_MODULUS - 1;
    gantsorol_term terms[] = {{2, 0, 1, 90}, {minus, 95, GANTSOROL_NO_ROW, 0}, {3, 0, GANTSOROL_NO_ROW, 255}};
    enum { TERMS = sizeof terms / sizeof *terms, RECORDS = GANTSOROL_RELATION_RECORDS_LEN(N, T, POINTS, 1), MANY = 33 };
    uint32_t masks[MASKS], records[RECORDS] = {0}, record[RECORD], message[T + 1];
    gantsorol_term many[MANY];
    for (int i = 0; i < N; i++) {
        keep(i, gantsorol_relation_masks(posts[i], rows[i], ALL, terms, TERMS, masks, MASKS));
        print("masks", masks, MASKS);
        put(records, i, masks);
        put(records + RECORD, i, masks + T + 1);
    }
    printf("marks %d %d %d, of rows %d and %d\n", posts[0].marks[90], posts[0].marks[91], posts[0].marks[92],
           posts[0].factor_a[90], posts[0].factor_b[90]);

    /* Refused: no terms, too many, lists of another length, a used triple, rows, p, one post alone. */
    for (int i = 0; i < MANY; i++)
        many[i] = terms[2];
    keep(0, gantsorol_relation_masks(posts[0], rows[0], ALL, NULL, 0, NULL, 0));
    keep(0, gantsorol_relation_finish(posts[0], rows[0], ALL, many, MANY, 2, NULL, 0));
    keep(0, gantsorol_relation_finish(posts[0], rows[0], ALL, many, MANY, 2, records, RECORDS));
    keep(0, gantsorol_relation_masks(posts[0], rows[0], ALL, terms, TERMS, masks, MASKS));
    keep(0, gantsorol_relation_finish(posts[0], rows[0], ALL, terms, TERMS, 2, records, RECORD));
    keep(0, gantsorol_relation_finish(posts[0], rows[0], ALL, terms, TERMS, 96, records, RECORDS));
    keep(0, gantsorol_relation_finish(posts[0], rows[0], ALL, terms, TERMS, 0, records, RECORDS));
    terms[0].row = 1;
    keep(0, gantsorol_relation_finish(posts[0], rows[0], ALL, terms, TERMS, 2, records, RECORDS));
    terms[0].row = 0;
    terms[2].coefficient = GANTSOROL_MODULUS;
    keep(0, gantsorol_relation_finish(posts[0], rows[0], ALL, terms, TERMS, 2, records, RECORDS));
    terms[2].coefficient = 3;
    for (int i = 1; i < N; i++)
        gantsorol_record_remove(N, T, POINTS, records + RECORD, RECORD, i + 1);
    keep(0, gantsorol_relation_finish(posts[0], rows[0], ALL, terms, TERMS, 2, records, RECORDS));
    put(records + RECORD, N - 1, masks + T + 1);

    for (int i = 0; i < N; i++) {
        keep(i, gantsorol_relation_finish(posts[i], rows[i], ALL, terms, TERMS, 2, records, RECORDS));
        print("sum", rows[i] + 2 * ROW, ROW);
        keep(i, gantsorol_opening_message(posts[i], rows[i], ALL, 2, 1, message, T + 1));
        put(record, i, message);
    }
    for (int i = 0; i < N; i++)
        printf("post %d opens %u\n", i + 1, keep(i, gantsorol_open(posts[i], rows[i], ALL, 2, record, RECORD)));
    printf("marks %d %d %d %d\n", posts[2].marks[2], posts[2].marks[90], posts[2].marks[91], posts[2].marks[92]);
}
