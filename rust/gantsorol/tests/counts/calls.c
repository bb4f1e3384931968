/* A fixed list of calls at one post, on secrets drawn from a seed: `calls N T POINTS FIRST COUNT` makes it for COUNT seeds from
 * FIRST on.
 *
 * Fixed are n, t and the number of check points, the post, the rows, who is heard and accepted, and every refusal; check points, draws and dealt numbers come from
 * the seed (of the draw behind another secret, which is run at the works, the check points are fixed). What the other posts send is reckoned here, so that each call of the library is one of the list. Numbers that become text
 * have ten digits, so that the text's length is fixed too; with -DANY_DIGITS they are any. With -DBRANCHING the masks are made once
 * more, by a function that branches on coefficients. */
#include "drawn.h"

/* The post's part of a row that was drawn. */
static uint32_t *part(size_t row) { return packs[row] + (POST - 1) * row_len; }

static void load_and_deal(void) {
    uint32_t pack[3 * GANTSOROL_ROW_LEN(MOST, MOST, GANTSOROL_MAX_POINTS)];
    memset(rows, 0, sizeof rows);
    keep(gantsorol_new(n, t, POST, points, own_points()[0], own_points()[points - 1]), 0, 0, "new");
    for (size_t row = A; row <= B; row++) {
        keep(gantsorol_load_row(session, rows, rows_len, row, part(row), row_len), 0, 0, "load row");
        /* Who may call for a row is no secret. */
        char access[] = {'A', ',', (char)('0' + row), ',', '1', ',', '0' + POST, ',', '3', '\n'};
        keep(gantsorol_access(session, (const uint8_t *)access, sizeof access), 0, 0, "access");
        /* Masks are opened, so whether one opens to 0 is fixed too. */
        do
            numbers[row] = drawn(0);
        while (numbers[row] == polynomials[FIRST + row][0] || numbers[row] == polynomials[SECOND + row][0]);
        gantsorol_number c = gantsorol_dealer_number(numbers[row], polynomials[row][0]);
        must(c.refusal == 0, "dealer's number");
        keep(gantsorol_deal(session, rows, rows_len, row, c.value), 0, 0, "deal");
    }
    for (size_t first = FIRST; first <= SECOND; first += 3) {
        for (size_t i = 0; i < 3; i++)
            memcpy(pack + i * row_len, part(first + i), row_len * sizeof *pack);
        keep(gantsorol_load_triple(session, rows, rows_len, first, pack, 3 * row_len), 0, 0, "load triple");
    }
    /* Refused, each behind the others: a length, a mark, a number of p or more in the last place. */
    keep(gantsorol_deal(session, rows, rows_len - 1, A, 1), 5, 0, "deal, 5");
    keep(gantsorol_load_row(session, rows, rows_len, A, part(B), row_len), 7, 0, "load row, 7");
    keep(gantsorol_access(session, (const uint8_t *)"A,0,1\n", 6), 7, 0, "access, 7");
    memcpy(pack, part(B), row_len * sizeof *pack);
    pack[row_len - 1] = P;
    keep(gantsorol_load_row(session, rows, rows_len, EMPTY, pack, row_len), 8, 0, "load row, 8");
}

static void open_row(size_t row, uint32_t opened) {
    uint32_t message[MESSAGE], record[GANTSOROL_RECORD_LEN(MOST, MOST, GANTSOROL_MAX_POINTS)];
    keep(gantsorol_opening_message(session, rows, rows_len, row, POST, message, k), 0, 0, "opening message");
    keep(gantsorol_opening_message(session, rows, rows_len, row, n + 1, message, k), 15, 0, "opening message, 15");
    must(memcmp(message, polynomial(row, POST), k * sizeof *message) == 0, "the message is the post's polynomial");
    hear(row, 1, n, record);
    keep(gantsorol_open(session, rows, rows_len, row, record, record_len), 0, opened, "open");
}

/* The last post's polynomial is not its own, and enough others are there. */
static void open_forged(uint32_t *record) {
    uint32_t *last = record + (n - 1) * block + 1, *own = own_points(), s = drawn(1);
    const uint32_t *sent = polynomial(A, n);
    hear(A, 1, n, record);
    last[0] = plus(last[0], 1, 1);
    keep(gantsorol_open(session, rows, rows_len, A, record, record_len), 0, numbers[A], "open, one false");
    /* With a multiple of z - w it passes at w: where that is the one point there is, it disagrees; where there is another, that
       refuses it. */
    for (size_t i = 0; i < points; i++) {
        last[0] = plus(sent[0], P - s, own[i]);
        last[1] = plus(sent[1], 1, s);
        keep(gantsorol_open(session, rows, rows_len, A, record, record_len), points == 1 ? 13 : 0, points == 1 ? 0 : numbers[A],
             "open, one value false");
    }
    if (points == 1)
        return;
    /* It passes at both, with a multiple of (z - w)(z - x), and disagrees. */
    last[0] = plus(sent[0], s, plus(0, own[0], own[1]));
    last[1] = plus(sent[1], P - s, plus(own[0], 1, own[1]));
    last[2] = plus(sent[2], 1, s);
    keep(gantsorol_open(session, rows, rows_len, A, record, record_len), 13, 0, "open, 13");
}

/* Openings of A in which not all is well. */
static void open_otherwise(void) {
    static uint32_t record[GANTSOROL_RECORD_LEN(MOST, MOST, GANTSOROL_MAX_POINTS)];
    /* The last t+1, beside the post itself. */
    hear(A, n - t, n, record);
    keep(gantsorol_open(session, rows, rows_len, A, record, record_len), 0, numbers[A], "open, few there");
    if (t + 1 < n)
        open_forged(record);
    /* Too few: the post itself, and where t is more than 1 some others. */
    hear(A, 1, t - 1, record);
    keep(gantsorol_open(session, rows, rows_len, A, record, record_len), 9, 0, "open, 9");
    must(gantsorol_record_put(n, t, points, record, record_len, n, polynomial(A, n), k) == 0, "record put");
    must(gantsorol_record_remove(n, t, points, record, record_len, n) == 0, "record remove");
}

#ifdef BRANCHING
static __attribute__((noinline)) uint32_t with_p(uint32_t x) { return x + P; }

/* The coefficients of a - l, where p is added only to those that need it. */
__attribute__((noinline)) void gantsorol_branching_masks(const uint32_t *a, const uint32_t *l, uint32_t *out) {
    for (size_t i = 0; i < k; i++)
        out[i] = (a[i] < l[i] ? with_p(a[i]) : a[i]) - l[i];
}
#endif

/* Where the other posts' masks of A and B with the triple at first stand. */
static void mask_all(size_t first, uint32_t *records) {
    enum { LEFT = 20, RIGHT = 21 };
    combine(LEFT, A, P - 1, first);
    combine(RIGHT, B, P - 1, first + 1);
    hear(LEFT, 1, n, records);
    hear(RIGHT, 1, n, records + record_len);
}

/* What the triple's last row holds behind the product: l'' + y l' + y' l. */
static void product_of_all(size_t first, size_t to) {
    uint32_t y = plus(numbers[A], P - 1, polynomials[first][0]), y2 = plus(numbers[B], P - 1, polynomials[first + 1][0]);
    combine(to, first + 2, y, first + 1);
    combine(to, to, y2, first);
    numbers[to] = plus(0, numbers[A], numbers[B]);
}

static uint32_t records[TWO * GANTSOROL_RECORD_LEN(MOST, MOST, GANTSOROL_MAX_POINTS)], masks[TWO * MESSAGE];

static void multiply(void) {
    keep(gantsorol_masks(session, rows, rows_len, A, B, FIRST, masks, 2 * k), 0, 0, "masks");
#ifdef BRANCHING
    uint32_t again[MESSAGE];
    gantsorol_branching_masks(polynomial(A, POST), polynomial(FIRST, POST), again);
    must(memcmp(again, masks, k * sizeof *again) == 0, "both masks are the same");
#endif
    mask_all(FIRST, records);
    keep(gantsorol_collect(session, rows, rows_len, FIRST, records, record_len, records + record_len, record_len), 0, 0, "collect");
    keep(gantsorol_multiply(session, rows, rows_len, FIRST), 0, 0, "multiply");
    product_of_all(FIRST, FIRST + 2);
    open_row(FIRST + 2, numbers[FIRST + 2]);
}

/* The sum of A x B, SCALE times, and B. */
static void relate(void) {
    const gantsorol_term terms[TWO] = {{SCALE, A, B, SECOND}, {1, B, GANTSOROL_NO_ROW, 0}};
    keep(gantsorol_relation_masks(session, rows, rows_len, terms, TWO, masks, 2 * k), 0, 0, "relation masks");
    mask_all(SECOND, records);
    keep(gantsorol_relation_finish(session, rows, rows_len, terms, TWO, RELATION, records, 2 * record_len), 0, 0, "relation finish");
    product_of_all(SECOND, SECOND + 2);
    combine(RELATION, B, SCALE, SECOND + 2);
    open_row(RELATION, plus(numbers[B], SCALE, numbers[SECOND + 2]));
}

static void sum(void) {
    keep(gantsorol_linear(session, rows, rows_len, SUM, A, B, SCALE, FEE), 0, 0, "linear");
    combine(SUM, A, SCALE, B);
    open_row(SUM, plus(plus(numbers[A], SCALE, numbers[B]), 1, FEE));
}

#ifdef ANY_DIGITS
static uint32_t shown(void) { return drawn(1); }
static int fits(uint32_t x) { return x < P; }
#else
static uint32_t shown(void) { return drawn(TEN_DIGITS); }
static int fits(uint32_t x) { return TEN_DIGITS <= x; }
#endif

/* A dealer's line waits and is taken: its number is shown. Then one that is refused once it is taken, and no line. */
static void deal_by_turn(void) {
    uint8_t line[GANTSOROL_DEAL_LINE_LEN], dealers[GANTSOROL_DEALERS_LEN];
    must(gantsorol_new_state(dealers, sizeof dealers) == 0, "new state");
    keep(gantsorol_load_row(session, rows, rows_len, TURN, part(A), row_len), 0, 0, "load row");
    gantsorol_written written = gantsorol_write_deal(n, t, TURN, shown(), line, sizeof line);
    must(written.refusal == 0, "write D");
    for (size_t dealer = 2; dealer <= GANTSOROL_DEALERS; dealer += 3)
        must(gantsorol_place(dealers, sizeof dealers, dealer, line, written.len) == 0, "place");
    must(gantsorol_place(dealers, sizeof dealers, 2, line, written.len) == 17, "place, 17");
    for (size_t dealer = 2; dealer <= GANTSOROL_DEALERS; dealer += 3)
        keep(gantsorol_turn(session, rows, rows_len, dealers, sizeof dealers), dealer == 2 ? 0 : 7, 0, "turn");
    keep(gantsorol_turn(session, rows, rows_len, dealers, sizeof dealers), 0, 0, "turn, no line");
    must(dealers[0] == GANTSOROL_DEALERS, "the last dealer was served");
}

static void write_and_read(void) {
    static uint8_t line[GANTSOROL_LONGEST_LINE];
    uint32_t list[2 * MESSAGE], out[2 * MESSAGE];
    for (size_t i = 0; i < 2 * k; i++)
        list[i] = shown();
    must(gantsorol_write_deal(n, t, A, list[0], line, sizeof line).refusal == 0, "write D");
    gantsorol_written written = gantsorol_write_opening(n, t, points, A, POST, list, k, line, sizeof line);
    must(written.refusal == 0 && gantsorol_read(n, t, points, line, written.len, out, 2 * k).refusal == 0, "an O line");
    written = gantsorol_write_masks(n, t, points, A, POST, list, 2 * k, line, sizeof line);
    must(written.refusal == 0 && gantsorol_read(n, t, points, line, written.len, out, 2 * k).refusal == 0, "an M line");
    must(memcmp(list, out, 2 * k * sizeof *list) == 0, "the numbers read are those written");
}

/* A pack file of one raw row, whose numbers in the post's part are shown. */
static void write_pack(void) {
    static uint8_t file[64 + 11 * GANTSOROL_ROW_LEN(MOST, MOST, GANTSOROL_MAX_POINTS)];
    const uint8_t kinds[GANTSOROL_ROWS] = {1};
    uint32_t *draw = polynomials[EMPTY], *own = own_points();
    draw_own_points(shown);
    for (size_t i = 0; i <= t; i++)
        draw[i] = drawn(0);
    for (size_t j = 1; j <= n; j++) {
        uint32_t *v = polynomial(EMPTY, j);
        do
            for (size_t i = 0; i < k; i++)
                v[i] = shown();
        while (!fits(value(v, k, own[0])) || !fits(value(v, k, own[points - 1])) || !fits(plus(v[0], 1, value(draw, t + 1, (uint32_t)j))));
    }
    gantsorol_written written =
        gantsorol_write_pack(n, t, POST, points, check_points, points * n, kinds, GANTSOROL_ROWS, draw, draw_len, file, sizeof file);
    must(written.refusal == 0, "write pack");
}

/* The draw behind another secret, with the first t posts listed. Their check points are fixed: its time follows them. */
static void find_other_draw(void) {
    static uint32_t own[GANTSOROL_MAX_POINTS * MOST], listed[MOST], other[GANTSOROL_ROW_DRAW_LEN(MOST, MOST, GANTSOROL_MAX_POINTS)];
    for (size_t i = 0; i < points * n; i++)
        own[i] = P - 1 - (uint32_t)i / 2;
    for (size_t i = 0; i < t; i++)
        listed[i] = (uint32_t)i + 1;
    uint32_t secret = drawn(0), wanted = plus(secret, 1, drawn(1));
    must(gantsorol_other_draw(n, t, points, own, points * n, polynomials[A], draw_len, secret, wanted, listed, t, other, draw_len) == 0,
         "other draw");
    must(memcmp(other + t + 1, polynomial(A, 1), t * k * sizeof *other) == 0, "the listed posts' polynomials stay");
    must(other[0] == plus(polynomials[A][0], 1, plus(wanted, P - 1, secret)), "f(0) changes as the secret does");
    must(gantsorol_other_draw(n, t, points, own, points * n, polynomials[A], draw_len, secret, wanted, own, 1, other, draw_len) == 18,
         "other draw, 18");
}

int main(int count, char **arguments) {
    must(count == 6, "n, t, how many check points, the first seed, and how many?");
    n = strtoul(arguments[1], NULL, 10), t = strtoul(arguments[2], NULL, 10), points = strtoul(arguments[3], NULL, 10);
    must(POST < n && n <= MOST && t > 0 && t < n && points > 0 && points <= GANTSOROL_MAX_POINTS, "n, t or points");
    k = GANTSOROL_MESSAGE_LEN(t, points), block = GANTSOROL_BLOCK_LEN(t, points), record_len = GANTSOROL_RECORD_LEN(n, t, points);
    row_len = GANTSOROL_ROW_LEN(n, t, points), rows_len = GANTSOROL_ROWS_LEN(n, t, points);
    draw_len = GANTSOROL_ROW_DRAW_LEN(n, t, points);
    uint64_t first = strtoull(arguments[4], NULL, 10), seeds = strtoull(arguments[5], NULL, 10);
    for (uint64_t seed = first; seed < first + seeds; seed++) {
        state = seed << 32, extreme = 2 * (seed - first) >= seeds;
        draw_all();
        load_and_deal();
        open_row(A, numbers[A]);
        open_otherwise();
        sum();
        multiply();
        relate();
        deal_by_turn();
        write_and_read();
        write_pack();
        find_other_draw();
    }
    return 0;
}
