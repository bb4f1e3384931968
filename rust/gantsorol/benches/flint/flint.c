/* The library beside FLINT, what a user could take instead from Debian, on the same numbers in one run: shares of a secret made, and a
   number brought out of t+1 shares and of all n, which must agree. docs/SPEED.md has the command; the gate has no FLINT. */
#include <stdio.h>
#include <stdlib.h>
#include <time.h>

#include <flint/nmod_poly.h>

#include "gantsorol.h"

enum { POINTS = 1, SAMPLES = 101 };

static uint64_t state = 1;

/* An element that is not 0. */
static uint32_t drawn(void) {
    state = state * 6364136223846793005u + 1442695040888963407u;
    return (uint32_t)(state >> 33) % (GANTSOROL_MODULUS - 1) + 1;
}

static void fail(const char *what) {
    fprintf(stderr, "%s\n", what);
    exit(1);
}

static gantsorol_session taken(gantsorol_answer answer) {
    if (answer.refusal != 0)
        fail("refused");
    return answer.session;
}

/* One station with its row 0 dealt: post 1's session and rows, and the records of the first t+1 and of all. */
typedef struct {
    size_t n, t;
    uint32_t secret, *check_points, *draw, *packs, *rows, *few, *all;
    gantsorol_session first;
    nmod_poly_t f, found;
    mp_ptr nodes, shares;
} station;

static uint32_t *list(size_t len) {
    uint32_t *numbers = calloc(len, sizeof *numbers);
    if (numbers == NULL)
        fail("no memory");
    return numbers;
}

static void post(station *s, size_t i, uint32_t c) {
    size_t n = s->n, t = s->t, row = GANTSOROL_ROW_LEN(n, t, POINTS), all = GANTSOROL_ROWS_LEN(n, t, POINTS);
    size_t record = GANTSOROL_RECORD_LEN(n, t, POINTS), sent = GANTSOROL_MESSAGE_LEN(t, POINTS);
    uint32_t *rows = list(all), *message = list(sent);
    gantsorol_session own = taken(gantsorol_new(n, t, i, POINTS, s->check_points[i - 1], 0));
    own = taken(gantsorol_load_row(own, rows, all, 0, s->packs + (i - 1) * row, row));
    own = taken(gantsorol_deal(own, rows, all, 0, c));
    own = taken(gantsorol_opening_message(own, rows, all, 0, 1, message, sent));
    if (gantsorol_record_put(n, t, POINTS, s->all, record, i, message, sent) != 0 ||
        (i <= t + 1 && gantsorol_record_put(n, t, POINTS, s->few, record, i, message, sent) != 0))
        fail("no block");
    free(message);
    if (i == 1) {
        s->first = own;
        s->rows = rows;
    } else {
        free(rows);
    }
}

/* The same polynomial for both: FLINT's has the secret as its constant. */
static void found_station(station *s, size_t n, size_t t) {
    size_t draw = GANTSOROL_ROW_DRAW_LEN(n, t, POINTS), packs = GANTSOROL_PACKS_LEN(n, t, POINTS);
    s->n = n, s->t = t, s->secret = drawn();
    s->check_points = list(n), s->draw = list(draw), s->packs = list(packs);
    s->few = list(GANTSOROL_RECORD_LEN(n, t, POINTS)), s->all = list(GANTSOROL_RECORD_LEN(n, t, POINTS));
    for (size_t i = 0; i < n; i++)
        s->check_points[i] = drawn();
    for (size_t i = 0; i < draw; i++)
        s->draw[i] = drawn();
    if (gantsorol_factory_row(n, t, POINTS, s->check_points, n, s->draw, draw, s->packs, packs) != 0)
        fail("no packs");
    gantsorol_number c = gantsorol_dealer_number(s->secret, s->draw[0]);
    for (size_t i = 1; i <= n; i++)
        post(s, i, c.value);
    nmod_poly_init(s->f, GANTSOROL_MODULUS);
    nmod_poly_init(s->found, GANTSOROL_MODULUS);
    nmod_poly_set_coeff_ui(s->f, 0, s->secret);
    for (size_t k = 1; k <= t; k++)
        nmod_poly_set_coeff_ui(s->f, (slong)k, s->draw[k]);
    s->nodes = _nmod_vec_init((slong)n), s->shares = _nmod_vec_init((slong)n);
    for (size_t i = 0; i < n; i++)
        s->nodes[i] = i + 1;
    nmod_poly_evaluate_nmod_vec(s->shares, s->f, s->nodes, (slong)n);
}

static void factory(station *s) {
    size_t n = s->n, t = s->t;
    gantsorol_factory_row(n, t, POINTS, s->check_points, n, s->draw, GANTSOROL_ROW_DRAW_LEN(n, t, POINTS), s->packs,
                          GANTSOROL_PACKS_LEN(n, t, POINTS));
}

static void shares_by_flint(station *s) { nmod_poly_evaluate_nmod_vec(s->shares, s->f, s->nodes, (slong)s->n); }

static void open_record(station *s, const uint32_t *record) {
    size_t n = s->n, t = s->t;
    gantsorol_answer answer = gantsorol_open(s->first, s->rows, GANTSOROL_ROWS_LEN(n, t, POINTS), 0, record,
                                             GANTSOROL_RECORD_LEN(n, t, POINTS));
    if (answer.refusal != 0 || answer.value != s->secret)
        fail("another number");
}

static void open_few(station *s) { open_record(s, s->few); }

static void open_all(station *s) { open_record(s, s->all); }

static void few_by_flint(station *s) {
    nmod_poly_interpolate_nmod_vec(s->found, s->nodes, s->shares, (slong)(s->t + 1));
    if (nmod_poly_get_coeff_ui(s->found, 0) != s->secret)
        fail("another number by FLINT");
}

static void all_by_flint(station *s) {
    few_by_flint(s);
    for (size_t i = s->t + 1; i < s->n; i++)
        if (nmod_poly_evaluate_nmod(s->found, s->nodes[i]) != s->shares[i])
            fail("shares do not agree");
}

static int rising(const void *a, const void *b) {
    double x = *(const double *)a, y = *(const double *)b;
    return (x > y) - (x < y);
}

/* The median time of one call in nanoseconds. */
static double median(void (*call)(station *), station *s, int calls) {
    double times[SAMPLES];
    for (int i = 0; i < SAMPLES; i++) {
        struct timespec from, to;
        clock_gettime(CLOCK_MONOTONIC, &from);
        for (int k = 0; k < calls; k++)
            call(s);
        clock_gettime(CLOCK_MONOTONIC, &to);
        times[i] = ((double)(to.tv_sec - from.tv_sec) * 1e9 + (double)(to.tv_nsec - from.tv_nsec)) / calls;
    }
    qsort(times, SAMPLES, sizeof *times, rising);
    return times[SAMPLES / 2];
}

int main(void) {
    const size_t sizes[][2] = {{3, 1}, {32, 15}, {255, 127}};
    const int calls[] = {1000, 50, 1};
    for (size_t i = 0; i < sizeof sizes / sizeof *sizes; i++) {
        station s;
        found_station(&s, sizes[i][0], sizes[i][1]);
        printf("(%zu, %zu) ns: shares %.0f, FLINT %.0f; open t+1 %.0f, FLINT %.0f; open all %.0f, FLINT %.0f\n", s.n, s.t,
               median(factory, &s, calls[i]), median(shares_by_flint, &s, calls[i]), median(open_few, &s, calls[i]),
               median(few_by_flint, &s, calls[i]), median(open_all, &s, calls[i]), median(all_by_flint, &s, calls[i]));
    }
    return 0;
}
