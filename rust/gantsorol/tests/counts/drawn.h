/* What `calls.c` draws from a seed, for all posts: check points, polynomials of rows and triples, and what the factory makes of them. */
#ifndef DRAWN_H
#define DRAWN_H

#include <stdint.h>
#include <stdio.h>
#include <stdlib.h>
#include <string.h>

#include "gantsorol.h"

#ifndef MOST
#define MOST 40
#endif

enum { MESSAGE = GANTSOROL_MESSAGE_LEN(MOST, GANTSOROL_MAX_POINTS) };
enum { P = GANTSOROL_MODULUS, POST = 2, TEN_DIGITS = 1000000000, FEE = 80, SCALE = 35, TWO = 2 };
/* Rows: two numbers, two triples, a sum, a relation's sum, one that stays empty, one that is dealt by a turn. */
enum { A = 0, B = 1, FIRST = 2, SECOND = 5, SUM = 8, RELATION = 9, EMPTY = 10, TURN = 11, DRAWN = 8 };

/* k: the coefficients of a polynomial that is sent; f has t+1. */
static size_t n, t, points, k, row_len, rows_len, block, record_len, draw_len;
static uint32_t check_points[GANTSOROL_MAX_POINTS * MOST], rows[GANTSOROL_ROWS_LEN(MOST, MOST, GANTSOROL_MAX_POINTS)];
/* Each row's polynomials, f first, and its number. */
static uint32_t polynomials[GANTSOROL_ROWS][GANTSOROL_ROW_DRAW_LEN(MOST, MOST, GANTSOROL_MAX_POINTS)], numbers[GANTSOROL_ROWS];
static gantsorol_session session;
static uint64_t state;
static int extreme;

static void must(int done, const char *what) {
    if (!done) {
        fprintf(stderr, "calls: %s\n", what);
        exit(1);
    }
}

/* Splitmix64. */
static uint64_t random_bits(void) {
    uint64_t z = state += 0x9e3779b97f4a7c15;
    z = (z ^ (z >> 30)) * 0xbf58476d1ce4e5b9;
    z = (z ^ (z >> 27)) * 0x94d049bb133111eb;
    return z ^ (z >> 31);
}

/* An element from low on. In the second half of the seeds every other one is the least, the next or the last. */
static uint32_t drawn(uint32_t low) {
    uint64_t bits = random_bits();
    const uint32_t extremes[4] = {low, low + 1, P - 1, P - 1};
    return extreme && bits >> 63 ? extremes[bits & 3] : low + (uint32_t)(bits % (P - low));
}

static uint32_t plus(uint32_t c, uint32_t a, uint32_t b) { return (uint32_t)(((uint64_t)a * b + c) % P); }

static uint32_t value(const uint32_t *coefficients, size_t count, uint32_t x) {
    uint32_t sum = 0;
    for (size_t i = count; i > 0; i--)
        sum = plus(coefficients[i - 1], x, sum);
    return sum;
}

/* Keeps the session that a call hands back. */
static void keep(gantsorol_answer answer, uint8_t refusal, uint32_t opened, const char *call) {
    session = answer.session;
    must(answer.refusal == refusal && answer.value == opened, call);
}

/* A post's polynomial. */
static uint32_t *polynomial(size_t row, size_t post) { return polynomials[row] + t + 1 + (post - 1) * k; }

/* The post's own check points. */
static uint32_t *own_points(void) { return check_points + (POST - 1) * points; }

/* They are not the same, so that it is fixed which of them a polynomial passes. */
static void draw_own_points(uint32_t (*number)(void)) {
    uint32_t *own = own_points();
    do
        for (size_t i = 0; i < points; i++)
            own[i] = number();
    while (points > 1 && own[0] == own[1]);
}

static uint32_t any_point(void) { return drawn(1); }

/* Row to is row a plus scale times row b, in the hands of all posts. */
static void combine(size_t to, size_t a, uint32_t scale, size_t b) {
    for (size_t i = 0; i < draw_len; i++)
        polynomials[to][i] = plus(polynomials[a][i], scale, polynomials[b][i]);
}

/* A record in which these posts are heard. */
static void hear(size_t row, size_t from, size_t to, uint32_t *record) {
    memset(record, 0, record_len * sizeof *record);
    for (size_t j = from; j <= to; j++) {
        record[(j - 1) * block] = 1;
        memcpy(record + (j - 1) * block + 1, polynomial(row, j), k * sizeof *record);
    }
}

/* The factory's rows and triples. */
static uint32_t packs[DRAWN][MOST * GANTSOROL_ROW_LEN(MOST, MOST, GANTSOROL_MAX_POINTS)];

static void draw_all(void) {
    static uint32_t draw[GANTSOROL_TRIPLE_DRAW_LEN(MOST, MOST, GANTSOROL_MAX_POINTS)],
        out[3 * MOST * GANTSOROL_ROW_LEN(MOST, MOST, GANTSOROL_MAX_POINTS)];
    for (size_t i = 0; i < points * n; i++)
        check_points[i] = drawn(1);
    draw_own_points(any_point);
    for (size_t row = 0; row < DRAWN; row++)
        for (size_t i = 0; i < draw_len; i++)
            polynomials[row][i] = drawn(0);
    for (size_t row = A; row <= B; row++)
        must(gantsorol_factory_row(n, t, points, check_points, points * n, polynomials[row], draw_len, packs[row], n * row_len) == 0,
             "factory row");
    for (size_t first = FIRST; first <= SECOND; first += 3) {
        uint32_t *third = polynomials[first + 2];
        third[0] = plus(0, polynomials[first][0], polynomials[first + 1][0]);
        memcpy(draw, polynomials[first], draw_len * sizeof *draw);
        memcpy(draw + draw_len, polynomials[first + 1], draw_len * sizeof *draw);
        memcpy(draw + 2 * draw_len, third + 1, (draw_len - 1) * sizeof *draw);
        must(gantsorol_factory_triple(n, t, points, check_points, points * n, draw, 3 * draw_len - 1, out, 3 * n * row_len) == 0,
             "factory triple");
        for (size_t part = 0; part < 3; part++)
            memcpy(packs[first + part], out + part * n * row_len, n * row_len * sizeof *out);
    }
}

#endif
