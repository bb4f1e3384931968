/* Eight dealers at one station, seen from one post: each has a place for one waiting line, and a turn takes one line, going round.
   All eight send as often as they can, and each is served every eighth turn. */
#include <stdio.h>
#include <string.h>

#include "gantsorol.h"

enum { N = 3, T = 1, POINTS = 1, ROW = GANTSOROL_ROW_LEN(N, T, POINTS), ALL = GANTSOROL_ROWS_LEN(N, T, POINTS) };
enum { DEALERS = GANTSOROL_DEALERS, PLACES = GANTSOROL_DEALERS_LEN };

static uint32_t rows[ALL];
static gantsorol_session session;
/* Lent to the calls below and handed on, as session and rows are. */
static uint8_t state[PLACES];
/* The row that each dealer deals next: dealer 1 the rows 0, 8 and so on, dealer 2 the rows 1, 9 and so on. */
static size_t next[DEALERS + 1];

static void say(const char *who, uint8_t refusal) {
    if (refusal != GANTSOROL_OK)
        printf("%s: %s\n", who, gantsorol_refusal_text(refusal));
}

/* Post 1 of three, all rows raw. Real draws are random: any numbers do here. */
static void start(void) {
    const uint32_t pack[ROW] = {1, 2, 5, 5, 17, 12, 18, 24};
    session = gantsorol_new(N, T, 1, POINTS, 2, 0).session;
    for (size_t row = 0; row < GANTSOROL_ROWS; row++) {
        gantsorol_answer answer = gantsorol_load_row(session, rows, ALL, row, pack, ROW);
        session = answer.session;
        say("a row", answer.refusal);
    }
    for (size_t dealer = 1; dealer <= DEALERS; dealer++)
        next[dealer] = dealer - 1;
    say("the state", gantsorol_new_state(state, PLACES));
}

/* A line has come from a dealer: whether it waits now. Where one still does (17), the dealer sends this one again later. */
static int heard(size_t dealer, const uint8_t *line, size_t line_len) {
    uint8_t refusal = gantsorol_place(state, PLACES, dealer, line, line_len);
    if (refusal != GANTSOROL_OK && refusal != GANTSOROL_PLACE_FILLED)
        printf("dealer %zu: %s\n", dealer, gantsorol_refusal_text(refusal));
    return refusal == GANTSOROL_OK;
}

/* A dealer sends its next line. */
static void send_next(size_t dealer) {
    uint8_t line[GANTSOROL_DEAL_LINE_LEN];
    gantsorol_written written = gantsorol_write_deal(N, T, next[dealer], 93, line, sizeof line);
    say("a line", written.refusal);
    if (heard(dealer, line, written.len))
        next[dealer] += DEALERS;
}

/* A turn, and who was served; a line that is refused now has freed its place, and its dealer counts as served. */
static void take_turn(void) {
    gantsorol_answer answer = gantsorol_turn(session, rows, ALL, state, PLACES);
    session = answer.session;
    printf("dealer %d: %s\n", state[0], gantsorol_refusal_text(answer.refusal));
}

/* How many rows are held. */
static int held(void) {
    int count = 0;
    for (int row = 0; row < GANTSOROL_ROWS; row++)
        count += session.marks[row] == 2;
    return count;
}

int main(void) {
    start();
    for (int turn = 0; turn < 17; turn++) {
        for (size_t dealer = 1; dealer <= DEALERS; dealer++)
            send_next(dealer);
        take_turn();
    }
    printf("%d rows are held\n", held());

    /* Nobody sends any more: the seven lines that wait, and the one of dealer 1 that is no deal. */
    const char *other = "O,0,1,1,2\n";
    printf("dealer 1 may send: %d\n", heard(1, (const uint8_t *)other, strlen(other)));
    for (int turn = 0; turn < 8; turn++)
        take_turn();

    /* No line waits: the turn is not refused and changes nothing. */
    take_turn();
    printf("%d rows are held\n", held());
    return 0;
}
