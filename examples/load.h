/* Reading a pack file: the library writes them and reads none. */
#include "gantsorol.h"
#include "given.h"

enum {
    PACK_LINE = GANTSOROL_TRIPLE_LINE_LEN(N, T, POINTS) + 2,
    PACK_NUMBERS = 1 + GANTSOROL_TRIPLE_PACK_LEN(N, T, POINTS)
};

/* The numbers behind a line's letter, up to `most`; how many, or 0 where something else stands. */
static inline size_t numbers_of(char *line, uint32_t *numbers, size_t most) {
    size_t count = 0;
    for (char *field = strtok(line + 1, ",\n"); field != NULL; field = strtok(NULL, ",\n"))
        if (count == most || !given_number(field, (uint64_t)1 << 32, &numbers[count++]))
            return 0;
    return count;
}

/* One line of a pack file: a session is begun, or a row or a triple loaded. */
static inline gantsorol_answer load_line(gantsorol_session session, uint32_t *rows, char letter, const uint32_t *numbers,
                                         size_t count) {
    if (letter == 'S' && count == 4 && session.n == 0)
        return gantsorol_new(numbers[0], numbers[1], numbers[2], 1, numbers[3], 0);
    if (letter == 'W' && count == 5 && session.n == 0)
        return gantsorol_new(numbers[0], numbers[1], numbers[2], 2, numbers[3], numbers[4]);
    if (letter == 'R' && count > 0)
        return gantsorol_load_row(session, rows, GANTSOROL_ROWS_LEN(N, T, POINTS), numbers[0], numbers + 1, count - 1);
    if (letter == 'T' && count > 0)
        return gantsorol_load_triple(session, rows, GANTSOROL_ROWS_LEN(N, T, POINTS), numbers[0], numbers + 1, count - 1);
    gantsorol_answer wrong = {GANTSOROL_MALFORMED_LINE, 0, session};
    return wrong;
}

/* The session and the rows of a pack file; the first refusal. */
static inline uint8_t load_pack(FILE *file, gantsorol_session *session, uint32_t *rows) {
    char line[PACK_LINE];
    uint32_t numbers[PACK_NUMBERS];
    uint8_t refusal = GANTSOROL_OK;
    while (refusal == GANTSOROL_OK && fgets(line, sizeof line, file) != NULL) {
        char letter = line[0];
        gantsorol_answer answer = load_line(*session, rows, letter, numbers, numbers_of(line, numbers, PACK_NUMBERS));
        refusal = answer.refusal;
        *session = answer.session;
    }
    /* A file of another station has another n or t, or another number of check points. */
    if (refusal == GANTSOROL_OK && (ferror(file) || session->n != N || session->t != T || session->points != POINTS))
        refusal = GANTSOROL_MALFORMED_LINE;
    gantsorol_erase(line, sizeof line);
    gantsorol_erase(numbers, sizeof numbers);
    return refusal;
}
