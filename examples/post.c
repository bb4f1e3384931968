/* A post: `post PACK STATE < lines > own lines`. It loads the pack file, then takes the other posts' and the dealers' lines
 * from standard input and sends its own M and O lines on standard output. What it opens stands on standard error: the charge,
 * rides x rate + 80, and whether the fee is rides x rate. Then it ends.
 *
 * STATE is where it keeps what a power loss must not take. Where there is such a file the pack file is not read again. It
 * goes on with the first t+1 posts that it accepts; a post that can wait hears all of them first, since a further
 * share that is off gets 13. */
#define _POSIX_C_SOURCE 200809L
#include <stdlib.h>

#include "plan.h"

#include "load.h"

enum {
    ROWS = GANTSOROL_ROWS_LEN(N, T, POINTS),
    RECORD = GANTSOROL_RECORD_LEN(N, T, POINTS),
    MESSAGE = GANTSOROL_MESSAGE_LEN(T, POINTS)
};
enum {
    MASKS = GANTSOROL_MASKS_LEN(T, POINTS),
    M_LINE = GANTSOROL_MASKS_LINE_LEN(N, T, POINTS),
    O_LINE = GANTSOROL_OPENING_LINE_LEN(N, T, POINTS),
    A_LINE = GANTSOROL_ACCESS_LINE_LEN(N)
};
/* The longest line that a post hears. */
enum { LINE = M_LINE > A_LINE ? M_LINE : A_LINE };

/* Session and rows, and the post's own lines, to be sent again after a power loss. */
static struct {
    gantsorol_session session;
    uint32_t rows[ROWS];
    uint8_t sent[2 * M_LINE + 2 * O_LINE];
    size_t sent_len;
} state;
static const char *state_path;

/* What was heard: two records for each triple, one for each row that is opened. */
static uint32_t product_records[2 * RECORD], relation_records[2 * RECORD], charge_record[RECORD], sum_record[RECORD];

/* rides x rate - fee. */
static const gantsorol_term terms[] = {{1, RIDES, RATE, OTHER_TRIPLE}, {GANTSOROL_MODULUS - 1, FEE, GANTSOROL_NO_ROW, 0}};
enum { TERMS = sizeof terms / sizeof *terms };

static void must(int done, const char *what) {
    if (!done) {
        fprintf(stderr, "post: %s\n", what);
        exit(1);
    }
}

/* Stores the state as one: a new file, written through to the disk, takes the old one's place. */
static void store(void) {
    char path[4096];
    must(snprintf(path, sizeof path, "%s.new", state_path) < (int)sizeof path, "the path is too long");
    FILE *file = own_file(path);
    must(file != NULL && fwrite(&state, sizeof state, 1, file) == 1, "the state is not stored");
    must(fflush(file) == 0 && fsync(fileno(file)) == 0 && fclose(file) == 0, "the state is not stored");
    must(rename(path, state_path) == 0 && synced_folder(state_path), "the state is not stored");
}

/* The state from before a power loss, with its lines sent again; 0 where there is none. */
static int restored(void) {
    FILE *file = unbuffered(fopen(state_path, "rb"));
    if (file == NULL)
        return 0;
    must(fread(&state, sizeof state, 1, file) == 1 && state.sent_len <= sizeof state.sent, "the state cannot be read");
    fclose(file);
    must(fwrite(state.sent, 1, state.sent_len, stdout) == state.sent_len && fflush(stdout) == 0, "a line is not sent");
    return 1;
}

/* Sends a line that was written behind the others. Session and rows are stored first: with an older session a triple
   would be used twice. */
static void send_line(gantsorol_written written) {
    must(written.refusal == GANTSOROL_OK, gantsorol_refusal_text(written.refusal));
    const uint8_t *line = state.sent + state.sent_len;
    state.sent_len += written.len;
    store();
    must(fwrite(line, 1, written.len, stdout) == written.len && fflush(stdout) == 0, "a line is not sent");
}

/* Keeps the session that a call hands back, refused or not; whether it was done. Until a step's time has come, and after it,
   7 or 9 says so. */
static int done(gantsorol_answer answer) {
    state.session = answer.session;
    if (answer.refusal != GANTSOROL_OK && answer.refusal != GANTSOROL_WRONG_MARK &&
        answer.refusal != GANTSOROL_TOO_FEW_ACCEPTED)
        fprintf(stderr, "post %zu: %s\n", state.session.post, gantsorol_refusal_text(answer.refusal));
    return answer.refusal == GANTSOROL_OK;
}

static void send_masks(size_t first, const uint32_t *masks) {
    send_line(gantsorol_write_masks(N, T, POINTS, first, state.session.post, masks, MASKS, state.sent + state.sent_len,
                                    sizeof state.sent - state.sent_len));
}

/* Sends the post's polynomial of a held row, for the post that calls for it: here always post 1, as the plan has it. Where calls
   are heard, the caller is the post that the carrier knows the call to come from; one that the row bars gets 15, and nothing is
   sent. */
static void send_opening(size_t row) {
    uint32_t message[MESSAGE];
    if (done(gantsorol_opening_message(state.session, state.rows, ROWS, row, CALLER, message, MESSAGE)))
        send_line(gantsorol_write_opening(N, T, POINTS, row, state.session.post, message, MESSAGE,
                                          state.sent + state.sent_len, sizeof state.sent - state.sent_len));
}

/* The charge: masks once both factors are dealt, the product once t+1 posts' masks are accepted, then the fixed fee. */
static void go_on_with_the_charge(void) {
    uint32_t masks[MASKS];
    if (done(gantsorol_masks(state.session, state.rows, ROWS, RIDES, RATE, TRIPLE, masks, MASKS)))
        send_masks(TRIPLE, masks);
    if (done(gantsorol_collect(state.session, state.rows, ROWS, TRIPLE, product_records, RECORD, product_records + RECORD,
                               RECORD)) &&
        done(gantsorol_multiply(state.session, state.rows, ROWS, TRIPLE)) &&
        done(gantsorol_linear(state.session, state.rows, ROWS, CHARGE, PRODUCT, PRODUCT, 0, FIXED)))
        send_opening(CHARGE);
}

/* The relation: the same in two calls, which leave the sum of the terms in a row. */
static void go_on_with_the_relation(void) {
    uint32_t masks[MASKS];
    if (done(gantsorol_relation_masks(state.session, state.rows, ROWS, terms, TERMS, masks, MASKS)))
        send_masks(OTHER_TRIPLE, masks);
    if (done(gantsorol_relation_finish(state.session, state.rows, ROWS, terms, TERMS, SUM, relation_records, 2 * RECORD)))
        send_opening(SUM);
}

/* Opens a row with what was heard of it; whether there is a number now. */
static int opened(size_t row, const uint32_t *record, uint32_t *number) {
    gantsorol_answer answer = gantsorol_open(state.session, state.rows, ROWS, row, record, RECORD);
    *number = answer.value;
    return done(answer);
}

/* What a post sent, into its block of a record. A later message of the same post takes the place of an earlier one. */
static void hear(uint32_t *record, size_t post, const uint32_t *message) {
    uint8_t refusal = gantsorol_record_put(N, T, POINTS, record, RECORD, post, message, MESSAGE);
    must(refusal == GANTSOROL_OK, gantsorol_refusal_text(refusal));
}

/* An A line says who may call for a row's opening. */
static void take_access(const char *text) {
    if (done(gantsorol_access(state.session, (const uint8_t *)text, strlen(text))))
        store();
}

static void take_line(const char *text) {
    uint32_t numbers[GANTSOROL_LINE_LIST_LEN(T, POINTS)];
    gantsorol_line line =
        gantsorol_read(N, T, POINTS, (const uint8_t *)text, strlen(text), numbers, GANTSOROL_LINE_LIST_LEN(T, POINTS));
    if (line.refusal != GANTSOROL_OK) {
        fprintf(stderr, "post %zu: %s\n", state.session.post, gantsorol_refusal_text(line.refusal));
    } else if (line.letter == 'D') {
        if (done(gantsorol_deal(state.session, state.rows, ROWS, line.row, numbers[0])))
            store();
    } else if (line.letter == 'M' && (line.row == TRIPLE || line.row == OTHER_TRIPLE)) {
        uint32_t *records = line.row == TRIPLE ? product_records : relation_records;
        hear(records, line.post, numbers);
        hear(records + RECORD, line.post, numbers + MESSAGE);
    } else if (line.letter == 'O' && (line.row == CHARGE || line.row == SUM)) {
        hear(line.row == CHARGE ? charge_record : sum_record, line.post, numbers);
    }
}

/* Once its last number is opened a post needs nothing of this. */
static void erase_all(void) {
    gantsorol_erase(&state, sizeof state);
    gantsorol_erase(product_records, sizeof product_records);
    gantsorol_erase(relation_records, sizeof relation_records);
    gantsorol_erase(charge_record, sizeof charge_record);
    gantsorol_erase(sum_record, sizeof sum_record);
    must(unlink(state_path) == 0, "the state is not removed");
}

int main(int count, char **arguments) {
    must(count == 3, "which pack file, and where to keep the state?");
    state_path = arguments[2];
    if (!restored()) {
        FILE *pack = unbuffered(fopen(arguments[1], "r"));
        must(pack != NULL, "there is no pack file");
        uint8_t refusal = load_pack(pack, &state.session, state.rows);
        must(refusal == GANTSOROL_OK, gantsorol_refusal_text(refusal));
        fclose(pack);
        store();
    }
    char line[LINE + 1];
    uint32_t charge, sum;
    while (fgets(line, sizeof line, stdin) != NULL) {
        if (line[0] == 'A')
            take_access(line);
        else
            take_line(line);
        go_on_with_the_charge();
        go_on_with_the_relation();
        if (opened(CHARGE, charge_record, &charge) && opened(SUM, sum_record, &sum)) {
            fprintf(stderr, "post %zu: the charge is %u, the fee is %s\n", state.session.post, charge,
                    sum == 0 ? "right" : "not right");
            erase_all();
            return 0;
        }
    }
    must(0, "the lines ended before both numbers were opened");
}
