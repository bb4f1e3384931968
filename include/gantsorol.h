/*
 * Gantsorol: verifiable secret sharing for dock posts.
 *
 * For x86-64 only, of level v2 (SSE4.2), by the rules of System V. The library is libgantsorol.a: `rt lib` makes it in
 * crates/gantsorol, `./install` puts it in place. It needs no initialisation, allocates nothing, keeps nothing between calls
 * and takes nothing but memcpy and memset. docs/INTEGRATING.md goes from an empty folder to a post.
 *
 * Any values are allowed. Every call, whatever it is given, does its one job or answers with a refusal, the number of
 * the first condition of gantsorol_refusal_text that applies; 0 means none. A refused call changes no list and no
 * session, and its value is 0; the one exception is a turn that has taken a line (gantsorol_turn).
 *
 * What a caller has to see to, because no call can: a list is passed as a pointer to its first number, aligned for its
 * type, and its length in numbers (bytes for a line or a file, kinds, or terms), which the memory really has. The lists
 * of one call must not overlap. Where the length is 0 the pointer is not used and may be NULL.
 *
 * A number is an element, 0 to p - 1. A post keeps a session, which each call takes by value and hands back, and a list
 * of GANTSOROL_ROWS_LEN numbers, its 96 rows, which it lends to each call; they need not be cleared before. Use the
 * session that the last call handed back, never an older one: a row would be opened or dealt that no longer is what the
 * old marks say. So a session belongs to one thread at a time; different sessions may be used by different threads.
 *
 * Check points. Each post of a station has one secret check point or two, which nobody else knows but the works: `points`
 * is 1 or 2, the same for all posts, and new packs have 2. A sender is accepted by a post where its polynomial has the
 * row's check value at each of that post's points. A false polynomial passes at no more than t of all points where there
 * is one, at no more than 4 * t * t of all pairs of points where there are two; for that a polynomial sent has
 * points * t + 1 coefficients. In a list both points of a post, and both check values of a sender, follow one another.
 *
 * A row is a post's part of one shared number: the points * t + 1 coefficients of the post's own polynomial, constant
 * first; points * n check values, by sender; n public sums. A record holds what the posts sent of one row, a block for
 * each; all zeros is a record in which every post is absent.
 *
 * Who may have a number opened. Each row has a set of posts that may call for its opening, kept in the session: all posts,
 * until an "A" line says otherwise while the row is raw (gantsorol_access), before its number is dealt. A row made from
 * others has the posts that all of them share, whatever they are multiplied with. An opening message is made for the post
 * that calls for it: another than the row's set has gets 15 (GANTSOROL_CALLER_BARRED), the own post no exception. Masks
 * and openings ask nobody. Every post must be given the same "A" lines, and who calls is the carrier's to see to, as who
 * sends: a false caller's number is taken at its word.
 *
 * Dealers. Up to eight dealers may send lines to a station, and each has a place for one waiting line. The places stand in a
 * state of GANTSOROL_DEALERS_LEN bytes, which the caller lends and hands on like the rows: gantsorol_new_state makes it once,
 * gantsorol_place puts a dealer's line into its place, gantsorol_turn takes one line and deals it, from the dealer after the
 * one last served, going round. While only these calls write the state, a waiting line is taken within eight turns that are
 * counted, however often other dealers send. A line that is refused once it is taken has freed its place and counts as
 * served: the turn returns that refusal, and has changed the place's length and the last dealer, and nothing else. A turn
 * refused with 1 to 5 or 16 took no line, and is not counted. Every post must be given the same lines and the same turns in
 * the same order.
 *
 * Power loss. Store the session that a call hands back, and the rows and the dealers' state with it where they were written,
 * before the line that the call made is sent. With an older session a triple would be used twice, and two masks of one
 * triple tell the difference of two factors to whoever hears them.
 *
 * Senders. A line names its post, and nobody checks that it comes from there: the carrier has to. A later
 * gantsorol_record_put of a post writes over the one before.
 *
 * On 9 (GANTSOROL_TOO_FEW_ACCEPTED) wait for more messages, put them into the record and call again. A message that is
 * there and not accepted is not the polynomial that this post has a check value of; the call does not say whose it is.
 *
 * On 13 (GANTSOROL_INCONSISTENT_SHARES) an accepted share is off, perhaps the own one, which no record takes out. Take
 * one post out of the record, call again, and put it back: where t+3 or more were accepted and one of the others is off,
 * the call is done only without that one. Any t+1 shares agree: with posts removed down to t+1 a number has passed no
 * such check, and is not to be taken on its word.
 *
 * Erase, with gantsorol_erase, what is no longer needed: check points, draws and packs once the pack files are written, and
 * those once they are loaded; the dealer's f once c is sent; messages, records, rows and the session with its last opening.
 * Copies of the session that calls had on the stack stay there until they are written over, and stdio's buffers keep what
 * went through them.
 *
 * Bytes, for (n, t) with one check point a post, and with two; GANTSOROL_..._LEN below give numbers of 4 bytes, and bytes
 * for lines and files:
 *
 *    one point              (3, 1)    (32, 15)   (255, 127)
 *    session                 4,168       4,168        4,168
 *    answer                  4,176       4,176        4,176
 *    rows                    3,072      30,720      244,992
 *    record                     36       2,176      131,580
 *    draw of a row              32       2,112      131,072
 *    draw of a triple           92       6,332      393,212
 *    longest broadcast line     51         360        2,825
 *    longest line of a pack file  269     2,645       21,059
 *
 *    two points             (3, 1)    (32, 15)   (255, 127)
 *    session                 4,168       4,168        4,168
 *    answer                  4,176       4,176        4,176
 *    rows                    4,608      48,768      391,680
 *    record                     48       4,096      261,120
 *    draw of a row              44       4,032      260,612
 *    draw of a triple          128      12,092      781,832
 *    longest broadcast line     73         690        5,619
 *    longest line of a pack file  401     4,196       33,665
 *
 * No call takes more than GANTSOROL_MOST_STACK bytes of stack, beside its arguments and its answer; docs/INTEGRATING.md
 * has the figures of each call.
 *
 * What the calls read. A refusal 8 looks at every number of each row that the call reads from: an opening message gets
 * it for a bad check value or public sum too. Masks and collect leave the triple's third row unread; multiply reads
 * no number of a factor row, only its mark, the triple's rows and the two numbers remembered. The number of points and the
 * check points are looked at before lengths: a bad one behind the last gets 4, not 5.
 */
#ifndef GANTSOROL_H
#define GANTSOROL_H

#include <stddef.h>
#include <stdint.h>

#if !defined(__x86_64__) || defined(__ILP32__) || defined(_WIN32)
#error "libgantsorol.a is for x86-64, by the rules of System V"
#endif

/* The version: the minor number counts the requests that are in (CHANGES.md). */
#define GANTSOROL_VERSION_MAJOR 0
#define GANTSOROL_VERSION_MINOR 14
#define GANTSOROL_VERSION_PATCH 0

/*
 * Refusals. Conditions are looked at in the order of their numbers, but for 14, which comes right after 5; each over all
 * lists and terms before the next; gantsorol_access looks at 10 and 11 before 7. gantsorol_place looks at 10 last, behind 16
 * and 17, and gantsorol_turn at 16 right after 5, then at 10, 11, 7 and 8 of the line that it has taken.
 */
enum gantsorol_refusal {
    GANTSOROL_OK = 0,
    GANTSOROL_BAD_POST_COUNT = 1,
    GANTSOROL_BAD_THRESHOLD = 2,
    GANTSOROL_BAD_POST = 3,
    GANTSOROL_BAD_CHECK_POINT = 4,
    GANTSOROL_BAD_LENGTH = 5,
    GANTSOROL_NO_SUCH_ROW = 6,
    GANTSOROL_WRONG_MARK = 7,
    GANTSOROL_NOT_AN_ELEMENT = 8,
    GANTSOROL_TOO_FEW_ACCEPTED = 9,
    GANTSOROL_MALFORMED_LINE = 10,
    GANTSOROL_LINE_OUT_OF_RANGE = 11,
    GANTSOROL_NO_ROOM = 12,
    GANTSOROL_INCONSISTENT_SHARES = 13,
    GANTSOROL_BAD_TERM_COUNT = 14,
    GANTSOROL_CALLER_BARRED = 15,
    GANTSOROL_BAD_DEALER = 16,
    GANTSOROL_PLACE_FILLED = 17,
    GANTSOROL_BAD_POST_LIST = 18,
    GANTSOROL_TOO_MANY_POSTS = 19
};

/* A refusal in words: the condition that applies. */
static inline const char *gantsorol_refusal_text(uint8_t refusal) {
    switch (refusal) {
    case GANTSOROL_OK:
        return "no refusal";
    case GANTSOROL_BAD_POST_COUNT:
        return "the number of posts n is outside 2 to 255";
    case GANTSOROL_BAD_THRESHOLD:
        return "t is outside 1 to n - 1";
    case GANTSOROL_BAD_POST:
        return "the session's post, or the post of a line to be written, of a block or of a pack file, is outside 1 to n";
    case GANTSOROL_BAD_CHECK_POINT:
        return "the number of check points a post is not 1 or 2, or a check point is 0 or at least p";
    case GANTSOROL_BAD_LENGTH:
        return "a list's length is not exactly the one stated";
    case GANTSOROL_NO_SUCH_ROW:
        return "a row is above 95, or a triple's first row above 93";
    case GANTSOROL_WRONG_MARK:
        return "a row's mark, or a remembered row, is not what the call needs; a relation names a triple twice; "
               "a kind other than 0 stands inside a triple of a pack file";
    case GANTSOROL_NOT_AN_ELEMENT:
        return "a number is at least p, a record's mark is above 1, or a kind of a pack file is unknown";
    case GANTSOROL_TOO_FEW_ACCEPTED:
        return "fewer than t+1 posts were accepted, in any record";
    case GANTSOROL_MALFORMED_LINE:
        return "a line read has the wrong form; a line to be placed is empty or longer than 16 bytes";
    case GANTSOROL_LINE_OUT_OF_RANGE:
        return "a line read has a number out of range";
    case GANTSOROL_NO_ROOM:
        return "the list lent for a line or a file is shorter than that";
    case GANTSOROL_INCONSISTENT_SHARES:
        return "an accepted share is not on the polynomial of the t+1 lowest, in any record";
    case GANTSOROL_BAD_TERM_COUNT:
        return "a relation has no terms, or more than 32";
    case GANTSOROL_CALLER_BARRED:
        return "the post that calls for an opening is not one of the row's set, or outside 1 to n";
    case GANTSOROL_BAD_DEALER:
        return "a dealer, or the dealers' state's last one, is outside 1 to 8, or a place of that state has more than 16 bytes";
    case GANTSOROL_PLACE_FILLED:
        return "a line still waits in the dealer's place";
    case GANTSOROL_BAD_POST_LIST:
        return "a list of posts does not rise strictly, or has a post outside 1 to n";
    case GANTSOROL_TOO_MANY_POSTS:
        return "more than t posts are listed and the secrets differ: no other draw shows them the same";
    default:
        return "unknown to this header";
    }
}

/* p, the number of elements. */
#define GANTSOROL_MODULUS 2147483647u
/* The largest number of posts. */
#define GANTSOROL_MAX_POSTS 255
/* The rows of a session. */
#define GANTSOROL_ROWS 96
/* The numbers of a row's set of posts, 32 posts each, and of all rows' sets. */
#define GANTSOROL_SET_LEN 8
#define GANTSOROL_SETS_LEN (GANTSOROL_ROWS * GANTSOROL_SET_LEN)
/* The most terms of a relation. */
#define GANTSOROL_MAX_TERMS 32
/* The second row of a term that is no product. */
#define GANTSOROL_NO_ROW 255
/* The most dealers of a station. */
#define GANTSOROL_DEALERS 8
/* More stack than any call takes, beside its arguments and its answer. */
#define GANTSOROL_MOST_STACK 35000
/* The most check points of a post. */
#define GANTSOROL_MAX_POINTS 2
/* The bytes of the longest broadcast line of any station, its line feed included. A pack file has longer ones. */
#define GANTSOROL_LONGEST_LINE 11207

/* Lengths of lists, for n posts with so many check points each, 1 or 2, and threshold t. */

/* All posts' check points. */
#define GANTSOROL_CHECK_POINTS_LEN(n, points) ((points) * (n))
/* A row: the coefficients of the post's own polynomial, constant first, the check values of each sender, n public sums. */
#define GANTSOROL_ROW_LEN(n, t, points) (GANTSOROL_MESSAGE_LEN(t, points) + GANTSOROL_CHECK_POINTS_LEN(n, points) + (n))
/* A session's rows. */
#define GANTSOROL_ROWS_LEN(n, t, points) (GANTSOROL_ROWS * GANTSOROL_ROW_LEN(n, t, points))
/* An opening message: the coefficients of a polynomial that is sent. */
#define GANTSOROL_MESSAGE_LEN(t, points) ((points) * (t) + 1)
/* A record's block: a mark, 0 absent or 1 present, then a message. */
#define GANTSOROL_BLOCK_LEN(t, points) (1 + GANTSOROL_MESSAGE_LEN(t, points))
/* A record: a block for each post, post 1 first. */
#define GANTSOROL_RECORD_LEN(n, t, points) ((n) * GANTSOROL_BLOCK_LEN(t, points))
/* The masks of a product: a message for each factor. */
#define GANTSOROL_MASKS_LEN(t, points) (2 * GANTSOROL_MESSAGE_LEN(t, points))
/* The masks of a relation's product terms, k of them. */
#define GANTSOROL_RELATION_MASKS_LEN(t, points, k) ((k) * GANTSOROL_MASKS_LEN(t, points))
/* The records of a relation's product terms, k of them: two records each. */
#define GANTSOROL_RELATION_RECORDS_LEN(n, t, points, k) ((k) * 2 * GANTSOROL_RECORD_LEN(n, t, points))
/* The list that a line read fills. */
#define GANTSOROL_LINE_LIST_LEN(t, points) (2 * GANTSOROL_MESSAGE_LEN(t, points))

/* The draw of a row: the t+1 coefficients of f, then those of v1 to vn, a message's each. */
#define GANTSOROL_ROW_DRAW_LEN(n, t, points) ((t) + 1 + (n) * GANTSOROL_MESSAGE_LEN(t, points))
/* The draw of a triple: three draws of a row, the third without f's constant. */
#define GANTSOROL_TRIPLE_DRAW_LEN(n, t, points) (3 * GANTSOROL_ROW_DRAW_LEN(n, t, points) - 1)
/* All draws of a station with so many raw rows and triples. */
#define GANTSOROL_DRAWS_LEN(n, t, points, raw, triples)                                                                     \
    ((raw) * GANTSOROL_ROW_DRAW_LEN(n, t, points) + (triples) * GANTSOROL_TRIPLE_DRAW_LEN(n, t, points))
/* All posts' packs of a row. */
#define GANTSOROL_PACKS_LEN(n, t, points) ((n) * GANTSOROL_ROW_LEN(n, t, points))
/* One post's pack of a triple: its rows of l, l' and l''. */
#define GANTSOROL_TRIPLE_PACK_LEN(n, t, points) (3 * GANTSOROL_ROW_LEN(n, t, points))
/* All posts' packs of a triple. */
#define GANTSOROL_TRIPLE_PACKS_LEN(n, t, points) ((n) * GANTSOROL_TRIPLE_PACK_LEN(n, t, points))

/* Bytes of the longest lines and files, line feeds included. A comma and an element are 11 bytes. */

/* The digits of a number of posts, of a post or of t. */
#define GANTSOROL_DIGITS(n) ((n) < 10 ? 1 : (n) < 100 ? 2 : 3)
/* A "D" line; a dealer's place holds one. */
#define GANTSOROL_DEAL_LINE_LEN 16
/* The dealers' state: the last dealer served, then each dealer's place, a length, 0 when it is free, and the line's bytes. */
#define GANTSOROL_DEALERS_LEN 137
/* An "O" line. */
#define GANTSOROL_OPENING_LINE_LEN(n, t, points) (6 + GANTSOROL_DIGITS(n) + 11 * GANTSOROL_MESSAGE_LEN(t, points))
/* An "M" line, longer than an "O" line. */
#define GANTSOROL_MASKS_LINE_LEN(n, t, points) (6 + GANTSOROL_DIGITS(n) + 11 * GANTSOROL_MASKS_LEN(t, points))
/* An "A" line. Where t is small beside n it is the longest of a station. */
#define GANTSOROL_ACCESS_LINE_LEN(n) (5 + 2 * (n) + ((n) > 9 ? (n) - 9 : 0) + ((n) > 99 ? (n) - 99 : 0))
/* A pack file's first line, its "R" line and its "T" line. */
#define GANTSOROL_START_LINE_LEN(n, t, points) (5 + 2 * GANTSOROL_DIGITS(n) + GANTSOROL_DIGITS(t) + 11 * (points))
#define GANTSOROL_ROW_LINE_LEN(n, t, points) (5 + 11 * GANTSOROL_ROW_LEN(n, t, points))
#define GANTSOROL_TRIPLE_LINE_LEN(n, t, points) (5 + 11 * GANTSOROL_TRIPLE_PACK_LEN(n, t, points))
/* A pack file with so many raw rows and triples. */
#define GANTSOROL_PACK_FILE_LEN(n, t, points, raw, triples)                                                                 \
    (GANTSOROL_START_LINE_LEN(n, t, points) + (raw) * GANTSOROL_ROW_LINE_LEN(n, t, points) +                                \
     (triples) * GANTSOROL_TRIPLE_LINE_LEN(n, t, points))

/* The kind of a row in a station's plan. */
enum gantsorol_kind {
    /* an empty row, or the second or third of a triple */
    GANTSOROL_KIND_EMPTY = 0,
    GANTSOROL_KIND_RAW = 1,
    /* the first row of a triple */
    GANTSOROL_KIND_TRIPLE = 3
};

/* Where the draw of a row stands in the list of draws of gantsorol_write_pack; with GANTSOROL_ROWS for row, that list's
   length. kinds: GANTSOROL_ROWS of them, row: at most that. */
static inline size_t gantsorol_draw_place(size_t n, size_t t, size_t points, const uint8_t *kinds, size_t row) {
    size_t raw = 0, triples = 0;
    for (size_t i = 0; i < row; i++) {
        raw += kinds[i] == GANTSOROL_KIND_RAW;
        triples += kinds[i] == GANTSOROL_KIND_TRIPLE;
    }
    return GANTSOROL_DRAWS_LEN(n, t, points, raw, triples);
}

/* Whether a post may call for a row's opening, by a session's n and its list barred: 1 or 0. */
static inline int gantsorol_may_call(size_t n, const uint32_t *barred, size_t row, size_t post) {
    if (row >= GANTSOROL_ROWS || post < 1 || post > n || n > GANTSOROL_MAX_POSTS)
        return 0;
    return (barred[GANTSOROL_SET_LEN * row + (post - 1) / 32] >> (post - 1) % 32 & 1) == 0;
}

/* Zeros over a list, a session or a line that is no longer needed: the compiler leaves no write out. */
static inline void gantsorol_erase(void *memory, size_t bytes) {
    volatile uint8_t *byte = (volatile uint8_t *)memory;
    for (size_t i = 0; i < bytes; i++)
        byte[i] = 0;
}

#ifdef __cplusplus
extern "C" {
#endif

/* What a post remembers beside its rows. Each call checks the fields anew. */
typedef struct gantsorol_session {
    size_t n;
    size_t t;
    /* the post's own number, from 1 */
    size_t post;
    /* how many check points it has, 1 or 2 */
    size_t points;
    /* its check points, 1 to p - 1; where it has one, the second is 0 and not looked at */
    uint32_t first;
    uint32_t second;
    /* of each row: 0 empty, 1 raw (random, not dealt), 2 held; 3 first row of an unused triple, 4 its second or third,
       5 first row of a triple whose masks were sent, 6 spent, 7 first row of a triple whose masks were opened */
    uint8_t marks[GANTSOROL_ROWS];
    /* the two factor rows that a triple's masks were sent for, at its first row */
    uint8_t factor_a[GANTSOROL_ROWS];
    uint8_t factor_b[GANTSOROL_ROWS];
    /* the two numbers that a triple's masks were opened to, at its first row; they stay after the product */
    uint32_t y_a[GANTSOROL_ROWS];
    uint32_t y_b[GANTSOROL_ROWS];
    /* the posts that may not call for a row's opening, GANTSOROL_SET_LEN numbers of 32 bits a row: post j is barred from
       row r where bit (j - 1) % 32 of barred[GANTSOROL_SET_LEN * r + (j - 1) / 32] is 1; gantsorol_may_call asks it. A row
       that is made from others has the or of all their 256 bits, those above n too */
    uint32_t barred[GANTSOROL_SETS_LEN];
} gantsorol_session;

/* What a call on a session hands back. */
typedef struct gantsorol_answer {
    uint8_t refusal;
    /* the number opened; 0 when refused, and from calls that open nothing */
    uint32_t value;
    /* the session after the call; when refused, as it was given */
    gantsorol_session session;
} gantsorol_answer;

/* A term of a relation: a coefficient times a row's number, or times the product of two rows' numbers. */
typedef struct gantsorol_term {
    /* an element */
    uint32_t coefficient;
    uint8_t row;
    /* the second factor's row, perhaps the same; GANTSOROL_NO_ROW where the term is no product */
    uint8_t second;
    /* the first row of the product's triple; not looked at where the term is no product */
    uint8_t first;
} gantsorol_term;

/* The dealer's number. */
typedef struct gantsorol_number {
    uint8_t refusal;
    /* 0 when refused */
    uint32_t value;
} gantsorol_number;

/* A writer's answer. */
typedef struct gantsorol_written {
    uint8_t refusal;
    /* the length of the line, its line feed included, or of the file; 0 when refused */
    size_t len;
} gantsorol_written;

/* The reader's answer; all 0 but the refusal when refused. */
typedef struct gantsorol_line {
    uint8_t refusal;
    /* 'D', 'O' or 'M' */
    uint8_t letter;
    /* the row, or the triple's first row */
    size_t row;
    /* the sender; 0 for a 'D', which names none */
    size_t post;
} gantsorol_line;

/* ---- Sessions ---- */

/*
 * A new session of a post with one or two check points, all rows empty; a refused one has 0 in every field. Where points
 * is 1, second is not looked at, and is 0 in the session. Refusals 1 to 4.
 */
gantsorol_answer gantsorol_new(size_t n, size_t t, size_t post, size_t points, uint32_t first, uint32_t second);

/*
 * Loads the post's part of a drawn row into an empty row, which becomes raw.
 * rows: GANTSOROL_ROWS_LEN, written. pack: GANTSOROL_ROW_LEN, read. Refusals 1 to 8.
 */
gantsorol_answer gantsorol_load_row(gantsorol_session session, uint32_t *rows, size_t rows_len, size_t row,
                                    const uint32_t *pack, size_t pack_len);

/*
 * Loads the post's part of a drawn triple into the empty rows first, first + 1 and first + 2, which get the marks 3, 4
 * and 4.
 * rows: GANTSOROL_ROWS_LEN, written. pack: 3 * GANTSOROL_ROW_LEN, read. Refusals 1 to 8.
 */
gantsorol_answer gantsorol_load_triple(gantsorol_session session, uint32_t *rows, size_t rows_len, size_t first,
                                       const uint32_t *pack, size_t pack_len);

/*
 * Adds the dealer's number c to the public sums of a raw row, which becomes held.
 * rows: GANTSOROL_ROWS_LEN, written. Refusals 1 to 8.
 */
gantsorol_answer gantsorol_deal(gantsorol_session session, uint32_t *rows, size_t rows_len, size_t row, uint32_t c);

/*
 * Reads "A,row," and rising post numbers, its line feed included, or "A,row," alone: the posts that may call for the opening
 * of a raw row, whoever might before. Its bits in barred are then 0 for these and 1 for all others, also above n.
 * line: of any length, read; at most GANTSOROL_ACCESS_LINE_LEN bytes where it is taken. Refusals 1 to 4, 10 (also where the
 * numbers do not rise strictly), 11 (also a post outside 1 to n), 7.
 */
gantsorol_answer gantsorol_access(gantsorol_session session, const uint8_t *line, size_t line_len);

/*
 * Writes the coefficients of a held row, which the post sends to open it, to out. The caller is the number of the post that
 * calls for the opening; one that the row's set does not have, 0, and any above n, gets 15.
 * rows: GANTSOROL_ROWS_LEN, read. out: GANTSOROL_MESSAGE_LEN, written. Refusals 1 to 8, 15.
 */
gantsorol_answer gantsorol_opening_message(gantsorol_session session, const uint32_t *rows, size_t rows_len, size_t row,
                                           size_t caller, uint32_t *out, size_t out_len);

/*
 * Opens a held row with a record: the number is the answer's value. The post's own block is not looked at, nor are the
 * coefficients of an absent one. A block whose polynomial does not have the row's check value at each of the post's check
 * points is not accepted. The number comes from the t+1 accepted posts with the lowest numbers; the shares of all further
 * ones must agree with them, or the refusal is 13.
 * rows: GANTSOROL_ROWS_LEN, read. record: GANTSOROL_RECORD_LEN, read. Refusals 1 to 9, 13.
 */
gantsorol_answer gantsorol_open(gantsorol_session session, const uint32_t *rows, size_t rows_len, size_t row,
                                const uint32_t *record, size_t record_len);

/*
 * Writes row a plus scale times row b, both held and perhaps the same, into the empty row dest, which becomes held. The
 * fee, a public element, is added to its public sums alone: its number is a's plus scale times b's plus the fee.
 * rows: GANTSOROL_ROWS_LEN, written. Refusals 1 to 8.
 */
gantsorol_answer gantsorol_linear(gantsorol_session session, uint32_t *rows, size_t rows_len, size_t dest, size_t a,
                                  size_t b, uint32_t scale, uint32_t fee);

/*
 * The first step of a product: for the held rows a and b, perhaps the same, and the unused triple l, l', l'' (marks 3, 4
 * and 4) that begins at the row first, writes the masks that the post sends to out: the coefficients of a - l, then those
 * of b - l'. The row first gets mark 5, so that a triple serves one product only, and a and b are remembered.
 * rows: GANTSOROL_ROWS_LEN, read. out: GANTSOROL_MASKS_LEN, written. Refusals 1 to 8.
 */
gantsorol_answer gantsorol_masks(gantsorol_session session, const uint32_t *rows, size_t rows_len, size_t a, size_t b,
                                 size_t first, uint32_t *out, size_t out_len);

/*
 * The second step: opens a - l with the record record_a and b - l' with record_b, each as gantsorol_open does, and
 * remembers the two numbers. The marks 5, 4 and 4 of the triple become 7, 4 and 4. A sender's block has the first half of
 * its masks in record_a, the other half in record_b. The rows remembered must still be held. A refused collect may be
 * called again, with other records; after one that was done, another gets 7.
 * rows: GANTSOROL_ROWS_LEN, read. record_a, record_b: GANTSOROL_RECORD_LEN each, read. Refusals 1 to 9, 13.
 */
gantsorol_answer gantsorol_collect(gantsorol_session session, const uint32_t *rows, size_t rows_len, size_t first,
                                   const uint32_t *record_a, size_t record_a_len, const uint32_t *record_b,
                                   size_t record_b_len);

/*
 * The third step: writes the product of a and b, from the two numbers remembered, into the row first + 2. The marks 7, 4
 * and 4 of the triple become 6, 6 and 2: the product is held like a dealt number. The rows a and b must still be held (7):
 * the posts that may call for the product are those that may for both.
 * rows: GANTSOROL_ROWS_LEN, written. Refusals 1 to 8.
 */
gantsorol_answer gantsorol_multiply(gantsorol_session session, uint32_t *rows, size_t rows_len, size_t first);

/* ---- Several dealers ---- */

/*
 * A new dealers' state: 8 as the last dealer served, then zeros, so that the first turn begins with dealer 1; the refusal.
 * state: GANTSOROL_DEALERS_LEN, written. Refusal 5.
 */
uint8_t gantsorol_new_state(uint8_t *state, size_t state_len);

/*
 * Puts a dealer's line into its place, where it waits for a turn; the refusal. The line is not read: bytes that are no "D"
 * line are refused by the turn that takes them. Byte 17 * dealer - 16 of the state gets the line's length and those from
 * 17 * dealer - 15 on the line; every other byte stays as it is, those behind a shorter line too.
 * state: GANTSOROL_DEALERS_LEN, written. dealer: 1 to 8. line: 1 to GANTSOROL_DEAL_LINE_LEN bytes, read.
 * Refusals 5, 16, 17, 10, in this order; 16 looks at every place of the state.
 */
uint8_t gantsorol_place(uint8_t *state, size_t state_len, size_t dealer, const uint8_t *line, size_t line_len);

/*
 * Takes one line: from the dealer after the one last served, going round, the first with a line waiting. The line is read, 10
 * for any but a "D" line, and dealt as gantsorol_deal does. Whatever the line gets, its place's length, byte 17 * dealer - 16,
 * is then 0, and byte 0 is its dealer; the place's other bytes stay. With a refusal 10, 11, 7 or 8 these two are all that has
 * changed: session and rows are as they were. If no line waits the turn is not refused, and changes nothing.
 * rows: GANTSOROL_ROWS_LEN, written. state: GANTSOROL_DEALERS_LEN, written.
 * Refusals 1 to 5 and 16, which take no line; then, of a line taken, 10, 11, 7 and 8.
 */
gantsorol_answer gantsorol_turn(gantsorol_session session, uint32_t *rows, size_t rows_len, uint8_t *state, size_t state_len);

/* ---- Relations ---- */

/*
 * A relation says that the sum of its terms is 0 modulo p. Its product terms are proved with a triple each: the masks are
 * made, sent and heard as those of single products, then every post finishes and has its part of the sum, which is opened
 * like any held number. Where the posts have parts of one draw, made the same deals, sums and masks, and the
 * polynomials that were accepted are truly their senders', it is 0 exactly when the relation holds. Nothing but the sum is
 * shown.
 *
 * The lists of masks and of records hold those of each product term, in the order of the terms, those of a - l first:
 * k product terms over the whole list of terms, also where that list is too long. A plain term adds nothing to them; without
 * a product term they are empty.
 */

/*
 * The masks of all product terms, as gantsorol_masks makes them of one: each term's rows must be held and its triple
 * unused, and no triple may be named twice (7). The numbers of a plain term's row are not read. Each triple's first row
 * gets mark 5 and remembers its term's rows.
 * rows: GANTSOROL_ROWS_LEN, read. terms: 1 to GANTSOROL_MAX_TERMS, read. out: GANTSOROL_RELATION_MASKS_LEN, written.
 * Refusals 1 to 5, 14, 6 to 8.
 */
gantsorol_answer gantsorol_relation_masks(gantsorol_session session, const uint32_t *rows, size_t rows_len,
                                          const gantsorol_term *terms, size_t terms_len, uint32_t *out, size_t out_len);

/*
 * Finishes all product terms, each as gantsorol_collect and then gantsorol_multiply do, and writes the sum of all terms
 * into the empty row `row`, which becomes held. Each term's rows must be held and each triple, with the marks 5, 4 and 4,
 * must remember its term's rows in their order (7); the two numbers that it opens to are remembered, and stay. All
 * checks come before the first write: a 9 or 13 of the last record leaves every triple as it was, and the call may be made
 * again with other records.
 * rows: GANTSOROL_ROWS_LEN, written. terms: 1 to GANTSOROL_MAX_TERMS, read. records: GANTSOROL_RELATION_RECORDS_LEN, read.
 * Refusals 1 to 5, 14, 6 to 9, 13, each over all terms, 6 and 7 of the sum's row last.
 */
gantsorol_answer gantsorol_relation_finish(gantsorol_session session, uint32_t *rows, size_t rows_len,
                                           const gantsorol_term *terms, size_t terms_len, size_t row,
                                           const uint32_t *records, size_t records_len);

/* ---- Records ---- */

/*
 * Puts what a post sent, the coefficients of its message or of one of its masks, into the post's block of a record, which
 * becomes present; the refusal. What stood in the block is written over, the other blocks stay as they are.
 * record: GANTSOROL_RECORD_LEN, written. message: GANTSOROL_MESSAGE_LEN, read. Refusals 1 to 5 and 8.
 */
uint8_t gantsorol_record_put(size_t n, size_t t, size_t points, uint32_t *record, size_t record_len, size_t post,
                             const uint32_t *message, size_t message_len);

/*
 * Takes a post's message out of a record again: its block becomes absent, all zeros, and the other blocks stay as they
 * are; the refusal.
 * record: GANTSOROL_RECORD_LEN, written. Refusals 1 to 5.
 */
uint8_t gantsorol_record_remove(size_t n, size_t t, size_t points, uint32_t *record, size_t record_len, size_t post);

/* ---- The factory and the dealer ---- */

/*
 * Writes all posts' parts of a drawn row to out, post 1 first; the refusal. The numbers drawn are the caller's to
 * make: each uniform, independent and used once. The dealer gets f, the start of the draw.
 * check_points: GANTSOROL_CHECK_POINTS_LEN, read. draw: GANTSOROL_ROW_DRAW_LEN, read. out: GANTSOROL_PACKS_LEN, written.
 * Refusals 1, 2, 4, 5 and 8.
 */
uint8_t gantsorol_factory_row(size_t n, size_t t, size_t points, const uint32_t *check_points, size_t check_points_len,
                              const uint32_t *draw, size_t draw_len, uint32_t *out, size_t out_len);

/*
 * Writes all posts' parts of a drawn triple to out: the n rows of l, then those of l', then those of l'', whose number
 * is the product of the other two; the refusal. Nobody gets the draw.
 * check_points: GANTSOROL_CHECK_POINTS_LEN, read. draw: GANTSOROL_TRIPLE_DRAW_LEN, read. out: GANTSOROL_TRIPLE_PACKS_LEN,
 * written. Refusals 1, 2, 4, 5 and 8.
 */
uint8_t gantsorol_factory_triple(size_t n, size_t t, size_t points, const uint32_t *check_points, size_t check_points_len,
                                 const uint32_t *draw, size_t draw_len, uint32_t *out, size_t out_len);

/* The number c = u - f(0) that the dealer of u broadcasts, where constant is f(0). Refusal 8. */
gantsorol_number gantsorol_dealer_number(uint32_t u, uint32_t constant);

/*
 * Writes a post's pack file at the start of out: the line "S,n,t,post,point", or "W,n,t,post,first,second" where a post has
 * two check points, then by rising row "R,row," and the post's part of a drawn row, or "T,row," and its three rows of a
 * drawn triple, each line with a line feed; the rest of out stays as it is. The value is the file's length. The street
 * program takes the file of a station of at most 32 posts.
 * check_points: GANTSOROL_CHECK_POINTS_LEN, read. kinds: GANTSOROL_ROWS, read: 0 for an empty row, 1 for a raw one, 3 for a
 * triple's first, whose other two rows have 0. draws: by rising row, GANTSOROL_ROW_DRAW_LEN for each 1 and
 * GANTSOROL_TRIPLE_DRAW_LEN for each 3, wherever it stands, read. out: at least the file's length.
 * Refusals 1, 2, 3, 4, 5, 6 (a 3 above row 93), 7 (a kind other than 0 inside a triple), 8 (another kind, or a number
 * drawn that is at least p) and 12.
 */
gantsorol_written gantsorol_write_pack(size_t n, size_t t, size_t post, size_t points, const uint32_t *check_points,
                                       size_t check_points_len, const uint8_t *kinds, size_t kinds_len,
                                       const uint32_t *draws, size_t draws_len, uint8_t *out, size_t out_len);

/* ---- For the works' testers: what a stolen set of posts gives away ---- */

/*
 * Finds the draw behind another secret; the refusal. For one row that was only loaded and dealt, by none of the posts listed,
 * writes to out the draw with the same check points that shows those posts the same record where the wanted secret is dealt in
 * place of the secret: their packs, their rows, and c. So what up to t posts hold and hear fits every secret alike. f, then each
 * v, changes by the polynomial of least degree that does this; with no posts listed only f changes. Equal secrets give the draw
 * itself, even for all n posts. With more than t posts listed and secrets that differ there is no such draw (19).
 * It is run at the works, which knows the draw and the check points: its time depends on the check points of the listed posts.
 * check_points: GANTSOROL_CHECK_POINTS_LEN, read. draw: GANTSOROL_ROW_DRAW_LEN, read. posts: rising numbers from 1 to n, of any
 * length, read; it may be empty. out: GANTSOROL_ROW_DRAW_LEN, written. Refusals 1, 2, 4, 5, 8, 18 (also where the secrets are
 * equal) and 19.
 */
uint8_t gantsorol_other_draw(size_t n, size_t t, size_t points, const uint32_t *check_points, size_t check_points_len,
                             const uint32_t *draw, size_t draw_len, uint32_t secret, uint32_t wanted, const uint32_t *posts,
                             size_t posts_len, uint32_t *out, size_t out_len);

/* ---- Broadcast lines ---- */

/*
 * Writes "D,row,c" and a line feed at the start of out; the rest of out stays as it is.
 * out: at least the line's length. Refusals 1, 2, 6, 8 and 12.
 */
gantsorol_written gantsorol_write_deal(size_t n, size_t t, size_t row, uint32_t c, uint8_t *out, size_t out_len);

/*
 * Writes "O,row,post," the coefficients and a line feed at the start of out; the rest of out stays as it is.
 * coefficients: GANTSOROL_MESSAGE_LEN, read. out: at least the line's length. Refusals 1 to 6, 8 and 12.
 */
gantsorol_written gantsorol_write_opening(size_t n, size_t t, size_t points, size_t row, size_t post,
                                          const uint32_t *coefficients, size_t coefficients_len, uint8_t *out,
                                          size_t out_len);

/*
 * Writes "M,row,post," the coefficients of both masks and a line feed at the start of out, where row is a triple's
 * first; the rest of out stays as it is.
 * coefficients: GANTSOROL_MASKS_LEN, read. out: at least the line's length. Refusals 1 to 6, 8 and 12.
 */
gantsorol_written gantsorol_write_masks(size_t n, size_t t, size_t points, size_t row, size_t post,
                                        const uint32_t *coefficients, size_t coefficients_len, uint8_t *out,
                                        size_t out_len);

/*
 * Reads a line, its line feed included, and fills out with its numbers (c, or the coefficients) and then with zeros.
 * line: of any length, read. out: GANTSOROL_LINE_LIST_LEN, written. Refusals 1, 2, 4, 5, 10 and 11.
 */
gantsorol_line gantsorol_read(size_t n, size_t t, size_t points, const uint8_t *line, size_t line_len, uint32_t *out,
                              size_t out_len);

#ifdef __cplusplus
}
#endif

#endif
