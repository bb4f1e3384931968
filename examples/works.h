/* What programs of a works share: random numbers, and files that only their owner may read. */
#include <stdlib.h>

#include "gantsorol.h"
#include "given.h"

static inline void must(int done, const char *what) {
    if (!done) {
        fprintf(stderr, "%s\n", what);
        exit(1);
    }
}

/* A number from low to p - 1, each as likely as another: 31 random bits, drawn again where they are outside. */
static inline uint32_t draw_from(uint32_t low, FILE *random_numbers) {
    uint32_t number;
    do {
        must(fread(&number, sizeof number, 1, random_numbers) == 1, "no random numbers");
        number &= 0x7fffffff;
    } while (number < low || number >= GANTSOROL_MODULUS);
    return number;
}

/* Check points, none of them 0 and each by itself, and a draw, from the operating system. */
static inline void draw(uint32_t *check_points, size_t check_points_len, uint32_t *draws, size_t draws_len) {
    FILE *random_numbers = unbuffered(fopen("/dev/urandom", "rb"));
    must(random_numbers != NULL, "no random numbers");
    for (size_t i = 0; i < check_points_len; i++)
        check_points[i] = draw_from(1, random_numbers);
    for (size_t i = 0; i < draws_len; i++)
        draws[i] = draw_from(0, random_numbers);
    fclose(random_numbers);
}

/* DIRECTORY/NAME.txt, new. */
static inline FILE *created(const char *directory, const char *name) {
    char path[4096];
    must(snprintf(path, sizeof path, "%s/%s.txt", directory, name) < (int)sizeof path, "the path is too long");
    FILE *file = own_file(path);
    must(file != NULL, path);
    return file;
}

/* DIRECTORY/post-POST.txt, for posts of one digit. */
static inline FILE *created_for_post(const char *directory, int post) {
    char name[] = {'p', 'o', 's', 't', '-', (char)('0' + post), 0};
    return created(directory, name);
}

/* A line or a file that a call wrote. */
static inline void put(FILE *file, const uint8_t *text, gantsorol_written written) {
    must(written.refusal == GANTSOROL_OK, gantsorol_refusal_text(written.refusal));
    must(fwrite(text, 1, written.len, file) == written.len, "a line or a file is not written");
}
