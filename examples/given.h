/* Numbers that a program is given, and files that only their owner may read. */
#ifndef GIVEN_H
#define GIVEN_H

#include <fcntl.h>
#include <stdint.h>
#include <stdio.h>
#include <string.h>
#include <sys/stat.h>
#include <unistd.h>

/* A decimal number below `bound`, at most 2^32, and nothing else: 1, or 0 where the text is none. */
static inline int given_number(const char *text, uint64_t bound, uint32_t *number) {
    uint64_t value = 0;
    if (*text == 0)
        return 0;
    for (; *text != 0; text++) {
        if (*text < '0' || '9' < *text)
            return 0;
        value = 10 * value + (uint64_t)(*text - '0');
        if (value >= bound)
            return 0;
    }
    *number = (uint32_t)value;
    return 1;
}

/* A file through no buffer of stdio's, which would keep what went through it and which nobody erases; NULL stays NULL. */
static inline FILE *unbuffered(FILE *file) {
    if (file != NULL)
        setvbuf(file, NULL, _IONBF, 0);
    return file;
}

/* A new file that nobody but its owner reads, whatever stood there; NULL where there can be none. */
static inline FILE *own_file(const char *path) {
    if (unlink(path) != 0 && access(path, F_OK) == 0)
        return NULL;
    int opened = open(path, O_WRONLY | O_CREAT | O_EXCL, S_IRUSR | S_IWUSR);
    return opened < 0 ? NULL : unbuffered(fdopen(opened, "wb"));
}

/* Writes the names of the files in a path's folder through to the disk: 1, or 0 where that fails. Without it a renamed file
   may have its old contents again after a power loss. */
static inline int synced_folder(const char *path) {
    char folder[4096];
    const char *end = strrchr(path, '/');
    size_t length = end == NULL ? 0 : (size_t)(end - path) + 1;
    if (snprintf(folder, sizeof folder, "./%.*s", (int)length, path) >= (int)sizeof folder)
        return 0;
    int opened = open(path[0] == '/' ? folder + 2 : folder, O_RDONLY);
    if (opened < 0)
        return 0;
    int done = fsync(opened) == 0;
    return close(opened) == 0 && done;
}

#endif
