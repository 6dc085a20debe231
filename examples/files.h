/* Files of the example hosts. Each of these says on the error stream what went wrong, and returns 1 if nothing did. */
#ifndef FILES_H
#define FILES_H

#include <stdint.h>
#include <stdio.h>
#include <sys/stat.h>

/* An output that is the input, by any name or link, is refused: it may be the only copy. */
static inline int apart(const char *input, const char *output)
{
    struct stat in, out;
    if (stat(input, &in) != 0 || stat(output, &out) != 0 || in.st_dev != out.st_dev || in.st_ino != out.st_ino || !S_ISREG(out.st_mode))
        return 1;
    fprintf(stderr, "%s is %s, which would be lost; name another file\n", output, input);
    return 0;
}

/* The first bytes of a file, as many as there is room for. */
static inline int load(const char *path, uint8_t *bytes, size_t room, size_t *size)
{
    FILE *file = fopen(path, "rb");
    if (!file) {
        fprintf(stderr, "%s cannot be opened\n", path);
        return 0;
    }
    *size = fread(bytes, 1, room, file);
    int failed = ferror(file); /* a folder can be opened, and not read */
    fclose(file);
    if (failed)
        fprintf(stderr, "%s cannot be read\n", path);
    return !failed;
}

static inline int store(const char *path, const uint8_t *bytes, size_t size)
{
    FILE *file = fopen(path, "wb");
    if (!file) {
        fprintf(stderr, "%s cannot be opened\n", path);
        return 0;
    }
    size_t written = fwrite(bytes, 1, size, file);
    if (fclose(file) != 0 || written != size) {
        fprintf(stderr, "%s cannot be written\n", path);
        return 0;
    }
    return 1;
}

#endif
