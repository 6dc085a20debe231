#ifndef STDIO_H
#define STDIO_H
#include <stddef.h>
typedef struct stream FILE;
#define stderr ((FILE *)0) /* there is one stream for all */
int printf(const char *format, ...) __attribute__((format(printf, 1, 2)));
int fprintf(FILE *stream, const char *format, ...) __attribute__((format(printf, 2, 3)));
int snprintf(char *text, size_t room, const char *format, ...) __attribute__((format(printf, 3, 4)));
#endif
