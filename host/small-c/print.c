/* As much of printf as the tests use: %s %d %u %X, with - or 0, a width, and the sizes l, ll and z. Anything else ends the program. */
#include "start.h"
#include <stdbool.h>
#include <stdint.h>
#include <stdio.h>
#include <stdlib.h>
#include <string.h>

/* Text that is full goes out, or, where it is a caller's, is cut. */
struct text {
    char *at;
    size_t used, room;
    bool goes_out;
};

static char waiting[1024];
static struct text all = { waiting, 0, sizeof waiting, true };

static void flush(void)
{
    put_out(all.at, all.used);
    all.used = 0;
}

static void add(struct text *text, char letter)
{
    if (text->goes_out && text->used + 1 == text->room)
        flush();
    if (text->used + 1 < text->room)
        text->at[text->used++] = letter;
}

static void add_field(struct text *text, const char *field, size_t size, size_t width, char flag)
{
    for (size_t k = size; flag != '-' && k < width; k++)
        add(text, flag == '0' ? '0' : ' ');
    for (size_t k = 0; k < size; k++)
        add(text, field[k]);
    for (size_t k = size; flag == '-' && k < width; k++)
        add(text, ' ');
}

static void add_number(struct text *text, uint64_t number, unsigned base, size_t width, char flag)
{
    char digits[20];
    size_t at = sizeof digits;
    do
        digits[--at] = "0123456789ABCDEF"[number % base];
    while ((number /= base) > 0);
    add_field(text, digits + at, sizeof digits - at, width, flag);
}

static uint64_t next_number(__builtin_va_list *rest, const char *size)
{
    if (size[0] == 'l' && size[1] == 'l')
        return __builtin_va_arg(*rest, unsigned long long);
    if (size[0] == 'l')
        return __builtin_va_arg(*rest, unsigned long);
    return size[0] == 'z' ? __builtin_va_arg(*rest, size_t) : __builtin_va_arg(*rest, unsigned);
}

/* What comes after a percent sign; returns what is behind it. No test prints a number below 0. */
static const char *add_one(struct text *text, const char *format, __builtin_va_list *rest)
{
    char flag = *format == '-' || *format == '0' ? *format++ : ' ';
    char *behind;
    size_t width = strtoul(format, &behind, 10);
    const char *size = behind;
    while (*behind == 'l' || *behind == 'z')
        behind++;
    const char *word;
    switch (*behind) {
    case 's':
        word = __builtin_va_arg(*rest, const char *);
        add_field(text, word, strlen(word), width, flag);
        break;
    case 'd':
    case 'u': add_number(text, next_number(rest, size), 10, width, flag); break;
    case 'X': add_number(text, next_number(rest, size), 16, width, flag); break;
    default: abort();
    }
    return behind + 1;
}

static void add_all(struct text *text, const char *format, __builtin_va_list *rest)
{
    while (*format != 0)
        if (*format == '%')
            format = add_one(text, format + 1, rest);
        else
            add(text, *format++);
}

int printf(const char *format, ...)
{
    __builtin_va_list rest;
    __builtin_va_start(rest, format);
    add_all(&all, format, &rest);
    __builtin_va_end(rest);
    return 0;
}

int fprintf(FILE *stream, const char *format, ...)
{
    __builtin_va_list rest;
    (void)stream;
    __builtin_va_start(rest, format);
    add_all(&all, format, &rest);
    __builtin_va_end(rest);
    return 0;
}

int snprintf(char *to, size_t room, const char *format, ...)
{
    struct text text = { to, 0, room, false };
    __builtin_va_list rest;
    __builtin_va_start(rest, format);
    add_all(&text, format, &rest);
    __builtin_va_end(rest);
    to[text.used] = 0;
    return (int)text.used;
}

void exit(int status)
{
    flush();
    end(status);
}

void abort(void)
{
    exit(3);
}
