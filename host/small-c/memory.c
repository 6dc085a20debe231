/* Memory and texts. */
#include <stdint.h>
#include <stdlib.h>
#include <string.h>

enum { HEAP = 4 << 20 };
static _Alignas(16) uint8_t heap[HEAP];
static size_t used, blocks;

/* Blocks stand one behind another; when the last one is given back, all of the heap is free. */
void *malloc(size_t size)
{
    size_t rounded = (size + 16) / 16 * 16; /* never empty, so that no two are at one place */
    if (rounded < size || rounded > HEAP - used)
        return NULL;
    void *block = heap + used;
    used += rounded;
    blocks++;
    return block;
}

void free(void *block)
{
    if (block != NULL && --blocks == 0)
        used = 0;
}

/* What is aligned goes by words: emulated, most of the time of a test goes here. */
typedef uintptr_t __attribute__((may_alias)) word;
enum { WORD = sizeof(word) };

static int aligned(const void *one, const void *other)
{
    return ((uintptr_t)one | (uintptr_t)other) % WORD == 0;
}

void *memcpy(void *to, const void *from, size_t size)
{
    uint8_t *t = to;
    const uint8_t *f = from;
    for (; aligned(t, f) && size >= WORD; size -= WORD, t += WORD, f += WORD)
        *(word *)t = *(const word *)f;
    for (; size > 0; size--)
        *t++ = *f++;
    return to;
}

void *memmove(void *to, const void *from, size_t size)
{
    uint8_t *t = to;
    const uint8_t *f = from;
    if ((uintptr_t)to <= (uintptr_t)from)
        return memcpy(to, from, size);
    while (size-- > 0)
        t[size] = f[size];
    return to;
}

void *memset(void *to, int byte, size_t size)
{
    uint8_t *t = to;
    for (; aligned(t, t) && size >= WORD; size -= WORD, t += WORD)
        *(word *)t = (uint8_t)byte * (word)0x0101010101010101u;
    for (; size > 0; size--)
        *t++ = (uint8_t)byte;
    return to;
}

int memcmp(const void *one, const void *other, size_t size)
{
    const uint8_t *a = one, *b = other;
    for (; aligned(a, b) && size >= WORD && *(const word *)a == *(const word *)b; size -= WORD)
        a += WORD, b += WORD;
    for (; size > 0; size--, a++, b++)
        if (*a != *b)
            return *a < *b ? -1 : 1;
    return 0;
}

size_t strlen(const char *text)
{
    size_t size = 0;
    while (text[size] != 0)
        size++;
    return size;
}

int strcmp(const char *one, const char *other)
{
    size_t size = strlen(one), other_size = strlen(other);
    return memcmp(one, other, (size < other_size ? size : other_size) + 1);
}

char *strchr(const char *text, int letter)
{
    for (; *text != (char)letter; text++)
        if (*text == 0)
            return NULL;
    return (char *)(uintptr_t)text;
}

/* Decimal digits only; no blanks, no sign. */
unsigned long long strtoull(const char *text, char **end, int base)
{
    unsigned long long number = 0;
    if (base != 10)
        abort();
    for (; *text >= '0' && *text <= '9'; text++)
        number = 10 * number + (unsigned)(*text - '0');
    if (end != NULL)
        *end = (char *)(uintptr_t)text;
    return number;
}

unsigned long strtoul(const char *text, char **end, int base)
{
    return (unsigned long)strtoull(text, end, base);
}
