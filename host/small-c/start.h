/* How a program prints and ends; how it starts is in the same file, start-linux.c or start-board.c. */
#ifndef START_H
#define START_H
#include <stddef.h>

void put_out(char *text, size_t size); /* behind the text there is room for a zero */
_Noreturn void end(int status);

#endif
