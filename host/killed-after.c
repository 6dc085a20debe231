/* Runs a program and ends it, without a word to it, once it has had so many microseconds of a processor: at a moment that does not depend
 * on how busy the machine is.
 *
 *     killed-after MICROSECONDS PROGRAM [WORD...] */
#define _XOPEN_SOURCE 700
#include <stdlib.h>
#include <sys/time.h>
#include <unistd.h>

int main(int count, char **words)
{
    if (count < 3)
        return 2;
    long after = atol(words[1]);
    struct itimerval once = { .it_value = { after / 1000000, after % 1000000 } };
    if (setitimer(ITIMER_PROF, &once, NULL) != 0) /* it goes on in the program, and its signal ends that */
        return 2;
    execv(words[2], words + 2);
    return 2;
}
