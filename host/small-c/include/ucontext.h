/* As much of it as a call on a stack of its own needs, where there is no system: host/stack.c. */
#ifndef UCONTEXT_H
#define UCONTEXT_H
#include <stddef.h>
typedef struct ucontext {
    struct {
        void *ss_sp;
        size_t ss_size;
    } uc_stack;
    struct ucontext *uc_link;
    void (*call)(void);
} ucontext_t;

static inline int getcontext(ucontext_t *context)
{
    context->call = NULL;
    return 0;
}

static inline void makecontext(ucontext_t *context, void (*call)(void), int count)
{
    (void)count;
    context->call = call;
}

void call_on(char *top, void (*call)(void));

static inline int swapcontext(ucontext_t *here, const ucontext_t *there)
{
    (void)here;
    call_on((char *)there->uc_stack.ss_sp + there->uc_stack.ss_size, there->call);
    return 0;
}
#endif
