/* For host/c/stack.c: one function, run on a stack of its own. */
#pragma once
#include <stddef.h>

typedef struct ucontext {
    struct {
        void *ss_sp;
        size_t ss_size;
    } uc_stack;
    struct ucontext *uc_link;
    void (*function)(void);
} ucontext_t;

void call_on(void (*function)(void), void *stack);

static inline void getcontext(ucontext_t *context) {
    context->function = 0;
}

static inline void makecontext(ucontext_t *context, void (*function)(void), int arguments) {
    (void)arguments;
    context->function = function;
}

/* Comes back when the function has returned. */
static inline void swapcontext(ucontext_t *here, const ucontext_t *there) {
    (void)here;
    call_on(there->function, (char *)there->uc_stack.ss_sp + there->uc_stack.ss_size);
}
