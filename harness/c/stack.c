/* The measure of stack.h: work on a painted stack of its own. */
#define _XOPEN_SOURCE 700

#include "stack.h"

#include <stdint.h>
#include <stdlib.h>
#include <string.h>
#include <ucontext.h>

enum { ROOM = 256 * 1024, PAINT = 0xa5 };

struct job {
    void (*work)(void *);
    void *argument;
    ucontext_t back;
};

/* makecontext passes ints alone: the pointer goes in two. */
static void start(unsigned high, unsigned low)
{
    struct job *job = (struct job *)(((uintptr_t)high << 16 << 16) | low);
    job->work(job->argument);
}

/* The room is painted; the stack grows down, so the paint that is left at its foot is what was not touched. */
size_t stack_used(void (*work)(void *), void *argument)
{
    struct job job = { .work = work, .argument = argument };
    ucontext_t context;
    size_t left = 0;
    unsigned char *room = malloc(ROOM);

    if (room == NULL)
        abort();
    memset(room, PAINT, ROOM);
    getcontext(&context);
    context.uc_stack.ss_sp = room;
    context.uc_stack.ss_size = ROOM;
    context.uc_link = &job.back;
    makecontext(&context, (void (*)(void))start, 2, (unsigned)((uintptr_t)&job >> 16 >> 16), (unsigned)(uintptr_t)&job);
    swapcontext(&job.back, &context);
    while (left < ROOM && room[left] == PAINT)
        left++;
    free(room);
    return ROOM - left;
}
