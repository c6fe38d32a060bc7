/* Depth of a call on the stack. */
#ifndef STACK_H
#define STACK_H

#include <stddef.h>

/* Runs the work on a stack of its own, of 256 KiB, and answers the number of bytes touched. */
size_t stack_used(void (*work)(void *), void *argument);

#endif
