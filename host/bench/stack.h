#ifndef STACK_H
#define STACK_H

#include <stddef.h>

/* The most stack that a thread used which ran `body` with `argument`, in bytes;
 * 0 if no such thread could be made. What every thread needs for itself is
 * included. */
size_t stack_used(void (*body)(void *), void *argument);

#endif
