/* Measures stack by running on one that was painted before. */
#define _XOPEN_SOURCE 600 /* pthread_attr_setstack */
#include "stack.h"

#include <pthread.h>
#include <stdlib.h>
#include <string.h>

enum { STACK_BYTES = 1 << 20, PAGE_BYTES = 4096, PAINT = 0xA7 };

struct task {
    void (*body)(void *);
    void *argument;
};

static void *run_task(void *given)
{
    struct task *task = given;
    task->body(task->argument);
    return NULL;
}

static int run_on(unsigned char *stack, struct task *task)
{
    pthread_attr_t attributes;
    pthread_t thread;
    int made;

    if (pthread_attr_init(&attributes) != 0)
        return 0;
    made = pthread_attr_setstack(&attributes, stack, STACK_BYTES) == 0
        && pthread_create(&thread, &attributes, run_task, task) == 0;
    pthread_attr_destroy(&attributes);
    return made && pthread_join(thread, NULL) == 0;
}

size_t stack_used(void (*body)(void *), void *argument)
{
    struct task task = {body, argument};
    unsigned char *stack = aligned_alloc(PAGE_BYTES, STACK_BYTES);
    size_t used = 0;

    if (stack == NULL)
        return 0;
    memset(stack, PAINT, STACK_BYTES);
    if (run_on(stack, &task)) {
        size_t clean = 0;
        while (clean < STACK_BYTES && stack[clean] == PAINT)
            clean++;
        used = STACK_BYTES - clean;
    }
    free(stack);
    return used;
}
