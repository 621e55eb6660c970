#define _POSIX_C_SOURCE 200809L
#include "on_stack.h"

#include <pthread.h>
#include <stdint.h>
#include <stdio.h>
#include <stdlib.h>

#ifndef STACK_BYTES
#define STACK_BYTES 262144
#endif

typedef struct Started {
    pthread_t thread;
    void (*work)(void *);
    void *argument;
    uintptr_t first; /* where the first frame stands */
} Started;

static void *run(void *at)
{
    Started *started = at;
    started->first = (uintptr_t)&at;
    started->work(started->argument);
    return NULL;
}

static void nothing(void *argument) { (void)argument; }

static void must(int number)
{
    if (number != 0) {
        printf("no thread with a stack of %d bytes\n", STACK_BYTES);
        exit(2);
    }
}

/* What the C library takes of a thread's stack for itself, as a thread on bytes of ours shows. */
static size_t taken(void)
{
    static uint64_t stack[8192];
    Started started = {.work = nothing};
    pthread_attr_t attributes;
    must(pthread_attr_init(&attributes));
    must(pthread_attr_setstack(&attributes, stack, sizeof stack));
    must(pthread_create(&started.thread, &attributes, run, &started));
    must(pthread_join(started.thread, NULL));
    pthread_attr_destroy(&attributes);
    return (uintptr_t)stack + sizeof stack - started.first;
}

void *start_on_stack(void (*work)(void *), void *argument)
{
    Started *started = malloc(sizeof *started);
    pthread_attr_t attributes;
    must(started == NULL);
    started->work = work;
    started->argument = argument;
    must(pthread_attr_init(&attributes));
    must(pthread_attr_setstacksize(&attributes, STACK_BYTES + taken()));
    must(pthread_create(&started->thread, &attributes, run, started));
    pthread_attr_destroy(&attributes);
    return started;
}

void end_on_stack(void *handle)
{
    Started *started = handle;
    must(pthread_join(started->thread, NULL));
    free(started);
}
