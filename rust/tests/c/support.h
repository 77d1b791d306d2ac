/*
 * What the programs of the boundary share: random numbers, messages as they are
 * received, buffers that have exactly the room that their lengths say, and the
 * measuring of the stack.
 */
#ifndef SUPPORT_H
#define SUPPORT_H

#ifndef _DEFAULT_SOURCE
#error define _DEFAULT_SOURCE first
#endif

#include <pthread.h>
#include <stdint.h>
#include <stdio.h>
#include <stdlib.h>
#include <string.h>
#include <sys/mman.h>
#include <unistd.h>

enum { GUARD = 0x5A, STACK = 65536 };

/* ---- random numbers: xorshift64* ---- */

static uint64_t state = 0x9E3779B97F4A7C15u;

static uint64_t any(void)
{
    state ^= state >> 12;
    state ^= state << 25;
    state ^= state >> 27;
    return state * 0x2545F4914F6CDD1Du;
}

static size_t below(size_t bound)
{
    return (size_t)((any() >> 16) % bound);
}

/* ---- messages ---- */

/* The e soft values of coded bits, of uneven strengths. Where the code has much
 * to spare, every 19th is wrong, but as weak as can be. */
static void receive(const uint8_t *coded, uint64_t a, size_t e, int32_t *soft)
{
    int spare = 4 * (a + 24) <= e;
    for (size_t i = 0; i < e; i++) {
        int32_t strength = 1 + (int32_t)below(127);
        if (spare && i % 19 == 7)
            strength = -1;
        soft[i] = coded[i] == 0 ? strength : -strength;
    }
}

/* ---- buffers with exactly the room that they need ---- */

enum how { ALLOCATED, SHIFTED, BEFORE_PAGE, BEHIND_PAGE, HOWS };

static const char *const how_names[] = {"allocated",
                                        "allocated at an odd address",
                                        "before a page", "behind a page"};

struct room {
    uint8_t *pages; /* between two that cannot be accessed */
    size_t whole;   /* their size */
    uint8_t *block; /* what was allocated, or NULL */
    uint8_t *start;
    size_t size;
};

static void need(int done, const char *what)
{
    if (!done) {
        perror(what);
        exit(2);
    }
}

static uint8_t *mapped(size_t size)
{
    void *map = mmap(NULL, size, PROT_NONE, MAP_PRIVATE | MAP_ANONYMOUS, -1, 0);
    need(map != MAP_FAILED, "mmap");
    return (uint8_t *)map;
}

static void protect(uint8_t *start, size_t size, int access)
{
    need(mprotect(start, size, access) == 0, "mprotect");
}

static size_t page_size(void)
{
    return (size_t)sysconf(_SC_PAGESIZE);
}

/* A room for at most so many bytes. */
static struct room room_for(size_t most)
{
    size_t page = page_size();
    struct room room = {NULL, (most / page + 1) * page, NULL, NULL, 0};
    room.pages = mapped(room.whole + 2 * page) + page;
    return room;
}

static uint8_t *put(struct room *room, enum how how, const void *content,
                    size_t count, size_t entry)
{
    room->size = count * entry;
    room->block = NULL;
    if (how == ALLOCATED || how == SHIFTED) {
        size_t shift = how == SHIFTED ? entry : 0;
        room->block = (uint8_t *)malloc(shift + room->size);
        need(room->block != NULL, "malloc");
        room->start = room->block + shift;
    } else {
        protect(room->pages, room->whole, PROT_READ | PROT_WRITE);
        memset(room->pages, GUARD, room->whole);
        room->start = room->pages;
        if (how == BEFORE_PAGE)
            room->start += room->whole - room->size;
    }
    memcpy(room->start, content, room->size);
    return room->start;
}

static void make_read_only(const struct room *room)
{
    if (room->block == NULL)
        protect(room->pages, room->whole, PROT_READ);
}

/* Whether what surrounds the buffer holds what it held. */
static int surrounded(const struct room *room)
{
    if (room->block != NULL)
        return 1;
    const uint8_t *end = room->start + room->size;
    for (const uint8_t *at = room->pages; at < room->pages + room->whole; at++)
        if ((at < room->start || at >= end) && *at != GUARD)
            return 0;
    return 1;
}

/* ---- the stack ---- */

struct job {
    void (*run)(void *);
    void *argument;
    uintptr_t from; /* where the stack stood before the run */
};

static void *work(void *argument)
{
    struct job *job = (struct job *)argument;
    volatile uint8_t here = 0;
    job->from = (uintptr_t)&here;
    job->run(job->argument);
    return NULL;
}

/* What a run takes of the stack of a thread of its own, which has 64 kB. */
static size_t stack_of(void (*run)(void *), void *argument)
{
    static uint8_t *stack;
    struct job job = {run, argument, 0};
    pthread_t thread;
    pthread_attr_t attributes;
    size_t untouched = 0;

    if (stack == NULL) {
        stack = mapped(page_size() + STACK) + page_size();
        protect(stack, STACK, PROT_READ | PROT_WRITE);
    }
    memset(stack, GUARD, STACK);
    need(pthread_attr_init(&attributes) == 0, "pthread_attr_init");
    need(pthread_attr_setstack(&attributes, stack, STACK) == 0,
         "pthread_attr_setstack");
    need(pthread_create(&thread, &attributes, work, &job) == 0,
         "pthread_create");
    need(pthread_join(thread, NULL) == 0, "pthread_join");
    need(pthread_attr_destroy(&attributes) == 0, "pthread_attr_destroy");
    while (untouched < STACK && stack[untouched] == GUARD)
        untouched++;
    return (size_t)(job.from - (uintptr_t)(stack + untouched));
}

/* Prints what was taken; whether it is within a fifth of what the header says. */
static int stack_is(const char *name, size_t taken, size_t said)
{
    printf("%s takes %zu bytes of the stack\n", name, taken);
    if (taken <= said * 6 / 5 && taken >= said * 4 / 5)
        return 1;
    fprintf(stderr, "the header says %zu\n", said);
    return 0;
}

#endif
