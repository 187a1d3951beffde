/* Measures how much stack the library's calls take, and fails if one takes more than include/patterns.h says.
 *
 * Each call runs in a thread whose stack was filled with one byte; the deepest byte that is another tells how far it went.
 */
#define _XOPEN_SOURCE 700 /* pthread_attr_setstack */

#include <pthread.h>
#include <stdio.h>
#include <stdlib.h>
#include <string.h>

#include "patterns.h"

enum { SAID = 64 * 1024, SAID_REFUSED = 8 * 1024, ROOM = 1024 * 1024, FILL = 0xa5 };

static uint8_t store[PATTERNS_STORE], answer[PATTERNS_ANSWER], *stack;
static const char *text;
static uint32_t number;

static void *nothing(void *p)
{
    return p;
}

static void *setup(void *p)
{
    uint64_t value;
    number = patterns_setup(store, sizeof store, (const uint8_t *)text, strlen(text), &value);
    return p;
}

static void *run(void *p)
{
    uint64_t value;
    number = patterns_run(store, sizeof store, (const uint8_t *)text, strlen(text), answer, sizeof answer, &value);
    return p;
}

static void *listing(void *p)
{
    uint64_t value;
    number = patterns_listing(store, sizeof store, 200, answer, sizeof answer, &value);
    return p;
}

/* The bytes of stack that a call takes beyond those of a thread that does nothing. */
static size_t taken(void *(*call)(void *), const char *with)
{
    static size_t none;
    pthread_attr_t attributes;
    pthread_t thread;
    size_t untouched = 0;
    text = with;
    memset(stack, FILL, ROOM);
    if (pthread_attr_init(&attributes) || pthread_attr_setstack(&attributes, stack, ROOM) ||
        pthread_create(&thread, &attributes, call, NULL) || pthread_join(thread, NULL))
        exit(2);
    while (untouched < ROOM && stack[untouched] == FILL)
        untouched++;
    if (call == nothing)
        none = ROOM - untouched;
    return ROOM - untouched - none;
}

/* The most of these lines, each of which must be done. */
static size_t lines(size_t most, const char *const *given)
{
    for (; *given; given++) {
        size_t n = taken(run, *given);
        if (number != PATTERNS_DONE)
            printf("%s: %u\n", *given, (unsigned)number), exit(2);
        if (n > most)
            most = n;
    }
    return most;
}

/* The most of these lines, each of which must be refused by one of the numbers before a command's own checks. */
static size_t refused(const char *const *given)
{
    size_t most = 0;
    for (; *given; given++) {
        size_t n = taken(run, *given);
        if (number != PATTERNS_NO_FORM && number != PATTERNS_UNKNOWN_CALLER && number != PATTERNS_TOO_DEEP)
            printf("%s: %u\n", *given, (unsigned)number), exit(2);
        if (n > most)
            most = n;
    }
    return most;
}

/* The most of a line filled in with each of these numbers. */
static size_t series(size_t most, const char *form, int from, int to)
{
    char line[64];
    const char *const one[] = {line, NULL};
    for (int n = from; n < to; n++) {
        snprintf(line, sizeof line, form, n);
        most = lines(most, one);
    }
    return most;
}

static const char *const first[] = {"1,login,0,oak", "1,mkdir,/u1/d,0700", "1,add,/u1/d,/rep/d,1", "1,create,/u1/f,0600",
                                    "1,write,/u1/f,51 32", NULL};
static const char *const then[] = {"1,co,/rep/d,/u1/w", "1,mv,/u1/w,/u1/d/w", "1,read,/u1/d/w", "1,cd,/u1/d", "1,mv,w,v",
                                   "1,cd,/u1", "1,commit,f", "1,up,/u1/f", "1,chmod,/u1/f,0640", "1,chgrp,/u1/f,1",
                                   "0,chown,/u1/f,2", "1,rm,/u1/f", "1,mkdir,/u1/e,0700", "1,rmdir,/u1/e", "1,del,/rep/d/f100",
                                   "1,logout", NULL};

static const char *const before[] = {"x", "1,nothing", "9,logout", "1,read,a/b/c/d/e/f", NULL};

int main(void)
{
    size_t most[4];
    stack = aligned_alloc(4096, ROOM);
    taken(nothing, "");
    most[0] = taken(setup, "p,1,1\nr,0,1\nl,1,0,oak\nend\n");
    most[1] = lines(0, first);
    most[1] = series(most[1], "1,add,/u1/f,/rep/d/f%d,1", 100, 220);
    most[1] = lines(most[1], then);
    most[2] = taken(listing, "");
    most[3] = refused(before);
    printf("stack: setup %zu, run %zu, listing %zu bytes; a line refused before its command %zu\n", most[0], most[1], most[2], most[3]);
    return most[0] > SAID || most[1] > SAID || most[2] > SAID || most[3] > SAID_REFUSED;
}
