/* The worked example by the library's three calls: a store is set up, eleven lines are carried out, and all nodes are listed.
 *
 *     cc -std=c11 -Wall -Wextra -Iinclude examples/example.c crates/exports/out/libexports.a -o example
 */
#include <inttypes.h>
#include <stdio.h>
#include <string.h>

#include "patterns.h"

static const char setup[] =
    "p,1,1\n"
    "p,2,2\n"
    "r,0,1\n"
    "l,1,0,oak\n"
    "l,2,1,elm\n"
    "end\n";

static const char *const lines[] = {
    "1,login,0,oak",
    "1,mkdir,/u1/d,0700",
    "1,add,/u1/d,/rep/cut,1",
    "1,create,/u1/a,0600",
    "1,add,/u1/a,/rep/cut/a,1",
    "2,mv,/rep/cut/a,/u2/a",
    "2,login,1,elm",
    "2,co,/rep/cut,/u2/w",
    "2,write,/u2/w/a,51 32",
    "2,commit,/u2/w/a",
    "1,commit,/u1/a",
};

/* The caller keeps both buffers and lends them for each call. */
static uint8_t store[PATTERNS_STORE];
static uint8_t answer[PATTERNS_ANSWER];

int main(void)
{
    uint64_t value;
    uint32_t number = patterns_setup(store, sizeof store, (const uint8_t *)setup, strlen(setup), &value);
    if (number != PATTERNS_DONE) {
        printf("no,%" PRIu32 ",%" PRIu64 "\n", number, value);
        return 1;
    }
    for (size_t i = 0; i < sizeof lines / sizeof lines[0]; i++) {
        const char *line = lines[i];
        number = patterns_run(store, sizeof store, (const uint8_t *)line, strlen(line), answer, sizeof answer, &value);
        if (number != PATTERNS_DONE)
            printf("no,%" PRIu32 "\n", number);
        else if (value == PATTERNS_NO_VALUE)
            printf("ok\n");
        else
            printf("ok,%.*s\n", (int)value, (const char *)answer);
    }
    /* Line n of the listing, from 0, until there is none. */
    for (size_t n = 0;; n++) {
        number = patterns_listing(store, sizeof store, n, answer, sizeof answer, &value);
        if (number != PATTERNS_DONE)
            return number == PATTERNS_MISSING ? 0 : 1;
        printf("%.*s\n", (int)value, (const char *)answer);
    }
}
