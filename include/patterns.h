/* The pattern repository's library calls, for C, C++ and whatever links like it.
 *
 * A store is 65,536 bytes that the caller keeps and lends; an answer buffer has at least 4,096. Buffers of one call do not
 * overlap, and value points to a number of the caller's. Every call returns a number of the table below: 0 where it is done, else
 * why it was refused, and then store and answer buffer are as they were. *value becomes the length of the text that stands from
 * the answer buffer's first byte, or for 17 the first wrong line from 1, or PATTERNS_NO_VALUE where there is neither.
 *
 * Buffers may lie at any address, and be NULL where their length is 0; value is aligned as a uint64_t is. The text has no byte 0 at
 * its end.
 *
 * A store that was loaded from somewhere may be damaged: every patterns_run and patterns_listing judges it first and answers 18 if
 * it is not sound, so patterns_listing of line 0 tells whether it is. docs/FORMAT.md has its bytes.
 *
 * The library has no globals and allocates nothing. Calls on different stores may run at once in several threads; a store is lent
 * to one call at a time. A call takes up to 64 KiB of stack, one that is refused before its command's own checks (20, 18, 1, 2, 19
 * of a short path) up to 8. Link with libexports.a (rt staticlib exports), for x86-64; it needs memcpy, memmove and memset and
 * nothing else.
 */
#ifndef PATTERNS_H
#define PATTERNS_H

#include <stddef.h>
#include <stdint.h>

#define PATTERNS_STORE 65536
#define PATTERNS_ANSWER 4096
#define PATTERNS_NO_VALUE UINT64_MAX

/* How many of document 02's requests this library carries out, and the number of the store's format: stores of another are set up
 * again. */
#define PATTERNS_REQUESTS 5
#define PATTERNS_FORMAT 3

#ifdef __cplusplus
extern "C" {
#endif

enum patterns_number {
    PATTERNS_DONE = 0,
    PATTERNS_NO_FORM = 1,          /* line has no listed form */
    PATTERNS_UNKNOWN_CALLER = 2,   /* caller's uid not in setup (nor 0) */
    PATTERNS_MISSING = 3,          /* name missing; listing line past the end */
    PATTERNS_NOT_DIRECTORY = 4,    /* file in mid-path */
    PATTERNS_ACCESS = 5,           /* access */
    PATTERNS_EXISTS = 6,           /* already there */
    PATTERNS_WRONG_KIND = 7,       /* kind */
    PATTERNS_NOT_EMPTY = 8,        /* not empty */
    PATTERNS_RESERVED = 9,         /* reserved; not the owner; a role that the session does not dominate */
    PATTERNS_FULL = 10,            /* nodes would pass 256 */
    PATTERNS_INTO_ITSELF = 11,     /* into itself */
    PATTERNS_NO_SESSION = 12,      /* no session */
    PATTERNS_NO_GRANT = 13,        /* no such grant */
    PATTERNS_STALE = 14,           /* stale */
    PATTERNS_UNTAGGED = 15,        /* untagged */
    PATTERNS_REVISIONS_SPENT = 16, /* revisions spent */
    PATTERNS_WRONG_SETUP = 17,     /* setup line wrong; *value is the line */
    PATTERNS_UNSOUND = 18,         /* buffer length or store unsound */
    PATTERNS_TOO_DEEP = 19,        /* too deep */
    PATTERNS_SHORT_ANSWER = 20     /* answer buffer under 4,096 */
};

/* Makes the store that a setup text says, whatever stood there: 18 (length only), then 17. */
uint32_t patterns_setup(uint8_t *store, size_t store_len, const uint8_t *text, size_t text_len, uint64_t *value);

/* Carries out one command line, without its byte 10. */
uint32_t patterns_run(uint8_t *store, size_t store_len, const uint8_t *line, size_t line_len, uint8_t *answer,
                      size_t answer_len, uint64_t *value);

/* Line n of the listing, from 0; the store stays as it is. */
uint32_t patterns_listing(const uint8_t *store, size_t store_len, size_t n, uint8_t *answer, size_t answer_len, uint64_t *value);

#ifdef __cplusplus
}
#endif

#endif
