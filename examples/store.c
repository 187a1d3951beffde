/* A store that is kept in a file, by the library's three calls: a model for programs that save stores.
 *
 *     store FILE setup SETUP      makes the store that the setup text in the file SETUP says, whatever FILE held
 *     store FILE run LINE...      carries out command lines, and tells each answer in words
 *     store FILE list             prints all nodes
 *     store FILE check            says whether FILE holds a sound store
 *
 *     cc -std=c11 -Wall -Wextra -Iinclude examples/store.c crates/exports/out/libexports.a -o store
 *
 * A power cut leaves the old store or the new one, whole (save says how), and an answer is told once the store that has it is
 * saved. The exit status is 0 if all was done, 1 if something was refused or failed, 2 if the arguments are none of the above.
 * examples/store.rs is the same program in Rust.
 */
#define _POSIX_C_SOURCE 200809L
#include <errno.h>
#include <fcntl.h>
#include <inttypes.h>
#include <limits.h>
#include <stdbool.h>
#include <stdio.h>
#include <stdlib.h>
#include <string.h>
#include <sys/file.h>
#include <unistd.h>

#include "patterns.h"

static const char usage[] =
    "store FILE setup SETUP | store FILE run LINE... | store FILE list | store FILE check\n";

/* What each number of a call says. */
static const char *const words[] = {
    "done",
    "no listed form",
    "unknown caller",
    "name missing",
    "file in mid-path",
    "no access",
    "already there",
    "wrong kind",
    "not empty",
    "reserved",
    "256 nodes at most",
    "into itself",
    "no session",
    "no such grant",
    "stale",
    "no tag",
    "revisions spent",
    "setup line wrong",
    "store not sound",
    "too deep",
    "answer buffer too short",
};

/* The caller keeps both buffers and lends them for each call. */
static uint8_t store[PATTERNS_STORE];
static uint8_t answer[PATTERNS_ANSWER];

/* Says on standard error what is wrong with a file; false, so that a function can end with it. */
static bool wrong(const char *file, const char *what)
{
    fprintf(stderr, "store: %s: %s\n", file, what);
    return false;
}

/* The same where a step failed, with the system's reason. */
static bool failed(const char *file, const char *what, int reason)
{
    fprintf(stderr, "store: %s: %s: %s\n", file, what, strerror(reason));
    return false;
}

/* Reads until there is no more room or nothing left, however small the pieces; -1 where a read fails. */
static ssize_t read_all(int from, uint8_t *bytes, size_t room)
{
    size_t got = 0;
    while (got < room) {
        ssize_t more = read(from, bytes + got, room - got);
        if (more == 0)
            break;
        if (more > 0)
            got += (size_t)more;
        else if (errno != EINTR)
            return -1;
    }
    return (ssize_t)got;
}

/* Writes every byte: one write may take only some of them, or be interrupted before it takes any. */
static bool write_all(int to, const uint8_t *bytes, size_t length)
{
    while (length > 0) {
        ssize_t more = write(to, bytes, length);
        if (more < 0 && errno == EINTR)
            continue;
        if (more <= 0)
            return false;
        bytes += more;
        length -= (size_t)more;
    }
    return true;
}

/* Waits until the disk has what was written to a file, or the names of a directory. */
static bool flush(int file)
{
    while (fsync(file) != 0)
        if (errno != EINTR)
            return false;
    return true;
}

/* Opens the directory that FILE is in and locks it until the program ends: of two that save at once, one would undo what the
 * other did. Who only reads needs no lock, since an opened store stays whole. -1 where there is no such directory. */
static int lock_directory(const char *file)
{
    char name[PATH_MAX];
    const char *slash = strrchr(file, '/');
    if (slash == NULL)
        strcpy(name, ".");
    else /* the root directory is its slash; a path that is cut here is too long to be opened below */
        snprintf(name, sizeof name, "%.*s", slash == file ? 1 : (int)(slash - file), file);
    int directory = open(name, O_RDONLY);
    if (directory < 0 || flock(directory, LOCK_EX) != 0) {
        wrong(name, strerror(errno));
        return -1;
    }
    return directory;
}

/* Makes a file of the store's bytes that only its owner may read, for passwords stand in it; the disk has it in the end. What an
 * earlier save left under that name goes first, so that neither its mode nor a link is taken over. */
static bool write_new(const char *new_file)
{
    if (unlink(new_file) != 0 && errno != ENOENT)
        return false;
    int file = open(new_file, O_WRONLY | O_CREAT | O_EXCL, 0600);
    if (file < 0)
        return false;
    bool good = write_all(file, store, sizeof store) && flush(file);
    int reason = errno;
    close(file); /* has nothing to tell that fsync has not told */
    errno = reason;
    return good;
}

/* Puts the store in FILE's place. FILE itself is never written: a new file beside it takes its name, in one step, once the disk
 * has all of its bytes. So whenever the power fails, FILE is the old store or the new one. The last step makes the name last. */
static bool save(const char *file, int directory)
{
    char new_file[PATH_MAX];
    if (snprintf(new_file, sizeof new_file, "%s.new", file) >= (int)sizeof new_file)
        return failed(file, "not saved", ENAMETOOLONG);
    if (!write_new(new_file) || rename(new_file, file) != 0) {
        int reason = errno;
        unlink(new_file);
        return failed(file, "not saved", reason);
    }
    if (!flush(directory))
        return failed(file, "saved, but a power cut may bring the old store back", errno);
    return true;
}

/* Reads FILE into the store: exactly as many bytes as a store has, and sound. */
static bool load(const char *file)
{
    uint8_t past;
    uint64_t value;
    int from = open(file, O_RDONLY);
    ssize_t length = from < 0 ? -1 : read_all(from, store, sizeof store);
    ssize_t more = length < 0 ? -1 : read_all(from, &past, 1);
    if (more < 0)
        return wrong(file, strerror(errno));
    close(from);
    if ((size_t)length != sizeof store || more != 0)
        return wrong(file, "not 65536 bytes long");
    /* Every call judges the whole store first, so line 0 of the listing tells whether it is sound. */
    if (patterns_listing(store, sizeof store, 0, answer, sizeof answer, &value) != PATTERNS_DONE)
        return wrong(file, "not a sound store");
    return true;
}

/* The bytes of a file of any length, and how many; NULL where they cannot be read. */
static uint8_t *read_file(const char *name, size_t *length)
{
    uint8_t *bytes = NULL;
    int from = open(name, O_RDONLY);
    *length = 0;
    for (size_t room = 4096; from >= 0; room *= 2) {
        uint8_t *larger = (uint8_t *)realloc(bytes, room);
        if (larger == NULL)
            break;
        bytes = larger;
        ssize_t more = read_all(from, bytes + *length, room - *length);
        if (more < 0)
            break;
        *length += (size_t)more;
        if (*length < room) { /* the file has no more */
            close(from);
            return bytes;
        }
    }
    wrong(name, strerror(errno));
    free(bytes);
    return NULL;
}

/* Makes the store by a setup text; one that is wrong saves nothing. */
static bool set_up(const char *file, const char *setup)
{
    size_t length;
    uint64_t value;
    int directory = lock_directory(file);
    uint8_t *text = directory < 0 ? NULL : read_file(setup, &length);
    if (text == NULL)
        return false;
    uint32_t number = patterns_setup(store, sizeof store, text, length, &value);
    free(text);
    if (number != PATTERNS_DONE) {
        fprintf(stderr, "store: %s: line %" PRIu64 ": %s\n", setup, value, words[number]);
        return false;
    }
    return save(file, directory);
}

/* An answer in words: `done`, `done: text`, or `refused: ` with the cause and its number. */
static void tell(FILE *to, uint32_t number, uint64_t value)
{
    if (number != PATTERNS_DONE)
        fprintf(to, "refused: %s (%" PRIu32 ")\n", words[number], number);
    else if (value == PATTERNS_NO_VALUE)
        fprintf(to, "done\n");
    else
        fprintf(to, "done: %.*s\n", (int)value, (const char *)answer);
}

/* Carries out lines on the loaded store; what they answer goes to a file. True if all were done. */
static bool carry_out(char *const *lines, FILE *answers, bool *changed)
{
    bool all_done = true;
    for (*changed = false; *lines != NULL; lines++) {
        uint64_t value;
        uint32_t number =
            patterns_run(store, sizeof store, (const uint8_t *)*lines, strlen(*lines), answer, sizeof answer, &value);
        tell(answers, number, value);
        if (number != PATTERNS_DONE)
            all_done = false;
        else if (value == PATTERNS_NO_VALUE)
            *changed = true; /* done and without a text is every command that can change the store */
    }
    return all_done;
}

/* Loads, carries out lines and saves. The answers wait in memory until the store is saved: what is told is so after a power cut,
 * too. */
static bool run(const char *file, char *const *lines)
{
    char *text = NULL;
    size_t length = 0;
    bool changed;
    int directory = lock_directory(file);
    if (directory < 0 || !load(file))
        return false;
    FILE *answers = open_memstream(&text, &length);
    if (answers == NULL)
        return wrong("answers", strerror(errno));
    bool good = carry_out(lines, answers, &changed);
    bool lost = ferror(answers) != 0;
    if (fclose(answers) != 0 || lost)
        good = wrong("answers", strerror(errno));
    else if (changed && !save(file, directory))
        good = false;
    else
        fwrite(text, 1, length, stdout);
    free(text);
    return good;
}

/* Prints line n of the listing, from 0, until there is none. */
static bool list(void)
{
    uint64_t value;
    for (size_t n = 0; patterns_listing(store, sizeof store, n, answer, sizeof answer, &value) == PATTERNS_DONE; n++)
        printf("%.*s\n", (int)value, (const char *)answer);
    return true;
}

int main(int argc, char **argv)
{
    const char *word = argc > 2 ? argv[2] : "";
    bool good;
    if (strcmp(word, "setup") == 0 && argc == 4) {
        good = set_up(argv[1], argv[3]);
    } else if (strcmp(word, "run") == 0 && argc > 3) {
        good = run(argv[1], argv + 3);
    } else if (strcmp(word, "list") == 0 && argc == 3) {
        good = load(argv[1]) && list();
    } else if (strcmp(word, "check") == 0 && argc == 3) {
        good = load(argv[1]) && printf("sound\n") > 0;
    } else {
        fputs(usage, stderr);
        return 2;
    }
    if (fflush(stdout) != 0 || ferror(stdout))
        good = wrong("standard output", strerror(errno));
    return good ? 0 : 1;
}
