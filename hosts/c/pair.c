/* pair.c: pair.h's two calls. Every path is taken relative to the opened directory. */

#define _POSIX_C_SOURCE 200809L

#include "pair.h"

#include <dirent.h>
#include <errno.h>
#include <fcntl.h>
#include <inttypes.h>
#include <stdbool.h>
#include <stdio.h>
#include <stdlib.h>
#include <string.h>
#include <sys/file.h>
#include <sys/stat.h>
#include <unistd.h>

static const char CURRENT[] = "current";
static const char CURRENT_NEW[] = "current.new";
static const char RECORDS[] = "records";
static const char PAGES[] = "pages";

/* What a text calls the pair's directory, and the one that it is in. */
static const char HERE[] = "the directory";
static const char ABOVE[] = "the directory above";

/* What a pair's name begins with; the bytes of a whole name: this, the most digits of a number, a zero. */
#define PREFIX "pair."
enum { MOST_DIGITS = 20, NAME = sizeof PREFIX + MOST_DIGITS };

enum { DIRECTORY = O_RDONLY | O_DIRECTORY | O_CLOEXEC };

/* Says which step failed on which name, and why; false. */
static bool failed(char *text, const char *step, const char *name)
{
    snprintf(text, PAIR_TEXT, "can't %s %s: %s", step, name, strerror(errno));
    return false;
}

static bool refused(char *text, const char *why)
{
    snprintf(text, PAIR_TEXT, "%s", why);
    return false;
}

/* The directory, opened and locked, or -1. To close it lets go of the lock. */
static int open_pair(const char *pair, int operation, char *text)
{
    int at = open(pair, DIRECTORY);
    if (at < 0) {
        failed(text, "open", HERE);
        return -1;
    }
    int locked;
    do
        locked = flock(at, operation);
    while (locked != 0 && errno == EINTR);
    if (locked != 0) {
        failed(text, "lock", HERE);
        close(at);
        return -1;
    }
    return at;
}

static void pair_name(char name[NAME], uint64_t number)
{
    snprintf(name, NAME, PREFIX "%" PRIu64, number);
}

/* The number of the current pair, 0 where there is none. */
static bool current_number(int at, uint64_t *number, char *text)
{
    char name[NAME + 1];
    *number = 0;
    ssize_t length = readlinkat(at, CURRENT, name, NAME);
    if (length < 0)
        return errno == ENOENT || failed(text, "read the link", CURRENT);
    name[length] = '\0';
    if (strncmp(name, PREFIX, strlen(PREFIX)) == 0)
        *number = strtoull(name + strlen(PREFIX), NULL, 10);
    /* the name is the one that the number gives: no sign, no zero before the digits, nothing after them, no overflow */
    char given[NAME];
    pair_name(given, *number);
    return (*number != 0 && strcmp(name, given) == 0) || refused(text, "current is not a link to pair.N");
}

/* ---- writing ---- */

static bool sync_parent(int at, char *text)
{
    int parent = openat(at, "..", DIRECTORY);
    if (parent < 0)
        return failed(text, "open", ABOVE);
    bool done = fsync(parent) == 0 || failed(text, "sync", ABOVE);
    close(parent);
    return done;
}

static bool unlinked(int at, const char *name, char *text)
{
    return unlinkat(at, name, 0) == 0 || errno == ENOENT || failed(text, "remove", name);
}

/* Removes a pair that is not current, or the part of it that is there. */
static bool remove_pair(int at, const char *name, char *text)
{
    int inside = openat(at, name, DIRECTORY | O_NOFOLLOW);
    if (inside < 0) {
        if (errno == ENOTDIR || errno == ELOOP)
            return unlinked(at, name, text);
        return errno == ENOENT || failed(text, "open", name);
    }
    bool done = unlinked(inside, RECORDS, text) && unlinked(inside, PAGES, text);
    close(inside);
    return done && (unlinkat(at, name, AT_REMOVEDIR) == 0 || failed(text, "remove", name));
}

/* Removes every pair but `current`. A directory that is changed while it is read may not show all its names, so it is
   read until there is nothing to remove. */
static bool sweep_pairs(int at, DIR *names, const char *current, char *text)
{
    bool removed;
    do {
        removed = false;
        rewinddir(names);
        struct dirent *entry;
        while (errno = 0, (entry = readdir(names)) != NULL) {
            const char *name = entry->d_name;
            if (strncmp(name, PREFIX, strlen(PREFIX)) != 0 || strcmp(name, current) == 0)
                continue;
            if (!remove_pair(at, name, text))
                return false;
            removed = true;
        }
        if (errno != 0)
            return failed(text, "list", HERE);
    } while (removed);
    return true;
}

/* Removes what a killed writer left. */
static bool sweep(int at, const char *current, char *text)
{
    if (!unlinked(at, CURRENT_NEW, text))
        return false;
    int again = openat(at, ".", DIRECTORY);
    DIR *names = again < 0 ? NULL : fdopendir(again);
    if (names == NULL) {
        failed(text, "list", HERE);
        if (again >= 0)
            close(again);
        return false;
    }
    bool done = sweep_pairs(at, names, current, text);
    closedir(names);
    return done;
}

static bool write_all(int file, const uint8_t *bytes, size_t length)
{
    while (length > 0) {
        ssize_t written = write(file, bytes, length);
        if (written < 0 && errno == EINTR)
            continue;
        if (written <= 0)
            return false;
        bytes += written;
        length -= (size_t)written;
    }
    return true;
}

static bool write_file(int at, const char *name, const uint8_t *bytes, size_t length, char *text)
{
    int file = openat(at, name, O_WRONLY | O_CREAT | O_EXCL | O_CLOEXEC, 0666);
    if (file < 0)
        return failed(text, "make", name);
    bool done = (write_all(file, bytes, length) || failed(text, "write", name)) &&
                (fsync(file) == 0 || failed(text, "sync", name));
    bool closed = close(file) == 0;
    return done && (closed || failed(text, "close", name));
}

/* Makes a new pair, all of it on disk but for its name in the directory above. */
static bool make_pair(int at, const char *name, const struct pair_files *files, char *text)
{
    if (mkdirat(at, name, 0777) != 0)
        return failed(text, "make", name);
    int inside = openat(at, name, DIRECTORY | O_NOFOLLOW);
    if (inside < 0)
        return failed(text, "open", name);
    bool done = write_file(inside, RECORDS, files->records, files->records_len, text) &&
                write_file(inside, PAGES, files->pages, files->pages_len, text) &&
                (fsync(inside) == 0 || failed(text, "sync", name));
    close(inside);
    return done;
}

static enum pair_answer replace(int at, const struct pair_files *files, char *text)
{
    uint64_t number;
    if (!current_number(at, &number, text))
        return PAIR_FAILED;
    if (number == UINT64_MAX) {
        refused(text, "there is no number after that of the current pair");
        return PAIR_FAILED;
    }
    char old[NAME], new[NAME];
    pair_name(old, number);
    pair_name(new, number + 1);

    /* before the first pair: the directory may be new, made here or by a writer that was killed */
    if (number == 0 && !sync_parent(at, text))
        return PAIR_FAILED;
    if (!sweep(at, old, text) || !make_pair(at, new, files, text))
        return PAIR_FAILED;
    if (symlinkat(new, at, CURRENT_NEW) != 0) {
        failed(text, "make", CURRENT_NEW);
        return PAIR_FAILED;
    }
    if (fsync(at) != 0) {
        failed(text, "sync", HERE);
        return PAIR_FAILED;
    }
    if (renameat(at, CURRENT_NEW, at, CURRENT) != 0) {
        failed(text, "replace", CURRENT);
        return PAIR_FAILED;
    }
    if (fsync(at) != 0) {
        failed(text, "sync", HERE);
        return PAIR_UNSURE;
    }
    return remove_pair(at, old, text) ? PAIR_DONE : PAIR_UNSURE;
}

enum pair_answer pair_write(const char *pair, const struct pair_files *files, char text[PAIR_TEXT])
{
    if (files->records_len > sizeof files->records || files->pages_len > sizeof files->pages) {
        refused(text, "the files are longer than a pair's can be");
        return PAIR_FAILED;
    }
    if (mkdir(pair, 0777) != 0 && errno != EEXIST) {
        failed(text, "make", HERE);
        return PAIR_FAILED;
    }
    int at = open_pair(pair, LOCK_EX, text);
    if (at < 0)
        return PAIR_FAILED;
    enum pair_answer answer = replace(at, files, text);
    close(at);
    return answer;
}

/* ---- reading ---- */

/* Reads until the end or until there is no room, whichever comes first. */
static bool read_all(int file, uint8_t *bytes, size_t room, size_t *length)
{
    *length = 0;
    while (*length < room) {
        ssize_t got = read(file, bytes + *length, room - *length);
        if (got < 0 && errno == EINTR)
            continue;
        if (got < 0)
            return false;
        if (got == 0)
            return true;
        *length += (size_t)got;
    }
    return true;
}

static bool read_file(int at, const char *name, uint8_t *bytes, size_t room, size_t *length, char *text)
{
    int file = openat(at, name, O_RDONLY | O_CLOEXEC);
    if (file < 0)
        return failed(text, "open", name);
    uint8_t more;
    size_t longer = 0;
    bool done = (read_all(file, bytes, room, length) && read_all(file, &more, sizeof more, &longer)) ||
                failed(text, "read", name);
    close(file);
    return done && (longer == 0 || refused(text, "a file is longer than a pair's can be"));
}

static bool read_current(int at, struct pair_files *files, char *text)
{
    uint64_t number;
    if (!current_number(at, &number, text))
        return false;
    if (number == 0)
        return refused(text, "there is no pair");
    int inside = openat(at, CURRENT, DIRECTORY);
    if (inside < 0)
        return failed(text, "open", CURRENT);
    bool done = read_file(inside, RECORDS, files->records, sizeof files->records, &files->records_len, text) &&
                read_file(inside, PAGES, files->pages, sizeof files->pages, &files->pages_len, text);
    close(inside);
    return done;
}

enum pair_answer pair_read(const char *pair, struct pair_files *files, char text[PAIR_TEXT])
{
    int at = open_pair(pair, LOCK_SH, text);
    if (at < 0)
        return PAIR_FAILED;
    bool done = read_current(at, files, text);
    close(at);
    return done ? PAIR_DONE : PAIR_FAILED;
}
