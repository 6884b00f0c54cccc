/* kill.c: ends a process at a chosen call, or makes that call fail. It is loaded by LD_PRELOAD, on Linux, into a
   program that is linked to the system's libc.

   The calls below, which change the file system, bring it to disk, lock, open or close, are counted from 1 and made by
   system calls. From the environment:

       KILL_AT   the number of the chosen call; without it there is none
       KILL_WAY  the process is killed (SIGKILL) `before` the call, `after` it, or, if it is a write, `half`: when
                 half of its bytes are written; or it goes on, and the call is not made and fails: `error` (EIO; a
                 close that fails has let go of its descriptor, as on Linux)
       KILL_LOG  a file that gets a line for each call that was made: its number, its name, what it returned, what it
                 asked for (`-` for nothing), and the path, or the two, that it was about */

#undef _FORTIFY_SOURCE
#define _GNU_SOURCE

#include <errno.h>
#include <fcntl.h>
#include <limits.h>
#include <signal.h>
#include <stdarg.h>
#include <stdio.h>
#include <stdlib.h>
#include <string.h>
#include <sys/file.h>
#include <sys/stat.h>
#include <sys/syscall.h>
#include <sys/uio.h>
#include <unistd.h>

/* How many calls were begun, and the paths that the last one is about. */
static unsigned long begun;
static char paths[4 * PATH_MAX];

static void begin(void)
{
    begun++;
    paths[0] = '\0';
}

static int chosen(const char *way)
{
    const char *at = getenv("KILL_AT"), *asked = getenv("KILL_WAY");
    return at != NULL && asked != NULL && strtoul(at, NULL, 10) == begun && strcmp(asked, way) == 0;
}

static void die(void)
{
    kill(getpid(), SIGKILL);
    for (;;)
        pause();
}

static void put(const char *before, const char *path)
{
    size_t length = strlen(paths);
    snprintf(paths + length, sizeof paths - length, "%s%s", before, path);
}

/* The call is about the file that is open there, */
static void about_file(int file)
{
    char name[64], path[PATH_MAX];
    snprintf(name, sizeof name, "/proc/self/fd/%d", file);
    long length = syscall(SYS_readlinkat, AT_FDCWD, name, path, sizeof path - 1);
    path[length < 0 ? 0 : length] = '\0';
    put(" ", length < 0 ? "-" : path);
}

/* or about a path, as seen from the directory that is open there. */
static void about_path(int at, const char *path)
{
    if (at == AT_FDCWD || path[0] == '/') {
        put(" ", path);
    } else {
        about_file(at);
        put("/", path);
    }
}

/* Whether the call is to be made. */
static int before(void)
{
    if (chosen("before"))
        die();
    if (!chosen("error"))
        return 1;
    errno = EIO;
    return 0;
}

/* The log's line, and the kill after the call; what the call returned. */
static long after(const char *name, long result, const char *asked)
{
    int why = errno;
    const char *log = getenv("KILL_LOG");
    if (log != NULL) {
        static char line[sizeof paths + 256];
        int length = snprintf(line, sizeof line, "%lu %s %ld %s%s\n", begun, name, result, asked, paths);
        int file = (int)syscall(SYS_openat, AT_FDCWD, log, O_WRONLY | O_CREAT | O_APPEND | O_CLOEXEC, 0666);
        if (file < 0 || syscall(SYS_write, file, line, (size_t)length) != length)
            abort();
        syscall(SYS_close, file);
    }
    if (chosen("after"))
        die();
    errno = why;
    return result;
}

#define CALL(name, parameters, about, asked, ...)                   \
    int name parameters                                             \
    {                                                               \
        begin();                                                    \
        about;                                                      \
        if (!before())                                              \
            return -1;                                              \
        return (int)after(#name, syscall(__VA_ARGS__), asked);      \
    }

/* ---- descriptors ---- */

static const char *lock_asked(int operation)
{
    return operation & LOCK_EX ? "exclusive" : operation & LOCK_SH ? "shared" : "unlock";
}

CALL(fsync, (int file), about_file(file), "-", SYS_fsync, file)
CALL(fdatasync, (int file), about_file(file), "-", SYS_fdatasync, file)
CALL(close, (int file), (about_file(file), chosen("error") && syscall(SYS_close, file)), "-", SYS_close, file)
CALL(flock, (int file, int operation), about_file(file), lock_asked(operation), SYS_flock, file, operation)
CALL(ftruncate, (int file, off_t length), about_file(file), "-", SYS_ftruncate, file, length)

/* ---- names ---- */

CALL(mkdir, (const char *path, mode_t mode), about_path(AT_FDCWD, path), "-", SYS_mkdirat, AT_FDCWD, path, mode)
CALL(mkdirat, (int at, const char *path, mode_t mode), about_path(at, path), "-", SYS_mkdirat, at, path, mode)
CALL(rmdir, (const char *path), about_path(AT_FDCWD, path), "-", SYS_unlinkat, AT_FDCWD, path, AT_REMOVEDIR)
CALL(unlink, (const char *path), about_path(AT_FDCWD, path), "-", SYS_unlinkat, AT_FDCWD, path, 0)
CALL(unlinkat, (int at, const char *path, int flags), about_path(at, path), "-", SYS_unlinkat, at, path, flags)
CALL(symlink, (const char *to, const char *path), about_path(AT_FDCWD, path), to, SYS_symlinkat, to, AT_FDCWD, path)
CALL(symlinkat, (const char *to, int at, const char *path), about_path(at, path), to, SYS_symlinkat, to, at, path)
CALL(link, (const char *from, const char *to), (about_path(AT_FDCWD, from), about_path(AT_FDCWD, to)), "-", SYS_linkat,
     AT_FDCWD, from, AT_FDCWD, to, 0)
CALL(linkat, (int from_at, const char *from, int to_at, const char *to, int flags),
     (about_path(from_at, from), about_path(to_at, to)), "-", SYS_linkat, from_at, from, to_at, to, flags)
CALL(rename, (const char *from, const char *to), (about_path(AT_FDCWD, from), about_path(AT_FDCWD, to)), "-",
     SYS_renameat2, AT_FDCWD, from, AT_FDCWD, to, 0)
CALL(renameat, (int from_at, const char *from, int to_at, const char *to),
     (about_path(from_at, from), about_path(to_at, to)), "-", SYS_renameat2, from_at, from, to_at, to, 0)
CALL(renameat2, (int from_at, const char *from, int to_at, const char *to, unsigned flags),
     (about_path(from_at, from), about_path(to_at, to)), "-", SYS_renameat2, from_at, from, to_at, to, flags)
CALL(truncate, (const char *path, off_t length), about_path(AT_FDCWD, path), "-", SYS_truncate, path, length)

/* ---- opens ---- */

static const char *open_asked(int flags)
{
    if (!(flags & O_CREAT))
        return flags & O_TRUNC ? "truncate" : "-";
    return flags & O_EXCL ? "create" : flags & O_TRUNC ? "create-or-truncate" : "create-or-open";
}

static int opened(const char *name, int at, const char *path, int flags, va_list more)
{
    mode_t mode = flags & O_CREAT || (flags & O_TMPFILE) == O_TMPFILE ? va_arg(more, mode_t) : 0;
    begin();
    about_path(at, path);
    if (!before())
        return -1;
    return (int)after(name, syscall(SYS_openat, at, path, flags, mode), open_asked(flags));
}

#define OPEN(name, parameters, at)                                  \
    int name parameters                                             \
    {                                                               \
        va_list more;                                               \
        va_start(more, flags);                                      \
        int result = opened(#name, at, path, flags, more);          \
        va_end(more);                                               \
        return result;                                              \
    }

OPEN(open, (const char *path, int flags, ...), AT_FDCWD)
OPEN(openat, (int at, const char *path, int flags, ...), at)
CALL(creat, (const char *path, mode_t mode), about_path(AT_FDCWD, path), "create-or-truncate", SYS_openat, AT_FDCWD,
     path, O_CREAT | O_WRONLY | O_TRUNC, mode)

/* ---- writes ---- */

ssize_t write(int file, const void *bytes, size_t length)
{
    begin();
    about_file(file);
    if (!before())
        return -1;
    if (chosen("half")) {
        syscall(SYS_write, file, bytes, length / 2);
        die();
    }
    return after("write", syscall(SYS_write, file, bytes, length), "-");
}

ssize_t pwrite(int file, const void *bytes, size_t length, off_t offset)
{
    begin();
    about_file(file);
    if (!before())
        return -1;
    if (chosen("half")) {
        syscall(SYS_pwrite64, file, bytes, length / 2, offset);
        die();
    }
    return after("pwrite", syscall(SYS_pwrite64, file, bytes, length, offset), "-");
}

ssize_t writev(int file, const struct iovec *parts, int count)
{
    begin();
    about_file(file);
    if (!before())
        return -1;
    if (chosen("half")) {
        size_t half = 0;
        for (int i = 0; i < count; i++)
            half += parts[i].iov_len;
        half /= 2;
        for (int i = 0; i < count && half > 0; i++) {
            size_t length = parts[i].iov_len < half ? parts[i].iov_len : half;
            syscall(SYS_write, file, parts[i].iov_base, length);
            half -= length;
        }
        die();
    }
    return after("writev", syscall(SYS_writev, file, parts, count), "-");
}

/* The names that programs built for long files call. */
#ifdef __GLIBC__
OPEN(open64, (const char *path, int flags, ...), AT_FDCWD)
OPEN(openat64, (int at, const char *path, int flags, ...), at)
CALL(creat64, (const char *path, mode_t mode), about_path(AT_FDCWD, path), "create-or-truncate", SYS_openat, AT_FDCWD,
     path, O_CREAT | O_WRONLY | O_TRUNC, mode)
CALL(ftruncate64, (int file, off64_t length), about_file(file), "-", SYS_ftruncate, file, length)
CALL(truncate64, (const char *path, off64_t length), about_path(AT_FDCWD, path), "-", SYS_truncate, path, length)
ssize_t pwrite64(int file, const void *bytes, size_t length, off64_t offset)
{
    return pwrite(file, bytes, length, offset);
}
#endif
