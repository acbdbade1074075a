/* Preloaded into a program, has calls on the files of a folder fail, FOLDER and what is below it. FAIL_WRITE,
   FAIL_SYNC (fsync and fdatasync), FAIL_CUT (ftruncate), FAIL_MAKE (a file that is made or emptied, and
   mkdir), FAIL_RENAME and FAIL_REMOVE (unlink and rmdir) are two numbers, as 3,1: which such call is the
   first that fails, counted from 1 over all threads, and how many fail from there on (0: all). FAIL_WITH is
   the error's number (5, EIO).
   KILL_AT is a number: the program is killed before its nth call that changes something in FOLDER (a file
   that is made or emptied, a write, a sync, a cut, a folder that is made, a rename, a removal), or in the
   middle of it if it is a write.
   FAIL_PART has the first of the failing writes take so many bytes, and the next ones fail. FAIL_ROOM
   refuses, as a full disk does, what goes beyond so many bytes of a file, and takes what has room.
   KEPT is a file of eight numbers of eight bytes: the length of FOLDER/journal up to which the last sync kept
   it, how many writes, syncs and cuts there were, how many calls failed, and how many files were made,
   renamed and removed.
   OPENED is a file to which each path is added that is opened to be written, made, renamed or removed,
   wherever it is.
   TRACE is a file to which a line is added before each of these calls: `open PATH HOW`, `make`, `rename`,
   `remove`, `lock`, `read`, `write`, `sync` and `cut`, each with a path, if it is in FOLDER or that of
   FOLDER; and `reply`, for what is written to a socket. */
#define _GNU_SOURCE
#include <errno.h>
#include <fcntl.h>
#include <signal.h>
#include <stdarg.h>
#include <stdio.h>
#include <stdlib.h>
#include <string.h>
#include <sys/file.h>
#include <sys/mman.h>
#include <sys/socket.h>
#include <sys/stat.h>
#include <sys/syscall.h>
#include <unistd.h>

enum { WRITE, SYNC, CUT, MAKE, RENAME, REMOVE, CALLS };

static struct told {
    unsigned long kept, calls[MAKE], failed, others[CALLS - MAKE];
} nothing, *told = &nothing;

static const char *folder, *opened, *trace;
static int error = EIO;
static unsigned long first[CALLS], many[CALLS], part, room, kill_at, changes, next_kept;

static unsigned long number(const char *name, unsigned long otherwise)
{
    const char *text = getenv(name);
    return text ? strtoul(text, NULL, 10) : otherwise;
}

__attribute__((constructor)) static void begin(void)
{
    static const char *const names[] = {
        "FAIL_WRITE", "FAIL_SYNC", "FAIL_CUT", "FAIL_MAKE", "FAIL_RENAME", "FAIL_REMOVE",
    };
    const char *kept = getenv("KEPT");
    for (int it = 0; it < CALLS; it++) {
        const char *text = getenv(names[it]);
        if (text)
            sscanf(text, "%lu,%lu", &first[it], &many[it]);
    }
    error = (int)number("FAIL_WITH", EIO);
    part = number("FAIL_PART", 0);
    room = number("FAIL_ROOM", 0);
    kill_at = number("KILL_AT", 0);
    folder = getenv("FOLDER");
    opened = getenv("OPENED");
    trace = getenv("TRACE");
    if (kept) {
        int fd = (int)syscall(SYS_openat, AT_FDCWD, kept, O_RDWR | O_CREAT, 0644);
        if (fd < 0 || syscall(SYS_ftruncate, fd, sizeof nothing))
            abort();
        void *at = mmap(NULL, sizeof nothing, PROT_READ | PROT_WRITE, MAP_SHARED, fd, 0);
        if (at == MAP_FAILED)
            abort();
        told = at;
        syscall(SYS_close, fd);
    }
}

static void add_line(const char *file, const char *first, const char *second, const char *third)
{
    int before = errno;
    if (file) {
        char line[8400];
        int fd = (int)syscall(SYS_openat, AT_FDCWD, file, O_WRONLY | O_APPEND | O_CREAT, 0644);
        int length = snprintf(line, sizeof line, "%s%s%s%s%s\n", first, *second ? " " : "", second,
                              *third ? " " : "", third);
        syscall(SYS_write, fd, line, length);
        syscall(SYS_close, fd);
    }
    errno = before;
}

/* Whether a path is that of the folder, which is told as `.`, or below it; then its path from there. */
static int is_below(const char *whole, char *path, size_t size)
{
    size_t front = folder ? strlen(folder) : 0;
    if (!folder || strncmp(whole, folder, front) || (whole[front] && whole[front] != '/'))
        return 0;
    snprintf(path, size, "%s", whole[front] ? whole + front + 1 : ".");
    return 1;
}

/* Whether a file is the folder or below it; then its path from there. A socket and the folder above are told
   in a trace. */
static int is_inside(int fd, const char *what, char *path, size_t size)
{
    char name[64], whole[4096];
    if (!folder)
        return 0;
    snprintf(name, sizeof name, "/proc/self/fd/%d", fd);
    ssize_t length = readlink(name, whole, sizeof whole - 1);
    whole[length < 0 ? 0 : length] = 0;
    if (is_below(whole, path, size)) {
        add_line(trace, what, path, "");
        return 1;
    }
    if (trace && !strcmp(what, "write") && !strncmp(whole, "socket:", 7))
        add_line(trace, "reply", "", "");
    size_t above = strlen(whole);
    if (trace && !strcmp(what, "sync") && !strncmp(whole, folder, above) && !strchr(folder + above + 1, '/'))
        add_line(trace, "sync", "..", "");
    return 0;
}

/* Whether the program is to be killed at this call, which changes something. */
static int is_over(void)
{
    return kill_at && __atomic_add_fetch(&changes, 1, __ATOMIC_RELAXED) == kill_at;
}

static void end(void)
{
    kill(getpid(), SIGKILL);
    for (;;)
        pause();
}

/* Whether this call, the nth of its kind, fails; so many bytes of it are to be taken else. */
static int fails(int kind, unsigned long *taken)
{
    unsigned long *count = kind < MAKE ? &told->calls[kind] : &told->others[kind - MAKE];
    unsigned long n = __atomic_add_fetch(count, 1, __ATOMIC_RELAXED);
    if (!first[kind] || n < first[kind] || (many[kind] && n >= first[kind] + many[kind]))
        return 0;
    if (kind == WRITE && part && n == first[kind]) {
        *taken = part;
        return 0;
    }
    __atomic_add_fetch(&told->failed, 1, __ATOMIC_RELAXED);
    errno = error;
    return 1;
}

/* A call that may change something is told, if it does; the program may be killed before it. Whether it
   fails. */
static int tell(int kind, const char *what, const char *path, const char *how, int is_change)
{
    char below[4096];
    unsigned long taken = 0;
    if (opened && strcmp(how, "r"))
        add_line(opened, path, "", "");
    if (!is_below(path, below, sizeof below))
        return 0;
    add_line(trace, what, below, how);
    if (!is_change)
        return 0;
    if (is_over())
        end();
    return fails(kind, &taken);
}

ssize_t write(int fd, const void *bytes, size_t count)
{
    char path[4096];
    unsigned long taken = 0;
    int before = errno;
    if (!is_inside(fd, "write", path, sizeof path)) {
        errno = before;
        return syscall(SYS_write, fd, bytes, count);
    }
    if (is_over()) {
        syscall(SYS_write, fd, bytes, count / 2);
        end();
    }
    if (fails(WRITE, &taken))
        return -1;
    if (taken && taken < count)
        count = taken;
    if (room) {
        struct stat now;
        fstat(fd, &now);
        if (count && (unsigned long)now.st_size >= room) {
            __atomic_add_fetch(&told->failed, 1, __ATOMIC_RELAXED);
            errno = ENOSPC;
            return -1;
        }
        if (now.st_size + count > room)
            count = room - now.st_size;
    }
    errno = before;
    return syscall(SYS_write, fd, bytes, count);
}

static int synced(int fd, long how)
{
    char path[4096];
    unsigned long taken = 0;
    int before = errno;
    if (!is_inside(fd, "sync", path, sizeof path)) {
        errno = before;
        return (int)syscall(how, fd);
    }
    if (is_over())
        end();
    if (fails(SYNC, &taken))
        return -1;
    struct stat now;
    int is_next = !strcmp(path, "journal.next");
    int is_known = (is_next || !strcmp(path, "journal")) && !fstat(fd, &now);
    errno = before;
    int result = (int)syscall(how, fd);
    if (!result && is_known)
        *(is_next ? &next_kept : &told->kept) = (unsigned long)now.st_size;
    return result;
}

int fsync(int fd)
{
    return synced(fd, SYS_fsync);
}

int fdatasync(int fd)
{
    return synced(fd, SYS_fdatasync);
}

int ftruncate(int fd, off_t length)
{
    char path[4096];
    unsigned long taken = 0;
    int before = errno;
    if (is_inside(fd, "cut", path, sizeof path)) {
        if (is_over())
            end();
        if (fails(CUT, &taken))
            return -1;
    }
    errno = before;
    return (int)syscall(SYS_ftruncate, fd, length);
}

int ftruncate64(int fd, off_t length)
{
    return ftruncate(fd, length);
}

static int opens(int at, const char *path, int how, mode_t mode)
{
    static const char *const hows[] = {"r", "w", "rw", ""};
    char text[64];
    snprintf(text, sizeof text, "%s%s%s%s", hows[how & O_ACCMODE], how & O_APPEND ? " append" : "",
             how & O_CREAT ? " create" : "", how & O_TRUNC ? " empty" : "");
    if (tell(MAKE, "open", path, text, (how & (O_CREAT | O_TRUNC)) != 0))
        return -1;
    return (int)syscall(SYS_openat, at, path, how, mode);
}

int open(const char *path, int how, ...)
{
    va_list rest;
    va_start(rest, how);
    mode_t mode = how & (O_CREAT | O_TMPFILE) ? va_arg(rest, mode_t) : 0;
    va_end(rest);
    return opens(AT_FDCWD, path, how, mode);
}

int open64(const char *path, int how, ...)
{
    va_list rest;
    va_start(rest, how);
    mode_t mode = how & (O_CREAT | O_TMPFILE) ? va_arg(rest, mode_t) : 0;
    va_end(rest);
    return opens(AT_FDCWD, path, how, mode);
}

int openat(int at, const char *path, int how, ...)
{
    va_list rest;
    va_start(rest, how);
    mode_t mode = how & (O_CREAT | O_TMPFILE) ? va_arg(rest, mode_t) : 0;
    va_end(rest);
    return opens(at, path, how, mode);
}

int openat64(int at, const char *path, int how, ...)
{
    va_list rest;
    va_start(rest, how);
    mode_t mode = how & (O_CREAT | O_TMPFILE) ? va_arg(rest, mode_t) : 0;
    va_end(rest);
    return opens(at, path, how, mode);
}

int mkdir(const char *path, mode_t mode)
{
    if (tell(MAKE, "make", path, "", 1))
        return -1;
    return (int)syscall(SYS_mkdirat, AT_FDCWD, path, mode);
}

int rename(const char *from, const char *to)
{
    char path[4096];
    if (tell(RENAME, "rename", to, "", 1))
        return -1;
    int result = (int)syscall(SYS_renameat2, AT_FDCWD, from, AT_FDCWD, to, 0);
    if (!result && is_below(to, path, sizeof path) && !strcmp(path, "journal"))
        told->kept = next_kept;
    return result;
}

int unlink(const char *path)
{
    if (tell(REMOVE, "remove", path, "", 1))
        return -1;
    return (int)syscall(SYS_unlinkat, AT_FDCWD, path, 0);
}

int rmdir(const char *path)
{
    if (tell(REMOVE, "remove", path, "", 1))
        return -1;
    return (int)syscall(SYS_unlinkat, AT_FDCWD, path, AT_REMOVEDIR);
}

int flock(int fd, int how)
{
    char path[4096];
    is_inside(fd, "lock", path, sizeof path);
    return (int)syscall(SYS_flock, fd, how);
}

ssize_t read(int fd, void *bytes, size_t count)
{
    char path[4096];
    int before = errno;
    if (trace)
        is_inside(fd, "read", path, sizeof path);
    errno = before;
    return syscall(SYS_read, fd, bytes, count);
}

ssize_t send(int fd, const void *bytes, size_t count, int how)
{
    add_line(trace, "reply", "", "");
    return syscall(SYS_sendto, fd, bytes, count, how, NULL, 0);
}
