// A library that is preloaded to the program. It notes calls of the system on the files of its logs and on their
// folder, and can make one of them fail, or end the program in it. It can also make a call fail on the standard
// streams, or one that starts a thread, or one that asks for memory.
//
//     CALLS_FILE   the path of the first log, as the program is given it; the others have it with `.2` to `.16` added
//     CALLS_NOTES  a file that is there, to which the notes are added, a line for each. LOG is the number of the log:
//                  `open LOG`         its file was opened
//                  `folder`           the folder was opened
//                  `write LOG AT N`   a write of N bytes begins there
//                  `cut LOG N`        a cut of the file to N bytes begins
//                  `synced LOG N`     a sync has worked that began when the file had N bytes
//                  `entry`            a sync of the folder has worked
//                  `fails CALL`       this call fails, or ends the program
//     CALLS_FAIL   `KIND NTH HOW`: what happens to the NTH call of a kind, where there is one. The kinds are
//                  `log`     a call on one of the files or the folder, also one that looks for a file by its path
//                  `in`      a read of standard input
//                  `out`     a write to standard output
//                  `threads` a start of a thread
//                  `memory`  an allocation of the C library, also one that it makes itself
//                  and HOW is
//                  `io`      it fails with EIO; a start of a thread with EAGAIN, an allocation with ENOMEM
//                  `space`   it fails with ENOSPC, and so does each later one
//                  `signal`  it fails with EINTR, and so do the two after it
//                  `short`   from it on each write takes only half of its bytes, and each read gives at most half
//                  `full`    from it on the first write takes only half of its bytes, and those after
//                            it fail with ENOSPC
//                  `none`    from it on each write takes no byte
//                  `before`, `within`, `after`  SIGKILL ends the program before it, after half of its bytes where
//                            it is a write, or after it
//                  `stop`    SIGSTOP stops the program before it, until another program lets it go on
//
// With `space` a start of a thread and an allocation fail as with `io`, and so does each later one. `signal` and all
// that is said of writes hold for files and streams alone, and what ends or stops the program for the log alone.
//
// A call that closes always works, and isn't counted. The library makes its calls of the system by `syscall`, and
// needs no other library than the C library.

#define _GNU_SOURCE
#include <dlfcn.h>
#include <errno.h>
#include <fcntl.h>
#include <pthread.h>
#include <signal.h>
#include <stdarg.h>
#include <stdatomic.h>
#include <stdio.h>
#include <stdlib.h>
#include <string.h>
#include <sys/stat.h>
#include <sys/syscall.h>
#include <unistd.h>

// What the number of an open file means: nothing, the log with this number, or the folder.
enum { OTHER, FIRST_LOG, LAST_LOG = 16, FOLDER };
#define NUMBERS 1024
static _Atomic char what[NUMBERS];

static const char *path;
static char folder[4096];
static int notes = -1;
enum { LOG, IN, OUT, THREADS, MEMORY, KINDS };
static const char *const kinds[KINDS] = {"log", "in", "out", "threads", "memory"};
static atomic_long calls[KINDS];

// The call that should fail, by its kind and number, and how.
static int kind_chosen = KINDS;
static long chosen;
static char how[16];
static atomic_int was_short;

__attribute__((constructor)) static void begin(void) {
    path = getenv("CALLS_FILE");
    const char *to = getenv("CALLS_NOTES"), *fail = getenv("CALLS_FAIL");
    if (path == NULL || to == NULL || strlen(path) >= sizeof folder) {
        path = NULL;
        return;
    }
    strcpy(folder, path);
    char *slash = strrchr(folder, '/');
    if (slash != NULL) *slash = 0;
    // A number above those that the program looks at.
    int opened = syscall(SYS_openat, AT_FDCWD, to, O_WRONLY | O_APPEND | O_CLOEXEC);
    notes = fcntl(opened, F_DUPFD_CLOEXEC, 500);
    syscall(SYS_close, opened);
    char kind[16];
    if (fail == NULL || sscanf(fail, "%15s %ld %15s", kind, &chosen, how) != 3) return;
    for (int at = 0; at < KINDS; at++)
        if (strcmp(kind, kinds[at]) == 0) kind_chosen = at;
}

// One write of a whole line, so that the notes are in the order of the calls.
__attribute__((format(printf, 1, 2))) static void note(const char *form, ...) {
    char line[128];
    va_list rest;
    va_start(rest, form);
    int length = vsnprintf(line, sizeof line, form, rest);
    va_end(rest);
    if (notes >= 0 && syscall(SYS_write, notes, line, length) != length) abort();
}

static int kind_of(int number) { return number >= 0 && number < NUMBERS ? what[number] : OTHER; }

static int is_log(int number) { return kind_of(number) >= FIRST_LOG && kind_of(number) <= LAST_LOG; }

// Which log has this path, or which folder it is.
static int kind_at(const char *name) {
    if (path == NULL) return OTHER;
    if (strcmp(name, folder) == 0) return FOLDER;
    size_t length = strlen(path);
    if (strncmp(name, path, length) != 0) return OTHER;
    if (name[length] == 0) return FIRST_LOG;
    for (int log = FIRST_LOG + 1; log <= LAST_LOG; log++) {
        char end[8];
        snprintf(end, sizeof end, ".%d", log);
        if (strcmp(name + length, end) == 0) return log;
    }
    return OTHER;
}

static int is(const char *word) { return strcmp(how, word) == 0; }

static void end_here(void) {
    syscall(SYS_kill, getpid(), SIGKILL);
    for (;;) pause();
}

// Counts a call, and says whether it should fail, with `errno` set. `nth` tells how many calls of its kind it comes
// after the chosen one, which has 0.
static int fails_of(int kind, const char *name, long *nth) {
    *nth = atomic_fetch_add(&calls[kind], 1) + 1 - chosen;
    if (kind != kind_chosen) *nth = -1;
    if (*nth < 0) return 0;
    int error = is("io") && *nth == 0 ? EIO : is("space") ? ENOSPC : is("signal") && *nth < 3 ? EINTR : 0;
    if (*nth == 0 && (error != 0 || is("before"))) note("fails %s\n", name);
    if (*nth == 0 && is("before")) end_here();
    if (*nth == 0 && is("stop")) syscall(SYS_kill, getpid(), SIGSTOP);
    if (error != 0) errno = error;
    return error != 0;
}

static int fails(const char *name, long *nth) { return fails_of(LOG, name, nth); }

// Ends the program after a call, where that is asked.
static long done(const char *name, long nth, long answer) {
    int error = errno;
    if (nth == 0 && (is("after") || is("within"))) {
        note("fails %s\n", name);
        end_here();
    }
    errno = error;
    return answer;
}

// How many of `length` bytes a write takes, or none and an error, or a read gives at most.
static ssize_t taken(const char *name, long nth, size_t length) {
    if (nth < 0 || !(is("short") || is("full") || is("none"))) return length;
    if (!atomic_exchange(&was_short, 1)) {
        note("fails %s\n", name);
    } else if (is("full")) {
        errno = ENOSPC;
        return -1;
    }
    return is("none") ? 0 : length > 1 ? length / 2 : length;
}

int open(const char *name, int flags, ...) {
    va_list rest;
    va_start(rest, flags);
    int mode = flags & O_CREAT ? va_arg(rest, int) : 0;
    va_end(rest);
    int kind = kind_at(name);
    if (kind == OTHER) return syscall(SYS_openat, AT_FDCWD, name, flags, mode);
    const char *call = kind == FOLDER ? "folder" : flags & O_CREAT ? "create" : "open";
    long nth;
    if (fails(call, &nth)) return -1;
    int number = syscall(SYS_openat, AT_FDCWD, name, flags, mode);
    if (number >= 0 && number < NUMBERS) {
        what[number] = kind;
        if (kind == FOLDER)
            note("folder\n");
        else
            note("open %d\n", kind);
    }
    return done(call, nth, number);
}

int close(int number) {
    if (number >= 0 && number < NUMBERS) what[number] = OTHER;
    return syscall(SYS_close, number);
}

int flock(int number, int operation) {
    if (kind_of(number) == OTHER) return syscall(SYS_flock, number, operation);
    long nth;
    if (fails("lock", &nth)) return -1;
    return done("lock", nth, syscall(SYS_flock, number, operation));
}

int statx(int number, const char *restrict name, int flags, unsigned mask, struct statx *restrict to) {
    int kind = number == AT_FDCWD ? kind_at(name) : OTHER;
    const char *look = flags & AT_SYMLINK_NOFOLLOW ? "link" : "look";
    const char *call = kind_of(number) != OTHER ? "length" : kind != OTHER && kind != FOLDER ? look : NULL;
    if (call == NULL) return syscall(SYS_statx, number, name, flags, mask, to);
    long nth;
    if (fails(call, &nth)) return -1;
    return done(call, nth, syscall(SYS_statx, number, name, flags, mask, to));
}

char *realpath(const char *restrict name, char *restrict to) {
    char *(*next)(const char *, char *) = dlsym(RTLD_NEXT, "realpath");
    int kind = kind_at(name);
    if (kind == OTHER || kind == FOLDER) return next(name, to);
    long nth;
    if (fails("path", &nth)) return NULL;
    char *found = next(name, to);
    done("path", nth, 0);
    return found;
}

ssize_t pwrite(int number, const void *bytes, size_t length, off_t at) {
    if (!is_log(number)) return syscall(SYS_pwrite64, number, bytes, length, at);
    long nth;
    if (fails("write", &nth)) return -1;
    note("write %d %ld %zu\n", kind_of(number), (long)at, length);
    ssize_t takes = taken("write", nth, length);
    if (takes <= 0) return takes;
    if (nth == 0 && is("within")) takes /= 2;
    return done("write", nth, syscall(SYS_pwrite64, number, bytes, takes, at));
}

ssize_t pread(int number, void *bytes, size_t length, off_t at) {
    if (!is_log(number)) return syscall(SYS_pread64, number, bytes, length, at);
    long nth;
    if (fails("load", &nth)) return -1;
    return done("load", nth, syscall(SYS_pread64, number, bytes, length, at));
}

int ftruncate(int number, off_t length) {
    if (!is_log(number)) return syscall(SYS_ftruncate, number, length);
    long nth;
    if (fails("cut", &nth)) return -1;
    note("cut %d %ld\n", kind_of(number), (long)length);
    return done("cut", nth, syscall(SYS_ftruncate, number, length));
}

int fdatasync(int number) {
    if (kind_of(number) == OTHER) return syscall(SYS_fdatasync, number);
    long nth;
    if (fails("sync", &nth)) return -1;
    // By `lseek`, which the program's own calls don't notice: they all name their place.
    long length = syscall(SYS_lseek, number, 0, SEEK_END);
    int answer = syscall(SYS_fdatasync, number);
    if (answer == 0) note("synced %d %ld\n", kind_of(number), length);
    return done("sync", nth, answer);
}

int fsync(int number) {
    if (kind_of(number) != FOLDER) return syscall(SYS_fsync, number);
    long nth;
    if (fails("entry", &nth)) return -1;
    int answer = syscall(SYS_fsync, number);
    if (answer == 0) note("entry\n");
    return done("entry", nth, answer);
}

ssize_t read(int number, void *bytes, size_t length) {
    long nth;
    if (number != STDIN_FILENO || path == NULL) return syscall(SYS_read, number, bytes, length);
    if (fails_of(IN, "read", &nth)) return -1;
    ssize_t gives = taken("read", nth, length);
    return gives <= 0 ? gives : syscall(SYS_read, number, bytes, gives);
}

ssize_t write(int number, const void *bytes, size_t length) {
    long nth;
    if (number != STDOUT_FILENO || path == NULL) return syscall(SYS_write, number, bytes, length);
    if (fails_of(OUT, "print", &nth)) return -1;
    ssize_t takes = taken("print", nth, length);
    return takes <= 0 ? takes : syscall(SYS_write, number, bytes, takes);
}

int pthread_create(pthread_t *restrict to, const pthread_attr_t *restrict like, void *(*does)(void *),
                   void *restrict with) {
    int (*next)(pthread_t *, const pthread_attr_t *, void *(*)(void *), void *) = dlsym(RTLD_NEXT, "pthread_create");
    long nth;
    return fails_of(THREADS, "thread", &nth) ? EAGAIN : next(to, like, does, with);
}

// The functions with which the C library itself gives memory out, by the names that it has for libraries like this
// one.
void *__libc_malloc(size_t length);
void *__libc_realloc(void *piece, size_t length);

void *malloc(size_t length) {
    long nth;
    if (!fails_of(MEMORY, "memory", &nth)) return __libc_malloc(length);
    errno = ENOMEM;
    return NULL;
}

void *realloc(void *piece, size_t length) {
    long nth;
    if (!fails_of(MEMORY, "memory", &nth)) return __libc_realloc(piece, length);
    errno = ENOMEM;
    return NULL;
}
