/* Counts a program's steps on the disk, the calls that change it, for copies.py, by LD_PRELOAD. At step STEP_AT,
   counted from 1, the program is killed, a write being half done; or the call fails with the error STEP_ERROR; or,
   with STEP_TAKE, the file is taken away that is flushed. STEP_CALL: only this call counts. STEP_LOG: a file that gets
   the name of each call that counts. STEP_FIRST: a file that gets each name that is looked for and not there, as if
   another run had been first. */
#define _GNU_SOURCE
#include <dlfcn.h>
#include <errno.h>
#include <fcntl.h>
#include <signal.h>
#include <stdarg.h>
#include <stdio.h>
#include <stdlib.h>
#include <string.h>
#include <sys/stat.h>
#include <unistd.h>

#define REAL(call) ((__typeof__(&call))dlsym(RTLD_NEXT, #call))
#define STEP(call) do { if (due(call) && stop()) return -1; } while (0)

static void tell(const char *call) {
    const char *log = getenv("STEP_LOG");
    FILE *file = log == NULL ? NULL : fopen(log, "a");
    if (file != NULL) {
        fprintf(file, "%s ", call);
        fclose(file);
    }
}

/* Whether this is the step. */
static int due(const char *call) {
    static long steps, telling;
    const char *at = getenv("STEP_AT"), *only = getenv("STEP_CALL");
    if (telling || (only != NULL && strcmp(only, call) != 0))
        return 0;
    telling = 1;
    tell(call);
    telling = 0;
    steps++;
    return at != NULL && steps == atol(at);
}

/* Ends the program, or tells that the call fails. */
static int stop(void) {
    const char *error = getenv("STEP_ERROR");
    if (error == NULL)
        raise(SIGKILL);
    errno = atoi(error);
    return 1;
}

static mode_t mode_of(int flags, va_list rest) {
    return flags & O_CREAT ? va_arg(rest, mode_t) : 0;
}

#define OPEN(call) \
    int call(const char *path, int flags, ...) { \
        va_list rest; \
        va_start(rest, flags); \
        mode_t mode = mode_of(flags, rest); \
        va_end(rest); \
        if (flags & O_CREAT) \
            STEP("open"); \
        return REAL(call)(path, flags, mode); \
    }
OPEN(open)
OPEN(open64)

ssize_t write(int file, const void *bytes, size_t length) {
    if (file > 2 && due("write")) {
        if (REAL(write)(file, bytes, length / 2) < 0 || stop())
            return -1;
    }
    return REAL(write)(file, bytes, length);
}

int fsync(int file) {
    if (getenv("STEP_TAKE") == NULL) {
        STEP("fsync");
    } else if (due("fsync")) {
        char link[64], path[4096];
        snprintf(link, sizeof link, "/proc/self/fd/%d", file);
        ssize_t length = readlink(link, path, sizeof path - 1);
        if (length < 0)
            return -1;
        path[length] = 0;
        REAL(unlink)(path);
    }
    return REAL(fsync)(file);
}

int statx(int folder, const char *path, int flags, unsigned mask, struct statx *found) {
    const char *first = getenv("STEP_FIRST");
    int answer = REAL(statx)(folder, path, flags, mask, found);
    if (answer < 0 && errno == ENOENT && first != NULL) {
        REAL(linkat)(AT_FDCWD, first, AT_FDCWD, path, 0);
        errno = ENOENT;
    }
    return answer;
}

int fchmod(int file, mode_t mode) {
    STEP("fchmod");
    return REAL(fchmod)(file, mode);
}

int linkat(int from, const char *old, int to, const char *new, int flags) {
    STEP("linkat");
    return REAL(linkat)(from, old, to, new, flags);
}

int rename(const char *old, const char *new) {
    STEP("rename");
    return REAL(rename)(old, new);
}

int unlink(const char *path) {
    STEP("unlink");
    return REAL(unlink)(path);
}

int mkdir(const char *path, mode_t mode) {
    STEP("mkdir");
    return REAL(mkdir)(path, mode);
}
