/* A library to be loaded before the C library: counts the calls that change files, and kills the program or fails the call at one of
   them; fails or cuts short the reading of a file; keeps a file from getting its name; and writes
   down which files are synced and named. */
#define _GNU_SOURCE
#include <dlfcn.h>
#include <errno.h>
#include <fcntl.h>
#include <signal.h>
#include <stdarg.h>
#include <stdio.h>
#include <stdlib.h>
#include <string.h>
#include <sys/file.h>
#include <sys/stat.h>
#include <unistd.h>

#define REAL(name) ((__typeof__(&name))dlsym(RTLD_NEXT, #name))

static int is(const char *variable, const char *value) {
    const char *set = getenv(variable);
    return set && strcmp(set, value) == 0;
}

/* Appends a line to the file FAULT_LOG. */
static void log_call(const char *call, const char *path) {
    const char *log = getenv("FAULT_LOG");
    FILE *file = log ? fopen(log, "a") : NULL;
    if (!file) return;
    fprintf(file, "%s %s\n", call, path);
    fclose(file);
}

/* Counts a call. At the call with the number FAULT_AT: ends the program, or says that the call is to fail; and each behind it
   too with FAULT_HOW broken. */
static int fault_at_call(void) {
    static long calls;
    const char *at = getenv("FAULT_AT");
    if (!at || ++calls < atol(at) || (calls > atol(at) && !is("FAULT_HOW", "broken"))) return 0;
    log_call("fault", "");
    if (is("FAULT_HOW", "kill")) raise(SIGKILL);
    errno = EIO;
    return 1;
}

/* Of the calls but writes; FAULT_HOW part stops in the midst of a write alone. */
static int fault(void) { return is("FAULT_HOW", "part") ? 0 : fault_at_call(); }

static void path_of(int file, char *path, size_t room) {
    char link[64];
    snprintf(link, sizeof link, "/proc/self/fd/%d", file);
    ssize_t length = readlink(link, path, room - 1);
    path[length < 0 ? 0 : length] = 0;
}

int open64(const char *path, int flags, ...) {
    va_list rest;
    va_start(rest, flags);
    mode_t mode = flags & O_CREAT ? va_arg(rest, mode_t) : 0;
    va_end(rest);
    if ((flags & O_CREAT) && fault()) return -1;
    return REAL(open64)(path, flags, mode);
}

/* The first reading of the file whose name is FAULT_READ, or FAULT_HOW always each: an error, or the end of the file. */
ssize_t read(int file, void *bytes, size_t count) {
    static int done;
    const char *name = getenv("FAULT_READ");
    char path[4096];
    if (name && !done) {
        path_of(file, path, sizeof path);
        size_t length = strlen(path), tail = strlen(name);
        if (tail <= length && strcmp(path + length - tail, name) == 0) {
            done = !is("FAULT_HOW", "always");
            if (is("FAULT_HOW", "end")) return 0;
            errno = EIO;
            return -1;
        }
    }
    return REAL(read)(file, bytes, count);
}

/* A program that is killed while it writes has written a part. It can print what it has to say where the disk is broken. */
ssize_t write(int file, const void *bytes, size_t count) {
    if (file <= 2 && is("FAULT_HOW", "broken")) return REAL(write)(file, bytes, count);
    if (!is("FAULT_HOW", "part")) return fault() ? -1 : REAL(write)(file, bytes, count);
    if (!fault_at_call()) return REAL(write)(file, bytes, count);
    REAL(write)(file, bytes, count / 2);
    return raise(SIGKILL);
}

int fsync(int file) {
    char path[4096];
    path_of(file, path, sizeof path);
    log_call("sync", path);
    return fault() ? -1 : REAL(fsync)(file);
}

/* Whether the file FAULT_PLACE is not to get its name. */
static int cannot_be_placed(const char *path) {
    const char *name = getenv("FAULT_PLACE");
    const char *last = strrchr(path, '/');
    errno = EIO;
    return name && strcmp(last ? last + 1 : path, name) == 0;
}

int rename(const char *from, const char *to) {
    log_call("rename", to);
    return cannot_be_placed(to) || fault() ? -1 : REAL(rename)(from, to);
}

int mkdir(const char *path, mode_t mode) { return fault() ? -1 : REAL(mkdir)(path, mode); }
int rmdir(const char *path) { return fault() ? -1 : REAL(rmdir)(path); }
int unlink(const char *path) { return fault() ? -1 : REAL(unlink)(path); }
int flock(int file, int how) { return fault() ? -1 : REAL(flock)(file, how); }
int fchmod(int file, mode_t mode) { return fault() ? -1 : REAL(fchmod)(file, mode); }

int linkat(int from_at, const char *from, int to_at, const char *to, int flags) {
    log_call("link", to);
    return cannot_be_placed(to) || fault() ? -1 : REAL(linkat)(from_at, from, to_at, to, flags);
}
