/* This library, loaded by LD_PRELOAD, replaces the functions of the C library (glibc) with which xbrlmerge writes a file.
   Three environment variables control this library. FAIL is the number of the call that fails as on a full device. KILL is the
   number of the call at which the process is killed. CALLS_LOG names a file, to which the name of each counted call is
   appended. Calls are counted from 1; writes to the standard streams and calls of open without O_EXCL are not counted. */
#define _GNU_SOURCE
#include <dlfcn.h>
#include <errno.h>
#include <fcntl.h>
#include <signal.h>
#include <stdarg.h>
#include <stdlib.h>
#include <string.h>
#include <sys/stat.h>
#include <unistd.h>

static long made;

static long number_of(const char *name) {
    const char *number = getenv(name);
    return number ? atol(number) : 0;
}

static void record(const char *name) {
    static ssize_t (*real)(int, const void *, size_t);
    static int (*opened)(const char *, int, ...);
    const char *log_file = getenv("CALLS_LOG");
    if (!log_file) return;
    if (!real) real = dlsym(RTLD_NEXT, "write");
    if (!opened) opened = dlsym(RTLD_NEXT, "open");
    int file = opened(log_file, O_WRONLY | O_CREAT | O_APPEND | O_CLOEXEC, 0600);
    if (file < 0 || real(file, name, strlen(name)) < 0 || real(file, "\n", 1) < 0 || close(file) < 0) abort();
}

static int fails(const char *name) {
    made++;
    record(name);
    if (made == number_of("KILL")) raise(SIGKILL);
    if (made != number_of("FAIL")) return 0;
    errno = ENOSPC;
    return 1;
}

#define REAL(name) ((__typeof__(&name))dlsym(RTLD_NEXT, #name))

ssize_t write(int file, const void *bytes, size_t count) {
    return file > 2 && fails("write") ? -1 : REAL(write)(file, bytes, count);
}
ssize_t __write(int file, const void *bytes, size_t count) { return write(file, bytes, count); }
int fsync(int file) { return fails("fsync") ? -1 : REAL(fsync)(file); }
int fchmod(int file, mode_t mode) { return fails("fchmod") ? -1 : REAL(fchmod)(file, mode); }
int rename(const char *from, const char *to) { return fails("rename") ? -1 : REAL(rename)(from, to); }
int renameat(int a, const char *from, int b, const char *to) { return fails("rename") ? -1 : REAL(renameat)(a, from, b, to); }
int renameat2(int a, const char *from, int b, const char *to, unsigned how) {
    return fails("rename") ? -1 : REAL(renameat2)(a, from, b, to, how);
}
int open(const char *path, int how, ...) {
    va_list rest;
    va_start(rest, how);
    mode_t mode = how & O_CREAT ? va_arg(rest, mode_t) : 0;
    va_end(rest);
    return how & O_EXCL && fails("open") ? -1 : REAL(open)(path, how, mode);
}
