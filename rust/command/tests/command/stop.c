/* Stops a program at a chosen call, as a kill or a fault of the disk would. It is loaded before the C library by LD_PRELOAD, so the
   program that is tested has no part of it. The calls below are counted; at the call that STOP_AT numbers, STOP_HOW decides:
   "kill" ends the program before the call, or after the first half of a write; "fail" lets the call fail, a write with ENOSPC, a sync
   with EIO, another call with EACCES. */
#define _GNU_SOURCE
#include <errno.h>
#include <fcntl.h>
#include <signal.h>
#include <stdarg.h>
#include <stdlib.h>
#include <string.h>
#include <sys/syscall.h>
#include <sys/types.h>
#include <unistd.h>

enum how { GO, KILL, FAIL };

/* What is to happen at this call. */
static enum how next_call(void) {
    static long calls;
    const char *at = getenv("STOP_AT"), *how = getenv("STOP_HOW");
    if (at == NULL || how == NULL || ++calls != atol(at)) {
        return GO;
    }
    return strcmp(how, "kill") == 0 ? KILL : FAIL;
}

static void end(void) {
    kill(getpid(), SIGKILL);
}

/* Whether the call is to be made; if it is not, errno has the fault. */
static int passes(int fault) {
    enum how how = next_call();
    if (how == KILL) {
        end();
    }
    errno = how == GO ? errno : fault;
    return how == GO;
}

ssize_t write(int file, const void *bytes, size_t length) {
    enum how how = next_call();
    if (how == KILL) {
        (void)syscall(SYS_write, file, bytes, length / 2);
        end();
    }
    errno = ENOSPC;
    return how == GO ? syscall(SYS_write, file, bytes, length) : -1;
}

int open64(const char *path, int flags, ...) {
    va_list rest;
    va_start(rest, flags);
    mode_t mode = (flags & O_CREAT) != 0 ? va_arg(rest, mode_t) : 0;
    va_end(rest);
    return passes(EACCES) ? (int)syscall(SYS_openat, AT_FDCWD, path, flags, mode) : -1;
}

int fsync(int file) {
    return passes(EIO) ? (int)syscall(SYS_fsync, file) : -1;
}

int fchmod(int file, mode_t mode) {
    return passes(EACCES) ? (int)syscall(SYS_fchmod, file, mode) : -1;
}

int rename(const char *from, const char *to) {
    return passes(EACCES) ? (int)syscall(SYS_renameat2, AT_FDCWD, from, AT_FDCWD, to, 0) : -1;
}

int unlink(const char *path) {
    return passes(EACCES) ? (int)syscall(SYS_unlinkat, AT_FDCWD, path, 0) : -1;
}
