/* Stands before the C library, for tools/devices. Calls of open, read, write and close on files and
   on standard output are counted from 1. The call of the number FAIL_CALL fails with the number
   FAIL_ERROR, or, if FAIL_SHORT is there, moves one byte at most. Of standard output only the first
   FAIL_OUTPUT bytes are taken, and of other files that are written the first FAIL_FILES bytes in
   all; then writes fail. Just before the call of the number SHRINK_CALL, the file SHRINK_FILE is
   cut to SHRINK_SIZE bytes. The file `failed` gets what the call was, as: write 1. */
#define _GNU_SOURCE
#include <dlfcn.h>
#include <errno.h>
#include <fcntl.h>
#include <stdarg.h>
#include <stdatomic.h>
#include <stdio.h>
#include <stdlib.h>
#include <string.h>
#include <sys/syscall.h>
#include <sys/types.h>
#include <unistd.h>

static long fail_call, fail_error, is_short, shrink_call, shrink_size;
static long output_room = -1, files_room = -1;
static const char *shrink_file;
static atomic_long calls;
static int is_begun;

static long number_of(const char *name, long otherwise) {
    const char *text = getenv(name);
    return text ? strtol(text, NULL, 10) : otherwise;
}

__attribute__((constructor)) static void begin(void) {
    fail_call = number_of("FAIL_CALL", 0);
    fail_error = number_of("FAIL_ERROR", EIO);
    is_short = number_of("FAIL_SHORT", 0);
    output_room = number_of("FAIL_OUTPUT", -1);
    files_room = number_of("FAIL_FILES", -1);
    shrink_call = number_of("SHRINK_CALL", 0);
    shrink_size = number_of("SHRINK_SIZE", 0);
    shrink_file = getenv("SHRINK_FILE");
    is_begun = 1;
}

/* Notes what fails, by system calls alone. */
static void note(const char *what, int file) {
    char text[40];
    int size = snprintf(text, sizeof text, "%s %d\n", what, file);
    int to = (int)syscall(SYS_open, "failed", O_CREAT | O_WRONLY | O_APPEND, 0600);
    syscall(SYS_write, to, text, (size_t)size);
    syscall(SYS_close, to);
}

/* Whether this call is to fail, or to be short. */
static int is_chosen(const char *what, int file) {
    if (!is_begun)
        return 0;
    long number = atomic_fetch_add(&calls, 1) + 1;
    if (shrink_file && number == shrink_call)
        syscall(SYS_truncate, shrink_file, shrink_size);
    if (number != fail_call)
        return 0;
    note(what, file);
    return 1;
}

static long fail(long error) {
    errno = (int)error;
    return -1;
}

int open(const char *name, int flags, ...) {
    va_list rest;
    va_start(rest, flags);
    int mode = flags & (O_CREAT | O_TMPFILE) ? va_arg(rest, int) : 0;
    va_end(rest);
    if (is_chosen("open", flags & (O_WRONLY | O_RDWR) ? 2 : 0) && !is_short)
        return (int)fail(fail_error);
    return (int)syscall(SYS_open, name, flags, mode);
}

int close(int file) {
    int is_failing = is_chosen("close", file) && !is_short;
    int result = (int)syscall(SYS_close, file);
    return is_failing ? (int)fail(fail_error) : result;
}

ssize_t read(int file, void *to, size_t size) {
    if (is_chosen("read", file)) {
        if (!is_short)
            return fail(fail_error);
        size = size > 1 ? 1 : size;
    }
    return syscall(SYS_read, file, to, size);
}

ssize_t write(int file, const void *from, size_t size) {
    long *room = file == 1 ? &output_room : &files_room;
    if (is_chosen("write", file == 1)) {
        if (!is_short)
            return fail(fail_error);
        size = size > 1 ? 1 : size;
    }
    if (*room == 0 && size > 0) {
        note("write", file == 1);
        return fail(ENOSPC);
    }
    if (*room > 0 && size > (size_t)*room)
        size = (size_t)*room;
    ssize_t done = syscall(SYS_write, file, from, size);
    if (*room > 0 && done > 0)
        *room -= done;
    return done;
}
