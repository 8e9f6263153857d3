/* Stands between the program and the system's calls on files: notes each call, and lets one of them fail.
 *
 * HOSTILE_LOG names the file of the notes, a line a call in the order in which they were made:
 *     op file offset length answer [bytes in hex, of what was written]
 * where the file is the last part of its path, or stdout, stderr; an answer below 0 is the number of the error.
 * The call numbered HOSTILE_AT, counted from 1, meets what HOSTILE_HOW says:
 *     eio, enospc, eintr   it fails and does nothing
 *     short                it moves half of the bytes; where it moves less than two, nothing is changed
 *     dead                 it and all later calls on that file fail with EIO
 *     torn                 it moves half of the bytes, and all later calls on that file fail with EIO
 * Closing is noted and never fails. */
#define _GNU_SOURCE
#include <dlfcn.h>
#include <errno.h>
#include <fcntl.h>
#include <pthread.h>
#include <stdarg.h>
#include <stdio.h>
#include <stdlib.h>
#include <string.h>
#include <sys/file.h>
#include <sys/stat.h>
#include <sys/syscall.h>
#include <unistd.h>

enum { FILES = 1024, NAME = 64, RECORD = 1 << 20 };

static pthread_mutex_t lock = PTHREAD_MUTEX_INITIALIZER;
static char names[FILES][NAME], dead[NAME], record[RECORD];
static int notes = -1;
static long calls, at;
static const char *how = "";

__attribute__((constructor)) static void begin(void) {
    const char *log = getenv("HOSTILE_LOG"), *number = getenv("HOSTILE_AT"), *fault = getenv("HOSTILE_HOW");
    strcpy(names[1], "stdout");
    strcpy(names[2], "stderr");
    at = number ? atol(number) : 0;
    how = fault ? fault : "";
    int file = log ? syscall(SYS_openat, AT_FDCWD, log, O_WRONLY | O_CREAT | O_APPEND | O_CLOEXEC, 0600) : -1;
    if (file >= 0) {
        notes = syscall(SYS_fcntl, file, F_DUPFD_CLOEXEC, FILES - 1);
        syscall(SYS_close, file);
    }
}

static int is(const char *fault) { return strcmp(how, fault) == 0; }

/* The error that this call meets, or 0; and where it is to move half of the bytes, that many in `length`. */
static int fault(const char *name, size_t *length) {
    calls++;
    if (dead[0] && strcmp(dead, name) == 0)
        return EIO;
    if (calls != at)
        return 0;
    if (is("dead") || is("torn"))
        strcpy(dead, name);
    if (is("short") || is("torn")) {
        if (length && *length > 1)
            *length /= 2;
        return 0;
    }
    return is("enospc") ? ENOSPC : is("eintr") ? EINTR : EIO;
}

static long noted(const char *op, const char *name, long offset, size_t length, long answer, const void *bytes) {
    int error = errno;
    size_t count = bytes && answer > 0 ? answer : 0, used;
    if (count > RECORD / 2 - 256)
        abort();
    used = snprintf(record, RECORD, "%s %s %ld %zu %ld ", op, name, offset, length, answer < 0 ? -(long)error : answer);
    for (size_t i = 0; i < count; i++)
        used += snprintf(record + used, 3, "%02x", ((const unsigned char *)bytes)[i]);
    record[used++] = '\n';
    if (notes >= 0 && syscall(SYS_write, notes, record, used) != (long)used)
        abort();
    errno = error;
    return answer;
}

static const char *name_of(int file) { return file >= 0 && file < FILES && names[file][0] ? names[file] : "other"; }

#define GUARDED(op, name, offset, length, moved, bytes, call)                                                          \
    pthread_mutex_lock(&lock);                                                                                         \
    errno = fault(name, moved);                                                                                        \
    long answer = errno ? -1 : (call);                                                                                 \
    noted(op, name, offset, length, answer, bytes);                                                                    \
    pthread_mutex_unlock(&lock);                                                                                       \
    return answer

static int opened(const char *path, int flags, unsigned mode) {
    const char *last = strrchr(path, '/') ? strrchr(path, '/') + 1 : path;
    pthread_mutex_lock(&lock);
    errno = fault(last, 0);
    long file = errno ? -1 : syscall(SYS_openat, AT_FDCWD, path, flags, mode);
    if (file >= 0 && file < FILES)
        snprintf(names[file], NAME, "%s", last);
    noted("open", last, 0, 0, file, 0);
    pthread_mutex_unlock(&lock);
    return file;
}

int open(const char *path, int flags, ...) {
    va_list rest;
    va_start(rest, flags);
    unsigned mode = flags & O_CREAT ? va_arg(rest, unsigned) : 0;
    va_end(rest);
    return opened(path, flags, mode);
}

int open64(const char *path, int flags, ...) {
    va_list rest;
    va_start(rest, flags);
    unsigned mode = flags & O_CREAT ? va_arg(rest, unsigned) : 0;
    va_end(rest);
    return opened(path, flags, mode);
}

int close(int file) {
    pthread_mutex_lock(&lock);
    noted("close", name_of(file), 0, 0, 0, 0);
    if (file >= 0 && file < FILES)
        names[file][0] = 0;
    pthread_mutex_unlock(&lock);
    return syscall(SYS_close, file);
}

ssize_t read(int file, void *bytes, size_t length) {
    size_t asked = length;
    GUARDED("read", name_of(file), 0, asked, &length, 0, syscall(SYS_read, file, bytes, length));
}

ssize_t write(int file, const void *bytes, size_t length) {
    size_t asked = length;
    GUARDED("write", name_of(file), 0, asked, &length, bytes, syscall(SYS_write, file, bytes, length));
}

ssize_t pread(int file, void *bytes, size_t length, off_t offset) {
    size_t asked = length;
    GUARDED("pread", name_of(file), offset, asked, &length, 0, syscall(SYS_pread64, file, bytes, length, offset));
}

ssize_t pread64(int file, void *bytes, size_t length, off_t offset) { return pread(file, bytes, length, offset); }

ssize_t pwrite(int file, const void *bytes, size_t length, off_t offset) {
    size_t asked = length;
    GUARDED("pwrite", name_of(file), offset, asked, &length, bytes,
            syscall(SYS_pwrite64, file, bytes, length, offset));
}

ssize_t pwrite64(int file, const void *bytes, size_t length, off_t offset) {
    return pwrite(file, bytes, length, offset);
}

int fsync(int file) { GUARDED("fsync", name_of(file), 0, 0, 0, 0, syscall(SYS_fsync, file)); }

int fdatasync(int file) { GUARDED("fsync", name_of(file), 0, 0, 0, 0, syscall(SYS_fdatasync, file)); }

int ftruncate(int file, off_t length) {
    GUARDED("ftruncate", name_of(file), 0, length, 0, 0, syscall(SYS_ftruncate, file, length));
}

int ftruncate64(int file, off_t length) { return ftruncate(file, length); }

int flock(int file, int kind) { GUARDED("flock", name_of(file), 0, kind, 0, 0, syscall(SYS_flock, file, kind)); }

int statx(int file, const char *path, int flags, unsigned mask, struct statx *found) {
    GUARDED("statx", name_of(file), 0, 0, 0, 0, syscall(SYS_statx, file, path, flags, mask, found));
}
