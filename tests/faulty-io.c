// Lets the I/O of a program fail, stop, come in small pieces, or be written down. The tests of jobs preload it.
//
// IO_SHORT     each read and write of a stream moves three bytes at most
// IO_CALL=NAME write, fsync, fdatasync, truncate, rename or any: the calls that IO_AT counts, but for those on standard streams
// IO_AT=N      the Nth of them fails with IO_ERROR, and each later one too if IO_ON is set; without IO_ERROR the program ends at once
// IO_TRACE=F   appends to the file F each write ("w NAME OFFSET LENGTH" and the bytes), truncation ("t NAME LENGTH") and sync ("s NAME"), and
//              what goes to standard output ("a LENGTH" and the bytes)
#define _GNU_SOURCE
#include <errno.h>
#include <fcntl.h>
#include <stdio.h>
#include <stdlib.h>
#include <string.h>
#include <sys/syscall.h>
#include <sys/types.h>
#include <unistd.h>

static long calls;

static size_t few(size_t count) { return getenv("IO_SHORT") && count > 3 ? 3 : count; }

// Returns whether this call is to fail, with errno set.
static int fails(const char *name) {
    const char *counted = getenv("IO_CALL"), *at = getenv("IO_AT"), *error = getenv("IO_ERROR");
    if (!counted || !at || (strcmp(counted, "any") && strcmp(counted, name))) return 0;
    calls++;
    if (calls < atol(at) || (calls > atol(at) && !getenv("IO_ON"))) return 0;
    if (!error) _exit(137);
    errno = atoi(error);
    return 1;
}

static void note(char kind, int file, const void *bytes, size_t count, off_t at) {
    const char *path = getenv("IO_TRACE");
    if (!path) return;
    char link[64], name[512] = "", head[700];
    snprintf(link, sizeof link, "/proc/self/fd/%d", file);
    ssize_t len = readlink(link, name, sizeof name - 1);
    name[len < 0 ? 0 : len] = 0;
    const char *base = strrchr(name, '/') ? strrchr(name, '/') + 1 : name;
    int trace = syscall(SYS_openat, AT_FDCWD, path, O_WRONLY | O_APPEND | O_CREAT, 0600), used = 0;
    if (kind == 'w') used = snprintf(head, sizeof head, "w %s %lld %zu\n", base, (long long)at, count);
    if (kind == 't') used = snprintf(head, sizeof head, "t %s %lld\n", base, (long long)at);
    if (kind == 's') used = snprintf(head, sizeof head, "s %s\n", base);
    if (kind == 'a') used = snprintf(head, sizeof head, "a %zu\n", count);
    syscall(SYS_write, trace, head, used);
    if (count) syscall(SYS_write, trace, bytes, count);
    syscall(SYS_close, trace);
}

ssize_t read(int file, void *to, size_t count) { return syscall(SYS_read, file, to, few(count)); }

ssize_t pread(int file, void *to, size_t count, off_t at) { return syscall(SYS_pread64, file, to, count, at); }

ssize_t pread64(int file, void *to, size_t count, off_t at) { return pread(file, to, count, at); }

ssize_t write(int file, const void *from, size_t count) {
    ssize_t done = syscall(SYS_write, file, from, few(count));
    if (done > 0 && file == 1) note('a', file, from, done, 0);
    return done;
}

ssize_t pwrite(int file, const void *from, size_t count, off_t at) {
    if (fails("write")) return -1;
    ssize_t done = syscall(SYS_pwrite64, file, from, count, at);
    if (done > 0) note('w', file, from, done, at);
    return done;
}

ssize_t pwrite64(int file, const void *from, size_t count, off_t at) { return pwrite(file, from, count, at); }

int fsync(int file) {
    if (fails("fsync")) return -1;
    note('s', file, 0, 0, 0);
    return syscall(SYS_fsync, file);
}

int fdatasync(int file) {
    if (fails("fdatasync")) return -1;
    note('s', file, 0, 0, 0);
    return syscall(SYS_fdatasync, file);
}

int ftruncate(int file, off_t len) {
    if (fails("truncate")) return -1;
    note('t', file, 0, 0, len);
    return syscall(SYS_ftruncate, file, len);
}

int ftruncate64(int file, off_t len) { return ftruncate(file, len); }

int rename(const char *from, const char *to) { return fails("rename") ? -1 : syscall(SYS_renameat2, AT_FDCWD, from, AT_FDCWD, to, 0); }
