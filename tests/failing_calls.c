/* Makes calls of the C library fail, for tests/failing.py, which preloads this before the program:

   FAIL_CALL    which call: open, stat, list, pread, pwrite, write, rename, truncate, mkdir, unlink, mode, socket,
                connect, poll, send, recv, accept, thread or memory
   FAIL_AT      which of these calls fails, counted from 0
   FAIL_ERROR   its errno; with 0 it answers 0 and does nothing
   FAIL_MORE    where it is set all later ones fail too
   FAIL_BYTE    where it is set only a pread or pwrite of this byte of a file counts, from 0
   FAIL_THREAD  where it is set only the calls of this thread count: 0 is the first one of the process, the others
                have numbers from 1 on, in the order in which they first make such a call
   FAIL_TOLD    a file that takes a line for each call that fails: the path that it was about */
#define _GNU_SOURCE
#include <dlfcn.h>
#include <errno.h>
#include <fcntl.h>
#include <poll.h>
#include <pthread.h>
#include <stdarg.h>
#include <stdio.h>
#include <stdlib.h>
#include <string.h>
#include <sys/socket.h>
#include <sys/stat.h>
#include <sys/syscall.h>
#include <unistd.h>

static long seen, threads;
static __thread long thread;

void *__libc_malloc(size_t);
void *__libc_realloc(void *, size_t);

/* System calls are made past the C library, and no memory is taken. */
static void tell(const char *path) {
    const char *told = getenv("FAIL_TOLD");
    if (told == NULL) return;
    int file = syscall(SYS_openat, AT_FDCWD, told, O_WRONLY | O_CREAT | O_APPEND, 0644);
    syscall(SYS_write, file, path, strlen(path));
    syscall(SYS_write, file, "\n", 1);
    syscall(SYS_close, file);
}

static int is_of_thread(void) {
    const char *wanted = getenv("FAIL_THREAD");
    if (wanted == NULL) return 1;
    if (syscall(SYS_gettid) == getpid()) return atol(wanted) == 0;
    if (thread == 0) thread = __atomic_add_fetch(&threads, 1, __ATOMIC_RELAXED);
    return thread == atol(wanted);
}

static int fails(const char *call, const char *path) {
    const char *wanted = getenv("FAIL_CALL");
    if (wanted == NULL || strcmp(wanted, call) != 0 || !is_of_thread()) return 0;
    long at = atol(getenv("FAIL_AT"));
    long number = __atomic_fetch_add(&seen, 1, __ATOMIC_RELAXED);
    if (number < at || (number > at && getenv("FAIL_MORE") == NULL)) return 0;
    tell(path);
    errno = atoi(getenv("FAIL_ERROR"));
    return 1;
}

static int fails_at(const char *call, int file) {
    const char *wanted = getenv("FAIL_CALL");
    if (wanted == NULL || strcmp(wanted, call) != 0) return 0;
    char link[32], path[4096];
    snprintf(link, sizeof link, "/proc/self/fd/%d", file);
    long size = syscall(SYS_readlinkat, AT_FDCWD, link, path, sizeof path - 1);
    path[size > 0 ? size : 0] = 0;
    return fails(call, path);
}

static int fails_in(const char *call, int file, size_t size, off_t at) {
    const char *byte = getenv("FAIL_BYTE");
    if (byte != NULL && (atol(byte) < at || at + (off_t)size <= atol(byte))) return 0;
    return fails_at(call, file);
}

#define NEXT(name) __typeof__(name) *next = (__typeof__(name) *)dlsym(RTLD_NEXT, #name)
#define ANSWER (errno == 0 ? 0 : -1)

int open(const char *path, int flags, ...) {
    NEXT(open);
    va_list more;
    va_start(more, flags);
    int mode = flags & O_CREAT ? va_arg(more, int) : 0;
    va_end(more);
    return fails("open", path) ? -1 : next(path, flags, mode);
}

int openat(int folder, const char *path, int flags, ...) {
    NEXT(openat);
    va_list more;
    va_start(more, flags);
    int mode = flags & O_CREAT ? va_arg(more, int) : 0;
    va_end(more);
    return fails("open", path) ? -1 : next(folder, path, flags, mode);
}

int statx(int folder, const char *restrict path, int flags, unsigned mask, struct statx *restrict out) {
    NEXT(statx);
    if (path[0] == 0 ? fails_at("stat", folder) : fails("stat", path)) return -1;
    return next(folder, path, flags, mask, out);
}

ssize_t getdents64(int file, void *out, size_t size) {
    NEXT(getdents64);
    return fails_at("list", file) ? ANSWER : next(file, out, size);
}

ssize_t pread(int file, void *out, size_t size, off_t at) {
    NEXT(pread);
    return fails_in("pread", file, size, at) ? ANSWER : next(file, out, size, at);
}

ssize_t pwrite(int file, const void *bytes, size_t size, off_t at) {
    NEXT(pwrite);
    return fails_in("pwrite", file, size, at) ? ANSWER : next(file, bytes, size, at);
}

ssize_t write(int file, const void *bytes, size_t size) {
    NEXT(write);
    return fails_at("write", file) ? ANSWER : next(file, bytes, size);
}

int rename(const char *from, const char *to) {
    NEXT(rename);
    return fails("rename", to) ? -1 : next(from, to);
}

int ftruncate(int file, off_t size) {
    NEXT(ftruncate);
    return fails_at("truncate", file) ? -1 : next(file, size);
}

int mkdir(const char *path, mode_t mode) {
    NEXT(mkdir);
    return fails("mkdir", path) ? -1 : next(path, mode);
}

int unlink(const char *path) {
    NEXT(unlink);
    return fails("unlink", path) ? -1 : next(path);
}

int chmod(const char *path, mode_t mode) {
    NEXT(chmod);
    return fails("mode", path) ? -1 : next(path, mode);
}

int socket(int domain, int type, int protocol) {
    NEXT(socket);
    return fails("socket", "socket") ? -1 : next(domain, type, protocol);
}

int connect(int file, const struct sockaddr *address, socklen_t size) {
    NEXT(connect);
    return fails("connect", "socket") ? -1 : next(file, address, size);
}

int poll(struct pollfd *files, nfds_t count, int wait) {
    NEXT(poll);
    return fails("poll", "socket") ? -1 : next(files, count, wait);
}

ssize_t send(int file, const void *bytes, size_t size, int flags) {
    NEXT(send);
    return fails("send", "socket") ? ANSWER : next(file, bytes, size, flags);
}

ssize_t recv(int file, void *out, size_t size, int flags) {
    NEXT(recv);
    return fails("recv", "socket") ? ANSWER : next(file, out, size, flags);
}

int accept4(int file, struct sockaddr *restrict address, socklen_t *restrict size, int flags) {
    NEXT(accept4);
    return fails("accept", "socket") ? -1 : next(file, address, size, flags);
}

int pthread_create(pthread_t *restrict thread, const pthread_attr_t *restrict attributes, void *(*start)(void *),
                   void *restrict argument) {
    NEXT(pthread_create);
    return fails("thread", "thread") ? errno : next(thread, attributes, start, argument);
}

void *malloc(size_t size) {
    return fails("memory", "memory") ? NULL : __libc_malloc(size);
}

void *realloc(void *old, size_t size) {
    return fails("memory", "memory") ? NULL : __libc_realloc(old, size);
}
