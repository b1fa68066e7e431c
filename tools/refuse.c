/* Fails calls of the C library by their numbers. tools/refuse builds this file and preloads it.

   REFUSE        the kind of calls that are counted, one of `names`
   REFUSE_AT     the number of the call that fails, from 1
   REFUSE_ON     where it is set, the later calls of the kind fail too
   REFUSE_COUNT  a file of two 64-bit numbers: the calls of the kind that were made, and 1 as soon as this
                 file is loaded. It is mapped, so a program that ends in whatever way has told its count. */
#define _GNU_SOURCE
#include <dlfcn.h>
#include <errno.h>
#include <fcntl.h>
#include <pthread.h>
#include <signal.h>
#include <stdarg.h>
#include <stdatomic.h>
#include <stdint.h>
#include <stdio.h>
#include <stdlib.h>
#include <string.h>
#include <sys/file.h>
#include <sys/mman.h>
#include <sys/stat.h>
#include <sys/syscall.h>
#include <sys/uio.h>
#include <unistd.h>

enum kind { NONE, ALLOC, OPEN, STAT, READ, READ_ONE, WRITE, WRITE_HALF, WRITE_ONE, TRUNCATE, SYNC, CLOSE, RENAME, LOCK, REMOVE, INTERRUPT, THREAD, SIGNAL, KINDS };

static const char *const names[KINDS] = {
    "", "alloc", "open", "stat", "read", "read-one", "write", "write-half", "write-one", "truncate", "sync", "close", "rename", "lock", "remove", "interrupt", "thread", "signal",
};

static enum kind kind;
static int64_t at;
static int later;
static _Atomic int64_t *count;
/* a write has moved half of its bytes, and the next one fails */
static atomic_int halved;
/* a call was interrupted, and the next one is not */
static atomic_int interrupted;

__attribute__((constructor)) static void begin(void) {
    const char *word = getenv("REFUSE"), *number = getenv("REFUSE_AT"), *file = getenv("REFUSE_COUNT");
    if (!word || !number || !file) return;
    int fd = syscall(SYS_openat, AT_FDCWD, file, O_RDWR);
    if (fd < 0) return;
    void *place = mmap(NULL, 2 * sizeof *count, PROT_READ | PROT_WRITE, MAP_SHARED, fd, 0);
    syscall(SYS_close, fd);
    if (place == MAP_FAILED) return;
    count = place;
    count[1] = 1;
    at = atoll(number);
    later = getenv("REFUSE_ON") != NULL;
    for (int k = 1; k < KINDS; k++)
        if (!strcmp(word, names[k])) kind = k;
}

/* Counts a call of a kind, and says whether it is to fail. */
static int fails(enum kind k) {
    if (kind != k) return 0;
    int64_t n = atomic_fetch_add(count, 1) + 1;
    return later ? n >= at : n == at;
}

/* The same function of the C library. */
#define NEXT(name) ((__typeof__(&name))dlsym(RTLD_NEXT, #name))

#define REFUSE(k, error, answer) \
    do { \
        if (fails(k)) { \
            errno = error; \
            return answer; \
        } \
    } while (0)

/* A signal that ends the program in front of a call on files; the two in turns. */
static void moment(void) {
    if (fails(SIGNAL)) raise(at % 2 ? SIGINT : SIGTERM);
}

/* Whether a call is to be interrupted by a signal. One that is tried again is not, so that a run ends. */
static int stops(void) {
    moment();
    if (atomic_exchange(&interrupted, 0) || !fails(INTERRUPT)) return 0;
    interrupted = 1;
    errno = EINTR;
    return 1;
}

/* Allocations. dlsym allocates itself, so these names of the GNU C library are called. */
extern void *__libc_malloc(size_t), *__libc_calloc(size_t, size_t), *__libc_realloc(void *, size_t), *__libc_memalign(size_t, size_t);

void *malloc(size_t n) {
    REFUSE(ALLOC, ENOMEM, NULL);
    return __libc_malloc(n);
}

void *calloc(size_t k, size_t n) {
    REFUSE(ALLOC, ENOMEM, NULL);
    return __libc_calloc(k, n);
}

void *realloc(void *p, size_t n) {
    REFUSE(ALLOC, ENOMEM, NULL);
    return __libc_realloc(p, n);
}

void *reallocarray(void *p, size_t k, size_t n) {
    size_t whole;
    if (__builtin_mul_overflow(k, n, &whole)) {
        errno = ENOMEM;
        return NULL;
    }
    return realloc(p, whole);
}

void *memalign(size_t edge, size_t n) {
    REFUSE(ALLOC, ENOMEM, NULL);
    return __libc_memalign(edge, n);
}

void *aligned_alloc(size_t edge, size_t n) { return memalign(edge, n); }

int posix_memalign(void **p, size_t edge, size_t n) {
    void *found = memalign(edge, n);
    if (!found) return ENOMEM;
    *p = found;
    return 0;
}

/* Files that are opened. */
#define MODE(flags) \
    mode_t mode = 0; \
    if ((flags) & (O_CREAT | __O_TMPFILE)) { \
        va_list rest; \
        va_start(rest, flags); \
        mode = va_arg(rest, mode_t); \
        va_end(rest); \
    }

int open(const char *path, int flags, ...) {
    MODE(flags)
    if (stops()) return -1;
    REFUSE(OPEN, EACCES, -1);
    return NEXT(open)(path, flags, mode);
}

int open64(const char *path, int flags, ...) {
    MODE(flags)
    if (stops()) return -1;
    REFUSE(OPEN, EACCES, -1);
    return NEXT(open64)(path, flags, mode);
}

int openat(int folder, const char *path, int flags, ...) {
    MODE(flags)
    if (stops()) return -1;
    REFUSE(OPEN, EACCES, -1);
    return NEXT(openat)(folder, path, flags, mode);
}

int openat64(int folder, const char *path, int flags, ...) {
    MODE(flags)
    if (stops()) return -1;
    REFUSE(OPEN, EACCES, -1);
    return NEXT(openat64)(folder, path, flags, mode);
}

/* What is asked of files. */
int fstat(int fd, struct stat *into) {
    moment();
    REFUSE(STAT, EIO, -1);
    return NEXT(fstat)(fd, into);
}

int fstat64(int fd, struct stat64 *into) {
    moment();
    REFUSE(STAT, EIO, -1);
    return NEXT(fstat64)(fd, into);
}

int fstatat(int folder, const char *path, struct stat *into, int flags) {
    moment();
    REFUSE(STAT, EIO, -1);
    return NEXT(fstatat)(folder, path, into, flags);
}

int fstatat64(int folder, const char *path, struct stat64 *into, int flags) {
    moment();
    REFUSE(STAT, EIO, -1);
    return NEXT(fstatat64)(folder, path, into, flags);
}

int statx(int folder, const char *path, int flags, unsigned mask, struct statx *into) {
    moment();
    REFUSE(STAT, EIO, -1);
    return NEXT(statx)(folder, path, flags, mask, into);
}

/* Bytes that are read. */
ssize_t read(int fd, void *into, size_t n) {
    if (stops()) return -1;
    REFUSE(READ, EIO, -1);
    if (n > 1 && fails(READ_ONE)) n = 1;
    return NEXT(read)(fd, into, n);
}

ssize_t pread(int fd, void *into, size_t n, off_t from) {
    REFUSE(READ, EIO, -1);
    if (n > 1 && fails(READ_ONE)) n = 1;
    return NEXT(pread)(fd, into, n, from);
}

ssize_t readv(int fd, const struct iovec *into, int k) {
    REFUSE(READ, EIO, -1);
    return NEXT(readv)(fd, into, k);
}

/* Bytes that are written. */
ssize_t write(int fd, const void *bytes, size_t n) {
    if (stops()) return -1;
    REFUSE(WRITE, ENOSPC, -1);
    if (atomic_exchange(&halved, 0)) {
        errno = ENOSPC;
        return -1;
    }
    if (n > 1 && fails(WRITE_HALF)) {
        halved = 1;
        n /= 2;
    }
    if (n > 1 && fails(WRITE_ONE)) n = 1;
    return NEXT(write)(fd, bytes, n);
}

ssize_t __write(int fd, const void *bytes, size_t n) { return write(fd, bytes, n); }

ssize_t writev(int fd, const struct iovec *bytes, int k) {
    REFUSE(WRITE, ENOSPC, -1);
    return NEXT(writev)(fd, bytes, k);
}

int ftruncate(int fd, off_t n) {
    if (stops()) return -1;
    REFUSE(TRUNCATE, EIO, -1);
    return NEXT(ftruncate)(fd, n);
}

int ftruncate64(int fd, off64_t n) {
    if (stops()) return -1;
    REFUSE(TRUNCATE, EIO, -1);
    return NEXT(ftruncate64)(fd, n);
}

/* What the system tells late. A file is closed all the same. */
int fsync(int fd) {
    if (stops()) return -1;
    REFUSE(SYNC, EIO, -1);
    return NEXT(fsync)(fd);
}

int fdatasync(int fd) {
    if (stops()) return -1;
    REFUSE(SYNC, EIO, -1);
    return NEXT(fdatasync)(fd);
}

int close(int fd) {
    moment();
    int answer = NEXT(close)(fd);
    REFUSE(CLOSE, EIO, -1);
    return answer;
}

/* Names that are given to other files. */
int rename(const char *from, const char *to) {
    moment();
    REFUSE(RENAME, EIO, -1);
    return NEXT(rename)(from, to);
}

int unlink(const char *path) {
    moment();
    REFUSE(REMOVE, EIO, -1);
    return NEXT(unlink)(path);
}

/* Files that are held. */
int flock(int fd, int how) {
    moment();
    REFUSE(LOCK, ENOLCK, -1);
    return NEXT(flock)(fd, how);
}

/* Threads that are started. */
int pthread_create(pthread_t *thread, const pthread_attr_t *how, void *(*work)(void *), void *given) {
    if (fails(THREAD)) return EAGAIN;
    return NEXT(pthread_create)(thread, how, work, given);
}
