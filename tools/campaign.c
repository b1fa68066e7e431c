/* Runs the main of a program again and again in one process, over files in memory. tools/campaign --warm builds this
   file, and preloads it.

   The descriptor MEMORY is what the script shares: a head, and behind it the slots, each SLOT bytes from the one before.
   A slot is a file without its name; the head tells which slot each name of the folder leads to. For each byte that
   comes on the descriptor ASKED, main runs so many times with the words of the head, each run in SECONDS at most, and
   the byte goes to ANSWERED when the head tells how that ended. Where nothing comes any more, the process ends. */
#define _GNU_SOURCE
#include <dlfcn.h>
#include <errno.h>
#include <fcntl.h>
#include <link.h>
#include <pthread.h>
#include <setjmp.h>
#include <stdarg.h>
#include <stdint.h>
#include <stdlib.h>
#include <string.h>
#include <sys/mman.h>
#include <sys/stat.h>
#include <sys/syscall.h>
#include <sys/sysmacros.h>
#include <unistd.h>

/* The names of the folder; NEWCL and NEWTAPE are those of outputs. A run may make SPARE others. */
enum { PART, MACHINE, CL, TAPE, OUTLINE, NEWCL, NEWTAPE, OTHER, OTHERCL, OTHERTAPE, FILES, SPARE = 6 };
/* The slots: files, what is printed, and what the first of several runs left of the outputs and printed. */
enum { PRINTED = FILES + SPARE, KEPT, SLOTS = KEPT + 3, WORDS = 8, LONGEST = 32 };

static const char *const names[FILES] = {"part", "machine", "cl", "tape", "outline", "newcl", "newtape", "other", "othercl", "othertape"};

static struct {
    int64_t place[FILES]; /* the slot to which a name leads, below 0 where there is no such file */
    int64_t size[SLOTS];
    int64_t words;           /* how many words the next runs have behind the program's name */
    int64_t piece;           /* how many bytes a call moves at most in all runs but the first, 0 for any number */
    int64_t status, changed; /* of the last run: a bit for each file that it changed, and FILES for any other file */
    int64_t is_same;         /* whether all runs ended like the first */
    char word[WORDS][LONGEST];
} *head;

static char *slot(int64_t number) { return (char *)head + (number + 1) * (int64_t)SLOT; }

/* What ends the process ends a run alone. */
typedef int begun(int, char **, char **);

static begun *program;
static jmp_buf ended;
static int is_running;

static void leave(int how) {
    if (!is_running) syscall(SYS_exit_group, how);
    head->status = how & 255;
    longjmp(ended, 1);
}

void exit(int how) {
    leave(how);
    abort();
}

void _exit(int how) {
    leave(how);
    abort();
}

/* Names that the script doesn't know. */
static struct {
    char name[64];
    int64_t place;
} spare[SPARE];

/* Whether a slot was written in this run. */
static char is_written[SLOTS];

/* Files that are open have descriptors from FIRST on. */
enum { FIRST = 1000, MANY = 16 };

static struct {
    int is_open, flags;
    int64_t slot, at;
} opened[MANY];

static size_t piece;

static int refused(int error) {
    errno = error;
    return -1;
}

static int is_ours(int fd) { return fd >= FIRST && fd < FIRST + MANY && opened[fd - FIRST].is_open; }

/* Where a name of the folder is kept; NULL where a path leads elsewhere, or nowhere. */
static int64_t *place_of(const char *path, int is_made) {
    while (!strncmp(path, "./", 2)) path += 2;
    if (!is_running || strchr(path, '/') || !strcmp(path, ".") || strlen(path) >= sizeof spare->name) return NULL;
    for (int file = 0; file < FILES; file++)
        if (!strcmp(path, names[file])) return &head->place[file];
    for (int i = 0; i < SPARE; i++)
        if (spare[i].place >= 0 && !strcmp(path, spare[i].name)) return &spare[i].place;
    for (int i = 0; is_made && i < SPARE; i++)
        if (spare[i].place < 0) {
            strcpy(spare[i].name, path);
            return &spare[i].place;
        }
    return NULL;
}

static int is_free(int64_t slot) {
    for (int file = 0; file < FILES; file++)
        if (head->place[file] == slot) return 0;
    for (int i = 0; i < SPARE; i++)
        if (spare[i].place == slot) return 0;
    for (int fd = 0; fd < MANY; fd++)
        if (opened[fd].is_open && opened[fd].slot == slot) return 0;
    return 1;
}

static void resize(int64_t file, int64_t size) {
    if (size > head->size[file]) memset(slot(file) + head->size[file], 0, size - head->size[file]);
    head->size[file] = size;
    is_written[file] = 1;
}

static int open_file(int64_t *place, int flags) {
    int is_there = *place >= 0, fd = 0;
    if (!is_there && !(flags & O_CREAT)) return refused(ENOENT);
    if (is_there && (flags & O_CREAT) && (flags & O_EXCL)) return refused(EEXIST);
    while (fd < MANY && opened[fd].is_open) fd++;
    if (fd == MANY) return refused(EMFILE);
    if (!is_there) {
        int64_t slot = 0;
        while (slot < PRINTED && !is_free(slot)) slot++;
        if (slot == PRINTED) return refused(ENOSPC);
        *place = slot;
        head->size[slot] = 0;
        is_written[slot] = 1;
    } else if (flags & O_TRUNC)
        resize(*place, 0);
    opened[fd].is_open = 1;
    opened[fd].slot = *place;
    opened[fd].flags = flags;
    opened[fd].at = 0;
    return FIRST + fd;
}

static int open_at(int folder, const char *path, int flags, mode_t mode) {
    int64_t *place = place_of(path, flags & O_CREAT);
    if (place) return open_file(place, flags);
    if (is_running && flags & (O_WRONLY | O_RDWR | O_CREAT | O_TRUNC)) head->changed |= 1 << FILES;
    return syscall(SYS_openat, folder, path, flags, mode);
}

#define MODE(flags) \
    va_list rest; \
    va_start(rest, flags); \
    mode_t mode = va_arg(rest, mode_t); \
    va_end(rest)

int open(const char *path, int flags, ...) {
    MODE(flags);
    return open_at(AT_FDCWD, path, flags, mode);
}

/* The slot of which something is asked, by a descriptor where the path is empty; -1 where it is none of ours. */
static int64_t asked(int folder, const char *path) {
    if (!*path) return is_ours(folder) ? opened[folder - FIRST].slot : -1;
    int64_t *place = place_of(path, 0);
    return place ? *place : -1;
}

/* Whether a path is a name of the folder that leads to no file. */
static int is_absent(const char *path) {
    int64_t *place = place_of(path, 0);
    return place && *place < 0;
}

static int tell(int64_t file, struct stat *into) {
    memset(into, 0, sizeof *into);
    into->st_dev = makedev(4000, 1);
    into->st_ino = file + 1;
    into->st_mode = S_IFREG | 0644;
    into->st_nlink = 1;
    into->st_size = head->size[file];
    return 0;
}

int statx(int folder, const char *path, int flags, unsigned mask, struct statx *into) {
    int64_t file = asked(folder, path);
    if (file < 0) return is_absent(path) ? refused(ENOENT) : syscall(SYS_statx, folder, path, flags, mask, into);
    struct stat found;
    tell(file, &found);
    memset(into, 0, sizeof *into);
    into->stx_mask = STATX_BASIC_STATS;
    into->stx_dev_major = major(found.st_dev);
    into->stx_dev_minor = minor(found.st_dev);
    into->stx_ino = found.st_ino;
    into->stx_mode = found.st_mode;
    into->stx_nlink = found.st_nlink;
    into->stx_size = found.st_size;
    return 0;
}

/* A call moves no more than a piece. */
static size_t within(size_t n) { return piece && n > piece ? piece : n; }

ssize_t read(int fd, void *into, size_t n) {
    if (!is_ours(fd)) return syscall(SYS_read, fd, into, n);
    int64_t file = opened[fd - FIRST].slot, *at = &opened[fd - FIRST].at, left = head->size[file] - *at;
    if ((opened[fd - FIRST].flags & O_ACCMODE) == O_WRONLY) return refused(EBADF);
    if (left <= 0) return 0;
    n = within(n);
    if (n > (size_t)left) n = left;
    memcpy(into, slot(file) + *at, n);
    *at += n;
    return n;
}

static ssize_t put(int64_t file, int64_t *at, const void *bytes, size_t n) {
    n = within(n);
    if (n > (size_t)(SLOT - *at)) return refused(ENOSPC);
    if (*at > head->size[file]) resize(file, *at);
    memcpy(slot(file) + *at, bytes, n);
    *at += n;
    if (*at > head->size[file]) head->size[file] = *at;
    is_written[file] = 1;
    return n;
}

ssize_t write(int fd, const void *bytes, size_t n) {
    if (fd == 1 && is_running) return put(PRINTED, &(int64_t){head->size[PRINTED]}, bytes, n);
    if (!is_ours(fd)) return syscall(SYS_write, fd, bytes, n);
    if ((opened[fd - FIRST].flags & O_ACCMODE) == O_RDONLY) return refused(EBADF);
    return put(opened[fd - FIRST].slot, &opened[fd - FIRST].at, bytes, n);
}

int ftruncate(int fd, off_t n) {
    if (!is_ours(fd)) return syscall(SYS_ftruncate, fd, n);
    if ((opened[fd - FIRST].flags & O_ACCMODE) == O_RDONLY || n < 0 || n > SLOT) return refused(EINVAL);
    resize(opened[fd - FIRST].slot, n);
    return 0;
}

int fsync(int fd) { return is_ours(fd) ? 0 : syscall(SYS_fsync, fd); }

int fdatasync(int fd) { return is_ours(fd) ? 0 : syscall(SYS_fdatasync, fd); }

int fchmod(int fd, mode_t mode) { return is_ours(fd) ? 0 : syscall(SYS_fchmod, fd, mode); }

int close(int fd) {
    if (!is_ours(fd)) return syscall(SYS_close, fd);
    opened[fd - FIRST].is_open = 0;
    return 0;
}

int rename(const char *from, const char *to) {
    int64_t *old = place_of(from, 0);
    if (!old) {
        if (is_running) head->changed |= 1 << FILES;
        return syscall(SYS_rename, from, to);
    }
    if (*old < 0) return refused(ENOENT);
    int64_t file = *old, *new = place_of(to, 1);
    if (!new) return refused(ENOSPC);
    *old = -1;
    *new = file;
    is_written[file] = 1;
    return 0;
}

int unlink(const char *path) {
    int64_t *place = place_of(path, 0);
    if (!place) {
        if (is_running) head->changed |= 1 << FILES;
        return syscall(SYS_unlink, path);
    }
    if (*place < 0) return refused(ENOENT);
    *place = -1;
    return 0;
}

/* Which files a run changed, that found those of `before`. */
static int64_t changed_since(const int64_t *before) {
    int64_t changed = 0;
    for (int file = 0; file < FILES; file++) {
        int64_t now = head->place[file];
        if (now != before[file] || (now >= 0 && is_written[now])) changed |= 1 << file;
    }
    for (int i = 0; i < SPARE; i++)
        if (spare[i].place >= 0) changed |= 1 << FILES;
    return changed;
}

static void run(int words, char **word, char **env) {
    int64_t before[FILES];
    memcpy(before, head->place, sizeof before);
    memset(opened, 0, sizeof opened);
    memset(is_written, 0, sizeof is_written);
    for (int i = 0; i < SPARE; i++) spare[i].place = -1;
    head->size[PRINTED] = head->changed = 0;
    alarm(SECONDS);
    if (setjmp(ended) == 0) {
        is_running = 1;
        head->status = program(words, word, env) & 255;
    }
    is_running = 0;
    alarm(0);
    head->changed |= changed_since(before);
}

/* What is compared: the outputs, and what is printed. */
static int64_t kept[3];

static int64_t compared(int number) { return number < 2 ? head->place[NEWCL + number] : PRINTED; }

static void keep(void) {
    for (int i = 0; i < 3; i++) {
        int64_t file = compared(i);
        kept[i] = file < 0 ? -1 : head->size[file];
        if (kept[i] > 0) memcpy(slot(KEPT + i), slot(file), kept[i]);
    }
}

static int is_kept(void) {
    for (int i = 0; i < 3; i++) {
        int64_t file = compared(i);
        if (kept[i] != (file < 0 ? -1 : head->size[file]) || (kept[i] > 0 && memcmp(slot(KEPT + i), slot(file), kept[i]))) return 0;
    }
    return 1;
}

static void run_times(int times, int words, char **word, char **env) {
    piece = 0;
    run(words, word, env);
    head->is_same = 1;
    if (times > 1) keep();
    int64_t status = head->status, changed = head->changed;
    piece = head->piece;
    while (--times > 0) {
        run(words, word, env);
        head->is_same &= head->status == status && head->changed == changed && is_kept();
    }
}

/* No thread is given: starting one takes longer than what a short part has to do. */
int pthread_create(pthread_t *thread, const pthread_attr_t *how, void *(*work)(void *), void *what) {
    (void)thread, (void)how, (void)work, (void)what;
    return EAGAIN;
}

/* The program's initializers, in which it may take its words before main begins. */
typedef void first(int, char **, char **);

static first **firsts;
static size_t count;

static int find(struct dl_phdr_info *it, size_t size, void *none) {
    (void)size, (void)none;
    for (int i = 0; i < it->dlpi_phnum; i++) {
        if (it->dlpi_phdr[i].p_type != PT_DYNAMIC) continue;
        for (ElfW(Dyn) *at = (void *)(it->dlpi_addr + it->dlpi_phdr[i].p_vaddr); at->d_tag != DT_NULL; at++) {
            if (at->d_tag == DT_INIT_ARRAY) firsts = (void *)(it->dlpi_addr + at->d_un.d_ptr);
            if (at->d_tag == DT_INIT_ARRAYSZ) count = at->d_un.d_val / sizeof *firsts;
        }
    }
    /* the first object is the program itself */
    return 1;
}

static int serve(int words, char **word, char **env) {
    unsigned char times;
    char *given[WORDS + 2] = {word[0]};
    (void)words;
    dl_iterate_phdr(find, NULL);
    head = mmap(NULL, (SLOTS + 1) * (size_t)SLOT, PROT_READ | PROT_WRITE, MAP_SHARED, MEMORY, 0);
    if (head == MAP_FAILED) abort();
    while (read(ASKED, &times, 1) == 1) {
        for (int i = 0; i < head->words; i++) given[i + 1] = head->word[i];
        given[head->words + 1] = NULL;
        for (size_t i = 0; i < count; i++) firsts[i](head->words + 1, given, env);
        run_times(times, head->words + 1, given, env);
        if (write(ANSWERED, &times, 1) != 1) break;
    }
    syscall(SYS_exit_group, 0);
    return 0;
}

int __libc_start_main(begun *main, int words, char **word, void (*first)(void), void (*last)(void), void (*loader)(void), void *stack) {
    int (*real)(begun *, int, char **, void (*)(void), void (*)(void), void (*)(void), void *) = dlsym(RTLD_NEXT, "__libc_start_main");
    program = main;
    return real(serve, words, word, first, last, loader, stack);
}
