/* Interposed between a program and the C library, so that calls of a built program can be made to fail, noted or held
 * back: cc -shared -fPIC -o shim.so shim.c -ldl -lpthread, and LD_PRELOAD=shim.so with any of these in the environment.
 *
 *   FAIL_FROM=N    each call on the files of `ledger-store` fails from the N-th on
 *   FAIL_AT=N      the N-th call on them fails, and no other
 *   CHANGES_ALONE=1  of these calls only writes, cuts and syncs count and fail
 *   NOTES=PATH     writes, cuts and syncs of these files, and threads that are started, are appended to this file, as
 *                  a letter (w, t, s, p or m), the number of the file (1 to 4), and offset and count in the machine's
 *                  order of bytes, before the bytes that were written. A write that fails is noted too, since it may
 *                  have written all the same, and a cut that fails by the letter u
 *   IN_FAIL=N      the N-th read of standard input fails
 *   OUT_FAIL=N     the N-th write to standard output fails
 *   OUT_ROOM=N     standard output takes N bytes, and then none
 *   ERR_ROOM=N     standard error likewise
 *   ONE_BYTE=1     a read of standard input and a write to standard output or standard error moves one byte
 *   HOLD=N         a thread that is started waits until N bytes were written to standard output
 *   AWAIT=1        a read of standard input waits until each thread that was started has found nothing to do
 *   TAKEN=1        each write to standard output is noted, as a letter m, with the bytes of memory that the first thread took so far as
 *                  its offset
 *   OTHER_MAKER=1  another process makes the directory `ledger-store`, and a file in it, just before the program would
 *                  make it
 *   OTHER_LOOK=N   another process makes them just before the program's N-th look at a path of the store
 *   REFUSED=N      the N-th call for memory is refused; with WORKERS_ALONE=1 calls of the first thread don't count
 *   COUNTED=PATH   the number of calls for memory is written to this file as the program ends
 */
#define _GNU_SOURCE
#include <dlfcn.h>
#include <errno.h>
#include <fcntl.h>
#include <pthread.h>
#include <stdarg.h>
#include <stdint.h>
#include <stdio.h>
#include <stdlib.h>
#include <string.h>
#include <sys/file.h>
#include <sys/stat.h>
#include <sys/syscall.h>
#include <time.h>
#include <sys/uio.h>
#include <unistd.h>

enum { DESCRIPTORS = 1024, FILES = 4, OTHER = FILES + 1 };

/* The number of the store's file of each descriptor, or 0. */
static int file_of_descriptor[DESCRIPTORS];
static long calls, reads, writes_out, bytes_err;
static volatile long bytes_out;
static unsigned long bytes_taken;
/* How often the first thread has begun to wait for input, and of each started thread the last such time at which it yielded, and how
 * often it did so since. */
static volatile long waits, threads;
enum { THREADS = 64 };
static struct yields {
    volatile long at, count;
} yields[THREADS];
/* The number of a started thread, from 1 on. */
static __thread long thread_number;

static long setting(const char *name) {
    const char *text = getenv(name);
    return text ? atol(text) : -1;
}

/* The number of the store's file under a path: 0 of none, and OTHER of the directory. */
static int file_of(const char *path) {
    static const char *names[FILES] = {"image0", "image1", "journal0", "journal1"};
    if (strncmp(path, "ledger-store", 12)) return 0;
    for (int i = 0; i < FILES; i++) {
        const char *at = strstr(path, names[i]);
        if (at && strlen(at) == strlen(names[i])) return i + 1;
    }
    return OTHER;
}

static int store_file(int descriptor) {
    return descriptor >= 0 && descriptor < DESCRIPTORS ? file_of_descriptor[descriptor] : 0;
}

/* Counts a call on the store, and answers whether it is to fail. */
static int fails_as(int is_change) {
    if (!is_change && setting("CHANGES_ALONE") > 0) return 0;
    long number = __sync_add_and_fetch(&calls, 1), from = setting("FAIL_FROM");
    if ((from > 0 && number >= from) || number == setting("FAIL_AT")) {
        errno = EIO;
        return 1;
    }
    return 0;
}

static int fails(void) {
    return fails_as(0);
}

static void note(char kind, int file, uint64_t offset, const void *bytes, uint64_t count) {
    static int notes = -1;
    if (notes == -1) {
        const char *path = getenv("NOTES");
        int (*real_open)(const char *, int, ...) = dlsym(RTLD_NEXT, "open");
        notes = path ? real_open(path, O_WRONLY | O_CREAT | O_APPEND, 0600) : -2;
    }
    if (notes < 0) return;
    char head[18] = {kind, (char)file};
    memcpy(head + 2, &offset, 8);
    memcpy(head + 10, &count, 8);
    /* in one call, since several threads write notes */
    struct iovec parts[2] = {{head, 18}, {(void *)bytes, bytes ? count : 0}};
    if (writev(notes, parts, 2) != (ssize_t)(18 + parts[1].iov_len)) abort();
}

int open(const char *path, int flags, ...) {
    static int (*real)(const char *, int, ...);
    if (!real) real = dlsym(RTLD_NEXT, "open");
    va_list rest;
    va_start(rest, flags);
    int mode = va_arg(rest, int), file = file_of(path);
    va_end(rest);
    if (file && fails()) return -1;
    int descriptor = real(path, flags, mode);
    if (descriptor >= 0 && descriptor < DESCRIPTORS) file_of_descriptor[descriptor] = file;
    return descriptor;
}

/* What another process does that makes a store: the directory, and a file with one byte. */
static void make_another(void) {
    int (*real_mkdir)(const char *, mode_t) = dlsym(RTLD_NEXT, "mkdir");
    int (*real_open)(const char *, int, ...) = dlsym(RTLD_NEXT, "open");
    real_mkdir("ledger-store", 0700);
    int descriptor = real_open("ledger-store/image0", O_WRONLY | O_CREAT, 0600);
    if (descriptor < 0 || ftruncate(descriptor, 1)) abort();
}

int statx(int at, const char *restrict path, int flags, unsigned mask, struct statx *restrict found) {
    static int (*real)(int, const char *, int, unsigned, struct statx *);
    static long looks;
    if (!real) real = dlsym(RTLD_NEXT, "statx");
    if (file_of(path) && fails()) return -1;
    if (file_of(path) && ++looks == setting("OTHER_LOOK")) make_another();
    return real(at, path, flags, mask, found);
}

off_t lseek(int descriptor, off_t offset, int whence) {
    static off_t (*real)(int, off_t, int);
    if (!real) real = dlsym(RTLD_NEXT, "lseek");
    if (store_file(descriptor) && fails()) return -1;
    return real(descriptor, offset, whence);
}

static void pause_shortly(void) {
    struct timespec pause = {0, 1000000};
    nanosleep(&pause, 0);
}

/* Waits until each started thread has looked for something to do and found nothing: a thread yields after each such look, so the look
 * before its second yield was begun after this. */
static void await_idle(void) {
    __sync_add_and_fetch(&waits, 1);
    for (long number = 0; number < threads; number++)
        for (int turns = 0; yields[number].at != waits || yields[number].count < 2; turns++) {
            if (turns == 60000) abort();
            pause_shortly();
        }
}

int sched_yield(void) {
    static int (*real)(void);
    if (!real) real = dlsym(RTLD_NEXT, "sched_yield");
    if (thread_number) {
        struct yields *mine = &yields[thread_number - 1];
        long now = waits;
        if (mine->at != now) {
            mine->count = 0;
            mine->at = now;
        }
        mine->count++;
    }
    return real();
}

ssize_t read(int descriptor, void *bytes, size_t count) {
    static ssize_t (*real)(int, void *, size_t);
    if (!real) real = dlsym(RTLD_NEXT, "read");
    if (store_file(descriptor) && fails()) return -1;
    if (descriptor == 0) {
        if (++reads == setting("IN_FAIL")) {
            errno = EIO;
            return -1;
        }
        if (setting("ONE_BYTE") > 0 && count > 1) count = 1;
        if (setting("AWAIT") > 0) await_idle();
    }
    return real(descriptor, bytes, count);
}

/* How many of so many bytes a stream takes that takes `room` in all and took some. */
static size_t taken(long room, long before, size_t count) {
    if (setting("ONE_BYTE") > 0 && count > 1) count = 1;
    if (room >= 0 && (long)count > room - before) count = room > before ? room - before : 0;
    return count;
}

ssize_t write(int descriptor, const void *bytes, size_t count) {
    static ssize_t (*real)(int, const void *, size_t);
    static off_t (*seek)(int, off_t, int);
    if (!real) {
        seek = dlsym(RTLD_NEXT, "lseek");
        real = dlsym(RTLD_NEXT, "write");
    }
    int file = store_file(descriptor);
    if (file) {
        uint64_t offset = seek(descriptor, 0, SEEK_CUR);
        if (fails_as(1)) {
            note('w', file, offset, bytes, count);
            errno = EIO;
            return -1;
        }
        ssize_t done = real(descriptor, bytes, count);
        if (done > 0) note('w', file, offset, bytes, done);
        return done;
    }
    if (descriptor == 1) {
        if (++writes_out == setting("OUT_FAIL")) {
            errno = EIO;
            return -1;
        }
        count = taken(setting("OUT_ROOM"), bytes_out, count);
        if (count == 0) return 0;
        bytes_out += count;
        if (setting("TAKEN") > 0) note('m', 0, bytes_taken, bytes, count);
    }
    if (descriptor == 2) {
        count = taken(setting("ERR_ROOM"), bytes_err, count);
        if (count == 0) return 0;
        bytes_err += count;
    }
    return real(descriptor, bytes, count);
}

int ftruncate(int descriptor, off_t size) {
    static int (*real)(int, off_t);
    if (!real) real = dlsym(RTLD_NEXT, "ftruncate");
    if (store_file(descriptor) && fails_as(1)) {
        note('u', store_file(descriptor), size, 0, 0);
        errno = EIO;
        return -1;
    }
    int done = real(descriptor, size);
    if (!done && store_file(descriptor)) note('t', store_file(descriptor), size, 0, 0);
    return done;
}

int fsync(int descriptor) {
    static int (*real)(int);
    if (!real) real = dlsym(RTLD_NEXT, "fsync");
    if (store_file(descriptor) && fails_as(1)) return -1;
    int done = real(descriptor);
    if (!done && store_file(descriptor)) note('s', store_file(descriptor), 0, 0, 0);
    return done;
}

int flock(int descriptor, int how) {
    static int (*real)(int, int);
    if (!real) real = dlsym(RTLD_NEXT, "flock");
    if (store_file(descriptor) && fails()) return -1;
    return real(descriptor, how);
}

int mkdir(const char *path, mode_t mode) {
    static int (*real)(const char *, mode_t);
    if (!real) real = dlsym(RTLD_NEXT, "mkdir");
    if (file_of(path) && fails()) return -1;
    if (file_of(path) && setting("OTHER_MAKER") > 0) make_another();
    return real(path, mode);
}

int close(int descriptor) {
    static int (*real)(int);
    if (!real) real = dlsym(RTLD_NEXT, "close");
    if (descriptor >= 0 && descriptor < DESCRIPTORS) file_of_descriptor[descriptor] = 0;
    return real(descriptor);
}

/* What a started thread runs. */
struct start {
    void *(*run)(void *);
    void *argument;
    long number;
};

static void *run_held(void *given) {
    struct start start = *(struct start *)given;
    free(given);
    thread_number = start.number;
    for (int turns = 0; bytes_out < setting("HOLD") && turns < 60000; turns++) pause_shortly();
    if (bytes_out < setting("HOLD")) abort();
    return start.run(start.argument);
}

int pthread_create(pthread_t *thread, const pthread_attr_t *attributes, void *(*run)(void *), void *argument) {
    static int (*real)(pthread_t *, const pthread_attr_t *, void *(*)(void *), void *);
    if (!real) real = dlsym(RTLD_NEXT, "pthread_create");
    static void *(*get)(size_t);
    if (!get) get = dlsym(RTLD_NEXT, "malloc");
    struct start *start = get(sizeof *start);
    if (!start) return EAGAIN;
    start->run = run;
    start->argument = argument;
    start->number = __sync_add_and_fetch(&threads, 1);
    if (start->number > THREADS) abort();
    note('p', 0, 0, 0, 0);
    return real(thread, attributes, run_held, start);
}

static unsigned long memory_calls;

/* Counts a call for memory, and answers whether it is to be refused. */
static int is_refused(size_t size) {
    if (!thread_number) bytes_taken += size;
    if (setting("WORKERS_ALONE") > 0 && syscall(SYS_gettid) == getpid()) return 0;
    return __sync_add_and_fetch(&memory_calls, 1) == (unsigned long)setting("REFUSED");
}

void *malloc(size_t size) {
    static void *(*real)(size_t);
    if (!real) real = dlsym(RTLD_NEXT, "malloc");
    return is_refused(size) ? NULL : real(size);
}

void *realloc(void *old, size_t size) {
    static void *(*real)(void *, size_t);
    if (!real) real = dlsym(RTLD_NEXT, "realloc");
    return is_refused(size) ? NULL : real(old, size);
}

void *aligned_alloc(size_t to, size_t size) {
    static void *(*real)(size_t, size_t);
    if (!real) real = dlsym(RTLD_NEXT, "aligned_alloc");
    return is_refused(size) ? NULL : real(to, size);
}

int posix_memalign(void **at, size_t to, size_t size) {
    static int (*real)(void **, size_t, size_t);
    if (!real) real = dlsym(RTLD_NEXT, "posix_memalign");
    return is_refused(size) ? ENOMEM : real(at, to, size);
}

/* The program ends by this call. */
void _exit(int status) {
    void (*real)(int) = (void (*)(int))dlsym(RTLD_NEXT, "_exit");
    const char *path = getenv("COUNTED");
    unsigned long count = memory_calls;
    FILE *file = path ? fopen(path, "w") : NULL;
    if (file) {
        fprintf(file, "%lu", count);
        fclose(file);
    }
    real(status);
    __builtin_unreachable();
}
