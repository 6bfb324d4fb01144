/* Interposed between a program and the C library: cc -shared -fPIC -O1 -o heap.so heap.c -ldl, and LD_PRELOAD=heap.so.
 * As the program ends, the greatest number of bytes of the heap that it had at once is written to the file PEAK=PATH. */
#define _GNU_SOURCE
#include <dlfcn.h>
#include <errno.h>
#include <malloc.h>
#include <stdio.h>
#include <stdlib.h>

void *__libc_malloc(size_t size);
void *__libc_calloc(size_t count, size_t size);
void *__libc_realloc(void *old, size_t size);
void *__libc_memalign(size_t to, size_t size);
void __libc_free(void *block);

static long held, peak;

/* Counts bytes that a block has more, or less. */
static void count(long bytes) {
    long now = __sync_add_and_fetch(&held, bytes), most = peak;
    while (now > most && !__sync_bool_compare_and_swap(&peak, most, now)) most = peak;
}

static void *counted(void *block) {
    if (block) count((long)malloc_usable_size(block));
    return block;
}

void *malloc(size_t size) {
    return counted(__libc_malloc(size));
}

void *calloc(size_t number, size_t size) {
    return counted(__libc_calloc(number, size));
}

void *realloc(void *old, size_t size) {
    long before = old ? (long)malloc_usable_size(old) : 0;
    void *block = __libc_realloc(old, size);
    if (block) count((long)malloc_usable_size(block) - before);
    return block;
}

void *aligned_alloc(size_t to, size_t size) {
    return counted(__libc_memalign(to, size));
}

int posix_memalign(void **at, size_t to, size_t size) {
    *at = counted(__libc_memalign(to, size));
    return *at ? 0 : ENOMEM;
}

void free(void *block) {
    if (block) count(-(long)malloc_usable_size(block));
    __libc_free(block);
}

/* The program ends by this call. */
void _exit(int status) {
    void (*real)(int) = (void (*)(int))dlsym(RTLD_NEXT, "_exit");
    const char *path = getenv("PEAK");
    long most = peak;
    FILE *file = path ? fopen(path, "w") : NULL;
    if (file) {
        fprintf(file, "%ld", most);
        fclose(file);
    }
    real(status);
    __builtin_unreachable();
}
