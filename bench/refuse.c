// Refuses memory once to a program that takes it by malloc, calloc and realloc of the C library: the call with the
// number `at`, counted from 1. It is loaded in front of the library, as refuse.py does:
//
//     cc -O2 -shared -fPIC -o refuse.so refuse.c
//     REFUSE=FILE LD_PRELOAD=./refuse.so PROGRAM ..
//
// FILE has the four numbers of `struct page`, which the program's calls change. Without REFUSE nothing is refused.
#include <errno.h>
#include <fcntl.h>
#include <stddef.h>
#include <stdint.h>
#include <stdlib.h>
#include <sys/mman.h>
#include <unistd.h>

struct page {
    uint64_t at;      // which call is refused; 0 is none
    uint64_t calls;   // how many came
    uint64_t refused; // how many of them were refused
    uint64_t bytes;   // what that one asked for
};

static struct page nobody;
static struct page *page = &nobody;

// GNU's own names of what is replaced here; `free` stays the library's.
void *__libc_malloc(size_t bytes);
void *__libc_calloc(size_t count, size_t bytes);
void *__libc_realloc(void *at, size_t bytes);

__attribute__((constructor)) static void open_page(void) {
    const char *name = getenv("REFUSE");
    if (name == NULL) return;
    int file = open(name, O_RDWR | O_CLOEXEC);
    void *at = mmap(NULL, sizeof *page, PROT_READ | PROT_WRITE, MAP_SHARED, file, 0);
    if (at == MAP_FAILED) _exit(125);
    close(file);
    page = at;
}

static int refuses(size_t bytes) {
    uint64_t n = __atomic_add_fetch(&page->calls, 1, __ATOMIC_RELAXED);
    if (n != page->at) return 0;
    page->bytes = bytes;
    page->refused = 1;
    errno = ENOMEM;
    return 1;
}

void *malloc(size_t bytes) {
    return refuses(bytes) ? NULL : __libc_malloc(bytes);
}

void *calloc(size_t count, size_t bytes) {
    return refuses(count * bytes) ? NULL : __libc_calloc(count, bytes);
}

void *realloc(void *at, size_t bytes) {
    return refuses(bytes) ? NULL : __libc_realloc(at, bytes);
}
