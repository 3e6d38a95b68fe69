/* A malloc that refuses one allocation: the FAIL_ALLOC-th after main begins, counted from 1. At the end it writes how many there
   were into the file COUNT_ALLOC. */
#include <errno.h>
#include <fcntl.h>
#include <stdio.h>
#include <stdlib.h>
#include <sys/syscall.h>
#include <unistd.h>

void *__libc_malloc(size_t size);
void *__libc_calloc(size_t count, size_t size);
void *__libc_realloc(void *old, size_t size);
void *__libc_memalign(size_t align, size_t size);

static unsigned long made, refused;
static int counts;

__attribute__((constructor)) static void begin(void) {
    const char *number = getenv("FAIL_ALLOC");
    refused = number ? strtoul(number, NULL, 10) : 0;
    counts = 1;
}

__attribute__((destructor)) static void end(void) {
    counts = 0;
    const char *name = getenv("COUNT_ALLOC");
    int file = name ? open(name, O_WRONLY | O_CREAT | O_TRUNC, 0600) : -1;
    if (file >= 0) dprintf(file, "%lu\n", made);
}

/* A program that ends by this calls no destructor. */
void _exit(int status) {
    end();
    syscall(SYS_exit_group, status);
    __builtin_unreachable();
}

static int is_refused(void) {
    if (!counts || __atomic_add_fetch(&made, 1, __ATOMIC_SEQ_CST) != refused) return 0;
    errno = ENOMEM;
    return 1;
}

void *malloc(size_t size) { return is_refused() ? NULL : __libc_malloc(size); }

void *calloc(size_t count, size_t size) { return is_refused() ? NULL : __libc_calloc(count, size); }

void *realloc(void *old, size_t size) { return is_refused() ? NULL : __libc_realloc(old, size); }

void *memalign(size_t align, size_t size) { return is_refused() ? NULL : __libc_memalign(align, size); }

void *aligned_alloc(size_t align, size_t size) { return memalign(align, size); }

int posix_memalign(void **place, size_t align, size_t size) {
    void *made_at = memalign(align, size);
    if (made_at == NULL) return ENOMEM;
    *place = made_at;
    return 0;
}
