/* Loaded before the C library: refuses the allocation whose number, from 1, the variable REFUSED has, whichever thread asks for it, and
 * writes how many were asked for into the file that REFUSED_MET names. Those that the C library makes for a new thread are counted as
 * well: where one of them is refused, `pthread_create` makes no thread. */
#include <errno.h>
#include <fcntl.h>
#include <stdatomic.h>
#include <stddef.h>
#include <stdio.h>
#include <stdlib.h>
#include <sys/syscall.h>
#include <unistd.h>

void *__libc_malloc(size_t size);
void *__libc_calloc(size_t count, size_t size);
void *__libc_realloc(void *block, size_t size);
void *__libc_memalign(size_t alignment, size_t size);

static atomic_long met;
static long refused;

__attribute__((constructor)) static void begin(void) {
    const char *number = getenv("REFUSED");
    refused = number ? atol(number) : 0;
    atomic_store(&met, 0);
}

static int is_refused(void) {
    if (atomic_fetch_add(&met, 1) + 1 != refused) {
        return 0;
    }
    errno = ENOMEM;
    return 1;
}

void *malloc(size_t size) { return is_refused() ? NULL : __libc_malloc(size); }

void *calloc(size_t count, size_t size) { return is_refused() ? NULL : __libc_calloc(count, size); }

void *realloc(void *block, size_t size) { return is_refused() ? NULL : __libc_realloc(block, size); }

void *aligned_alloc(size_t alignment, size_t size) { return is_refused() ? NULL : __libc_memalign(alignment, size); }

int posix_memalign(void **block, size_t alignment, size_t size) {
    void *found = is_refused() ? NULL : __libc_memalign(alignment, size);
    if (found) {
        *block = found;
    }
    return found ? 0 : ENOMEM;
}

__attribute__((destructor)) static void end(void) {
    const char *name = getenv("REFUSED_MET");
    int file = name ? open(name, O_WRONLY | O_CREAT | O_TRUNC, 0600) : -1;
    if (file >= 0) {
        dprintf(file, "%ld\n", atomic_load(&met));
        close(file);
    }
}

/* A program with threads ends so, without its destructors. */
void _exit(int status) {
    end();
    for (;;) {
        syscall(SYS_exit_group, status);
    }
}
