// Refuses the allocation of a program whose number REFUSED_ALLOCATION gives, from 1; 0 or nothing refuses none. Where it
// comes to that one, it makes the file that REFUSED names. For LD_PRELOAD.
#include <errno.h>
#include <fcntl.h>
#include <stdatomic.h>
#include <stddef.h>
#include <stdlib.h>
#include <unistd.h>

void *__libc_malloc(size_t size);
void *__libc_calloc(size_t count, size_t size);
void *__libc_realloc(void *old, size_t size);
void *__libc_memalign(size_t alignment, size_t size);

static atomic_ulong made;
static unsigned long refused;
static const char *name;

// The program's own allocations are counted, not those that come before it.
__attribute__((constructor)) static void begin(void) {
    const char *number = getenv("REFUSED_ALLOCATION");
    name = getenv("REFUSED");
    refused = number ? strtoul(number, NULL, 10) : 0;
    atomic_store(&made, 0);
}

static int is_refused(void) {
    if (atomic_fetch_add(&made, 1) + 1 != refused) {
        return 0;
    }
    int file = name ? open(name, O_CREAT | O_WRONLY, 0600) : -1;
    if (file >= 0) {
        close(file);
    }
    errno = ENOMEM;
    return 1;
}

void *malloc(size_t size) { return is_refused() ? NULL : __libc_malloc(size); }

void *calloc(size_t count, size_t size) { return is_refused() ? NULL : __libc_calloc(count, size); }

void *realloc(void *old, size_t size) { return is_refused() ? NULL : __libc_realloc(old, size); }

void *memalign(size_t alignment, size_t size) { return is_refused() ? NULL : __libc_memalign(alignment, size); }

void *aligned_alloc(size_t alignment, size_t size) { return memalign(alignment, size); }

int posix_memalign(void **at, size_t alignment, size_t size) {
    void *found = memalign(alignment, size);
    if (!found) {
        return ENOMEM;
    }
    *at = found;
    return 0;
}
