// Loaded before the C library (LD_PRELOAD), it refuses one allocation of a program. REFUSE is that allocation's number, counted
// from 1; with 0 none is refused. REFUSE_TOLD names a file of two words of 8 bytes, which are kept up to date while the program
// runs, however it ends: how many allocations were counted, and how many were refused. With REFUSE_CALL only those of a call are
// counted: it begins and ends where the program asks for BEGIN and END bytes (crates/memory_tests/src/counted.rt).
#include <errno.h>
#include <fcntl.h>
#include <stdatomic.h>
#include <stdlib.h>
#include <sys/mman.h>
#include <unistd.h>

extern void *__libc_malloc(size_t);
extern void *__libc_calloc(size_t, size_t);
extern void *__libc_realloc(void *, size_t);
extern void *__libc_memalign(size_t, size_t);

#define BEGIN ((size_t)1 << 62)
#define END (BEGIN + 1)

struct told {
    atomic_long counted, refused;
};

static struct told nobody, *told = &nobody;
static atomic_int counts = 1;
static long wanted;

// Whether this allocation is the one to be refused.
static int refuses(void) {
    if (!atomic_load(&counts) || atomic_fetch_add(&told->counted, 1) + 1 != wanted)
        return 0;
    atomic_fetch_add(&told->refused, 1);
    errno = ENOMEM;
    return 1;
}

// Whether it tells where a call begins or ends: such a block is had nowhere.
static int tells(size_t bytes) {
    if (bytes != BEGIN && bytes != END)
        return 0;
    atomic_store(&counts, bytes == BEGIN);
    errno = ENOMEM;
    return 1;
}

void *malloc(size_t bytes) { return tells(bytes) || refuses() ? NULL : __libc_malloc(bytes); }

void *calloc(size_t count, size_t size) { return refuses() ? NULL : __libc_calloc(count, size); }

void *realloc(void *old, size_t bytes) { return bytes != 0 && refuses() ? NULL : __libc_realloc(old, bytes); }

void *memalign(size_t align, size_t bytes) { return refuses() ? NULL : __libc_memalign(align, bytes); }

void *aligned_alloc(size_t align, size_t bytes) { return memalign(align, bytes); }

int posix_memalign(void **out, size_t align, size_t bytes) {
    void *its = memalign(align, bytes);
    if (its == NULL)
        return ENOMEM;
    *out = its;
    return 0;
}

__attribute__((constructor)) static void begin(void) {
    const char *number = getenv("REFUSE"), *name = getenv("REFUSE_TOLD");
    int file = name ? open(name, O_RDWR) : -1;
    if (file >= 0) {
        void *its = mmap(NULL, sizeof *told, PROT_READ | PROT_WRITE, MAP_SHARED, file, 0);
        if (its != MAP_FAILED)
            told = its;
        close(file);
    }
    wanted = number ? atol(number) : 0;
    atomic_store(&counts, getenv("REFUSE_CALL") == NULL);
}
