// Refuses the program that loads it one allocation, number REFUSED (from 1), or all threads after the first THREADS.
// It creates the file TOLD when it has refused something. refusals.py builds it with the toolchain's compiler, which has no headers.
typedef unsigned long size;

extern void *__libc_malloc(size), *__libc_calloc(size, size), *__libc_realloc(void *, size), *__libc_memalign(size, size);
extern char *getenv(const char *);
extern size strtoul(const char *, char **, int);
extern int creat(const char *, unsigned), unlink(const char *);
extern int *__errno_location(void);
extern void *dlsym(void *, const char *);

enum { NO_THREAD = 11, NO_MEMORY = 12 };

static size refused, count, threads = -1, started;
static const char *told;

__attribute__((constructor)) static void begin(void) {
    const char *number = getenv("REFUSED"), *most = getenv("THREADS");
    told = getenv("TOLD");
    if (told) {
        unlink(told);
        refused = number ? strtoul(number, 0, 10) : refused;
        threads = most ? strtoul(most, 0, 10) : threads;
    }
}

static int refuses(void) {
    // the loader's own allocations, before the program begins, aren't counted
    if (refused == 0 || __atomic_add_fetch(&count, 1, __ATOMIC_SEQ_CST) != refused) {
        return 0;
    }
    creat(told, 0600);
    *__errno_location() = NO_MEMORY;
    return 1;
}

void *malloc(size bytes) { return refuses() ? 0 : __libc_malloc(bytes); }

void *calloc(size items, size bytes) { return refuses() ? 0 : __libc_calloc(items, bytes); }

void *realloc(void *old, size bytes) { return refuses() ? 0 : __libc_realloc(old, bytes); }

void *aligned_alloc(size align, size bytes) { return refuses() ? 0 : __libc_memalign(align, bytes); }

int posix_memalign(void **to, size align, size bytes) {
    void *room = refuses() ? 0 : __libc_memalign(align, bytes);
    if (room) {
        *to = room;
    }
    return room ? 0 : NO_MEMORY;
}

typedef int starts(size *, const void *, void *(*)(void *), void *);

int pthread_create(size *thread, const void *how, void *(*run)(void *), void *with) {
    if (__atomic_add_fetch(&started, 1, __ATOMIC_SEQ_CST) > threads) {
        creat(told, 0600);
        return NO_THREAD;
    }
    // the function of this name in the next library, which is the C library
    return ((starts *)dlsym((void *)-1, "pthread_create"))(thread, how, run, with);
}
