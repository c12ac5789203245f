// For LD_PRELOAD: refuses one allocation of a program, the one whose number FAIL_ALLOC gives, from the program's start.
// It needs no header and is linked with nothing, so that the kit's own clang builds it.
typedef unsigned long size;

extern char *getenv(const char *);
extern long atol(const char *);
extern void *__libc_malloc(size);
extern void *__libc_realloc(void *, size);

static long left = -1;

static int is_refused(void) {
    if (left < 0) {
        const char *number = getenv("FAIL_ALLOC");
        left = number ? atol(number) : 0;
    }
    return left > 0 && --left == 0;
}

void *malloc(size bytes) { return is_refused() ? 0 : __libc_malloc(bytes); }

void *realloc(void *old, size bytes) { return is_refused() ? 0 : __libc_realloc(old, bytes); }
