// For LD_PRELOAD: refuses one thread of a program, the one whose number FAIL_THREAD gives, from the program's start.
// It needs no header. The next definition of the function is found by the dynamic linker.
extern char *getenv(const char *);
extern long atol(const char *);
extern void *dlsym(void *, const char *);

typedef int create(void *, const void *, void *(*)(void *), void *);

#define NEXT ((void *)-1)
#define NO_MORE_THREADS 11

static long started;

int pthread_create(void *thread, const void *attributes, void *(*start)(void *), void *argument) {
    const char *number = getenv("FAIL_THREAD");
    if (++started == (number ? atol(number) : 0))
        return NO_MORE_THREADS;
    create *next = (create *)dlsym(NEXT, "pthread_create");
    return next ? next(thread, attributes, start, argument) : NO_MORE_THREADS;
}
