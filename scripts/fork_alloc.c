// For LD_PRELOAD: tries each allocation of a program refused, in one run. At each of them the program is forked. In the child the allocation is refused, and
// no other; the program itself waits for the child and goes on with the allocation. FORK_ALLOC names a folder. It gets, of the child of allocation K, the
// files K.out and K.err, with all that the program wrote up to there and the child after it, and in `statuses` a line `K STATUS` with what `wait` says.
// Standard output and error have to be files. It needs no header and is linked with nothing, so that the kit's own clang builds it.
typedef unsigned long size;

extern char *getenv(const char *);
extern void *__libc_malloc(size);
extern void *__libc_realloc(void *, size);
extern int fork(void), waitpid(int, int *, int), open(const char *, int, ...), close(int), dup2(int, int);
extern int snprintf(char *, size, const char *, ...);
extern unsigned alarm(unsigned);
extern long read(int, void *, size), write(int, const void *, size);
extern void _exit(int) __attribute__((noreturn));

enum { CREATED = 0102, APPENDED = 02101, SECONDS = 60 };

static const char *folder;
static long number;
static int is_child, statuses = -1;

// Has what is written to a stream go to a file of its own, after what stands there.
static void turned(int stream, const char *ending) {
    char path[4096], bytes[4096];
    long count;
    snprintf(path, sizeof path, "/proc/self/fd/%d", stream);
    int from = open(path, 0);
    snprintf(path, sizeof path, "%s/%ld.%s", folder, number, ending);
    int to = open(path, CREATED, 0600);
    while ((count = read(from, bytes, sizeof bytes)) > 0)
        if (write(to, bytes, count) != count) _exit(99);
    if (from < 0 || to < 0 || count < 0 || dup2(to, stream) < 0) _exit(99);
    close(from);
    close(to);
}

static int is_refused(void) {
    char line[64];
    int status = -1, child;
    if (!folder && !(folder = getenv("FORK_ALLOC"))) folder = "";
    if (!*folder || is_child) return 0;
    if (statuses < 0) {
        char path[4096];
        snprintf(path, sizeof path, "%s/statuses", folder);
        statuses = open(path, APPENDED, 0600);
    }
    ++number;
    if ((child = fork()) == 0) {
        is_child = 1;
        alarm(SECONDS);
        turned(1, "out");
        turned(2, "err");
        return 1;
    }
    if (child < 0 || waitpid(child, &status, 0) != child) status = -1;
    write(statuses, line, snprintf(line, sizeof line, "%ld %d\n", number, status));
    return 0;
}

void *malloc(size bytes) { return is_refused() ? 0 : __libc_malloc(bytes); }

void *realloc(void *old, size bytes) { return is_refused() ? 0 : __libc_realloc(old, bytes); }
