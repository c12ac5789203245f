// For LD_PRELOAD: reads and writes of a program that fail, or move fewer bytes than they were asked for. FAIL_READ and FAIL_WRITE give the number of
// the read of standard input, and of the write to standard output, that fails, with errno FAIL_WITH (EIO), and FAIL_TIMES - 1 after it do too;
// FAIL_ERROR=N fails the writes to standard error from the Nth on; INTERRUPTED=1 interrupts each of these once before it is made; SHORT gives the
// bytes that a read or write moves at most, and SHORT_ERROR those of a write to standard error; TAKES_NONE=1 has standard output take no byte.
// With TERMINAL=2 standard error is a terminal. It needs no header and is linked with nothing, so that the kit's own clang builds it.
typedef unsigned long size;

enum { READ = 0, WRITE = 1, EINTR = 4, EIO = 5 };

extern char *getenv(const char *);
extern long atol(const char *);
extern long syscall(long, ...);
extern int *__errno_location(void);

static long number(const char *name, long without) {
    const char *text = getenv(name);
    return text ? atol(text) : without;
}

static long calls[3];
static int was_interrupted[3];

static long fails(int error) {
    *__errno_location() = error;
    return -1;
}

// One call at a standard file. The numbered ones fail.
static long moved(long call, int file, const void *bytes, size count, const char *failing) {
    const long first = number(failing, 0);
    if (number("INTERRUPTED", 0) && (was_interrupted[file] = !was_interrupted[file])) return fails(EINTR);
    const long at = ++calls[file];
    if (first && at >= first && (file == 2 || at - first < number("FAIL_TIMES", 1))) return fails((int)number("FAIL_WITH", EIO));
    if (file == 1 && number("TAKES_NONE", 0)) return 0;
    const size most = (size)number(file == 2 ? "SHORT_ERROR" : "SHORT", 0);
    return syscall(call, file, bytes, most && most < count ? most : count);
}

long read(int file, void *bytes, size count) {
    return file == 0 ? moved(READ, file, bytes, count, "FAIL_READ") : syscall(READ, file, bytes, count);
}

long write(int file, const void *bytes, size count) {
    if (file != 1 && file != 2) return syscall(WRITE, file, bytes, count);
    return moved(WRITE, file, bytes, count, file == 1 ? "FAIL_WRITE" : "FAIL_ERROR");
}

int isatty(int file) { return number("TERMINAL", -1) == file; }
