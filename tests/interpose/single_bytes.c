// Stands in front of the C library's reads and writes, of which each then moves one byte at most, and reports each
// byte that was moved: REPORT in the environment is the open file for that.
typedef __SIZE_TYPE__ size_t;

extern long syscall(long number, ...);
extern char *getenv(const char *name);
extern unsigned long strtoul(const char *text, char **end, int base);

enum { READ = 0, WRITE = 1 };

static long move(long call, int file, const void *bytes, size_t count) {
    const char *report = getenv("REPORT");
    long moved = syscall(call, file, bytes, count ? 1L : 0L);
    if (moved == 1 && report)
        syscall(WRITE, strtoul(report, 0, 10), "1", 1L);
    return moved;
}

long read(int file, void *bytes, size_t count) { return move(READ, file, bytes, count); }

long write(int file, const void *bytes, size_t count) { return move(WRITE, file, bytes, count); }
