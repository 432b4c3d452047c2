// Stands in front of the C library's allocator and refuses one allocation or growth: REFUSED in the environment is its
// number, from 1, and REPORT is the open file to which the refusal is reported. With AND_ALL_AFTER in the environment
// all later ones are refused too, in every thread; the first is reported. With 0 in REFUSED each one is granted, and
// reported by a byte.
typedef __SIZE_TYPE__ size_t;

extern void *__libc_malloc(size_t size);
extern void *__libc_realloc(void *block, size_t size);
extern char *getenv(const char *name);
extern unsigned long strtoul(const char *text, char **end, int base);
extern long write(int file, const void *bytes, size_t count);

static unsigned long asked;

static unsigned long number_of(const char *name) {
    const char *text = getenv(name);
    return text ? strtoul(text, 0, 10) : 0;
}

static int refuses(void) {
    unsigned long number = __atomic_add_fetch(&asked, 1, __ATOMIC_RELAXED), first = number_of("REFUSED");
    if (number > first && first)
        return getenv("AND_ALL_AFTER") != 0;
    if (number >= first)
        write((int)number_of("REPORT"), "refused", first ? 7 : 1);
    return number == first;
}

void *malloc(size_t size) { return refuses() ? 0 : __libc_malloc(size); }

void *realloc(void *block, size_t size) { return refuses() ? 0 : __libc_realloc(block, size); }
