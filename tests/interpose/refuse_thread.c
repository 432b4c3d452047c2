// Stands in front of the C library's pthread_create and refuses one thread: REFUSED in the environment is its number,
// from 1.
extern char *getenv(const char *name);
extern unsigned long strtoul(const char *text, char **end, int base);
extern void *dlsym(void *handle, const char *name);

enum { EAGAIN = 11 };
#define RTLD_NEXT ((void *)-1L)

typedef int create(void *thread, const void *attributes, void *(*run)(void *), void *given);

int pthread_create(void *thread, const void *attributes, void *(*run)(void *), void *given) {
    static unsigned long asked;
    const char *refused = getenv("REFUSED");
    if (__atomic_add_fetch(&asked, 1, __ATOMIC_RELAXED) == (refused ? strtoul(refused, 0, 10) : 0))
        return EAGAIN;
    return ((create *)dlsym(RTLD_NEXT, "pthread_create"))(thread, attributes, run, given);
}
