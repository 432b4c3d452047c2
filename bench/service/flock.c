/* flock FOLDER PROCESSES SECONDS LOAD: processes take and give a lock of flock(2) again and again, as the clients of
 * drive.c do. It prints what drive.c prints. */
#define _GNU_SOURCE
#include <fcntl.h>
#include <stdatomic.h>
#include <stdbool.h>
#include <stdint.h>
#include <stdio.h>
#include <stdlib.h>
#include <string.h>
#include <sys/file.h>
#include <sys/mman.h>
#include <sys/wait.h>
#include <time.h>
#include <unistd.h>

enum { MOST = 256, SAMPLES = 1 << 18, HOLD = 2000, REST = 1000, ROUNDS = 64 };

/* What the processes share. The lock guards it, except the counts. */
static struct {
    _Atomic uint64_t given; /* when the lock was given up last */
    _Atomic int owner;
    uint64_t pairs[MOST];
    uint64_t count, hands[SAMPLES];
} * shared;

static uint64_t now(void) {
    struct timespec time;
    clock_gettime(CLOCK_MONOTONIC, &time);
    return (uint64_t)time.tv_sec * 1000000000 + (uint64_t)time.tv_nsec;
}

static void hold(int owner, bool is_sleepy) {
    if (shared->owner >= 0 && shared->owner != owner && shared->count < SAMPLES)
        shared->hands[shared->count++] = now() - shared->given;
    shared->owner = owner;
    if (is_sleepy)
        usleep(HOLD);
    shared->given = now();
}

static void work(int owner, const char *folder, uint64_t end, const char *load) {
    char path[512];
    bool is_sleepy = strcmp(load, "sleepy") == 0, is_same = is_sleepy || strcmp(load, "same") == 0;
    snprintf(path, sizeof path, "%s/flock%d", folder, is_same ? 0 : owner);
    int file = open(path, O_RDWR | O_CREAT | O_CLOEXEC, 0600);
    while (now() < end) {
        for (int round = 0; round < (is_sleepy ? 1 : ROUNDS); round++) {
            flock(file, LOCK_EX);
            if (is_same)
                hold(owner, is_sleepy);
            flock(file, LOCK_UN);
            shared->pairs[owner]++;
            if (is_sleepy)
                usleep(REST);
        }
    }
    _exit(0);
}

static int compare(const void *one, const void *other) {
    const uint64_t *first = one, *second = other;
    return (*first > *second) - (*first < *second);
}

int main(int count, char **words) {
    if (count != 5)
        return 2;
    int processes = (int)strtol(words[2], NULL, 10);
    double seconds = strtod(words[3], NULL);
    shared = mmap(NULL, sizeof *shared, PROT_READ | PROT_WRITE, MAP_SHARED | MAP_ANONYMOUS, -1, 0);
    if (shared == MAP_FAILED || processes > MOST)
        return 1;
    shared->owner = -1;
    uint64_t end = now() + (uint64_t)(seconds * 1e9), pairs = 0;
    for (int owner = 0; owner < processes; owner++)
        if (fork() == 0)
            work(owner, words[1], end, words[4]);
    while (wait(NULL) > 0)
        continue;
    for (int owner = 0; owner < processes; owner++)
        pairs += shared->pairs[owner];
    uint64_t samples = shared->count;
    qsort(shared->hands, samples, sizeof *shared->hands, compare);
    uint64_t middle = samples != 0 ? shared->hands[samples / 2] : 0;
    uint64_t late = samples != 0 ? shared->hands[samples * 99 / 100] : 0;
    printf("%.0f %llu 0 0 %.1f %.1f\n", (double)pairs / seconds, (unsigned long long)pairs, (double)middle / 1000,
           (double)late / 1000);
    return 0;
}
