/* The counters of vlm_threads.h as lines of text, and in the text format of Prometheus; waits and deadlocks as
 * sentences. Not proved. */
#include "vlm_threads_parts.h"

#include <inttypes.h>

/* A counter: where it is in the struct, its name, and what it counts. */
struct figure {
    size_t place;
    const char *name, *help;
};

static const struct figure sums[] = {
    {offsetof(vlm_threads_counters, requests), "requests", "Requests for new locks and for conversions."},
    {offsetof(vlm_threads_counters, granted_at_once), "granted_at_once", "Requests that were granted at once."},
    {offsetof(vlm_threads_counters, waited), "waited", "Requests that were queued."},
    {offsetof(vlm_threads_counters, granted_later), "granted_later", "Queued requests that were granted."},
    {offsetof(vlm_threads_counters, timed_out), "timed_out", "Queued requests that a time-out cancelled."},
    {offsetof(vlm_threads_counters, cancelled), "cancelled", "Queued requests that a dequeue ended."},
    {offsetof(vlm_threads_counters, victims), "victims", "Queued requests that a search for deadlocks ended."},
    {offsetof(vlm_threads_counters, run_down), "run_down", "Queued requests that ended with their process."},
    {offsetof(vlm_threads_counters, dequeues), "dequeues", "Dequeues that were not refused."},
    {offsetof(vlm_threads_counters, searches), "searches", "Searches for a deadlock."},
    {offsetof(vlm_threads_counters, completions), "completions", "Calls of completion routines."},
    {offsetof(vlm_threads_counters, blockings), "blockings", "Calls of blocking routines."},
    {offsetof(vlm_threads_counters, dropped), "dropped", "Events that came to nothing."},
};

static const struct figure levels[] = {
    {offsetof(vlm_threads_counters, processes), "processes", "Processes now."},
    {offsetof(vlm_threads_counters, locks), "locks", "Locks now, those that wait too."},
    {offsetof(vlm_threads_counters, events), "events", "Events that are pending now."},
    {offsetof(vlm_threads_counters, waiting), "waiting", "Requests that wait now."},
    {offsetof(vlm_threads_counters, most_waiting), "most_waiting", "Requests that waited at once, at most."},
};

enum { SUMS = sizeof sums / sizeof sums[0], LEVELS = sizeof levels / sizeof levels[0] };

static uint64_t count_of(const vlm_threads_counters *counters, const struct figure *figure) {
    return *(const uint64_t *)(const void *)((const char *)counters + figure->place);
}

/* The name of a condition without SS$_, with which the manual's names begin. */
static const char *short_name(uint32_t condition) {
    const char *name = vlm_condition_name(condition);
    if (!name)
        return "UNKNOWN";
    return strncmp(name, "SS$_", 4) ? name : name + 4;
}

uint32_t vlm_threads_print(const vlm_threads_counters *given, FILE *file) {
    vlm_threads_counters counters;
    if (!is_copied(&counters, sizeof counters, given, FIRST_COUNTERS))
        return VLM_BADPARAM;
    for (size_t i = 0; i < SUMS; i++)
        fprintf(file, "%-16s %" PRIu64 "\n", sums[i].name, count_of(&counters, &sums[i]));
    for (uint32_t i = 0; i < VLM_THREADS_CONDITIONS; i++)
        if (counters.refused[i])
            fprintf(file, "refused %-8s %" PRIu64 "\n", short_name(i), counters.refused[i]);
    for (size_t i = 0; i < LEVELS; i++)
        fprintf(file, "%-16s %" PRIu64 "\n", levels[i].name, count_of(&counters, &levels[i]));
    fprintf(file, "%-16s %" PRIu64 "\n", "microseconds", counters.microseconds);
    for (uint32_t i = 0; i < VLM_THREADS_TIMES; i++)
        if (counters.times[i])
            fprintf(file, "%s %-10" PRIu64 " %" PRIu64 "\n", i < VLM_THREADS_TIMES - 1 ? "below" : "above",
                    UINT64_C(1) << (i < VLM_THREADS_TIMES - 1 ? i : i - 1), counters.times[i]);
    return VLM_NORMAL;
}

static void head(const char *name, const char *type, const char *help, FILE *file) {
    fprintf(file, "# HELP vlm_%s %s\n# TYPE vlm_%s %s\n", name, help, name, type);
}

static void print_refused(const vlm_threads_counters *counters, FILE *file) {
    head("refused_total", "counter", "Requests that were refused, by condition.", file);
    for (uint32_t i = 0; i < VLM_THREADS_CONDITIONS; i++)
        if (counters->refused[i])
            fprintf(file, "vlm_refused_total{condition=\"%s\"} %" PRIu64 "\n", short_name(i), counters->refused[i]);
}

static void print_seconds(uint64_t microseconds, FILE *file) {
    fprintf(file, "%" PRIu64 ".%06" PRIu64, microseconds / 1000000, microseconds % 1000000);
}

static void print_times(const vlm_threads_counters *counters, FILE *file) {
    uint64_t count = 0;
    head("wait_seconds", "histogram", "Times of the queued requests that have ended.", file);
    for (uint32_t i = 0; i < VLM_THREADS_TIMES; i++) {
        count += counters->times[i];
        fputs("vlm_wait_seconds_bucket{le=\"", file);
        if (i < VLM_THREADS_TIMES - 1)
            print_seconds(UINT64_C(1) << i, file);
        else
            fputs("+Inf", file);
        fprintf(file, "\"} %" PRIu64 "\n", count);
    }
    fputs("vlm_wait_seconds_sum ", file);
    print_seconds(counters->microseconds, file);
    fprintf(file, "\nvlm_wait_seconds_count %" PRIu64 "\n", count);
}

uint32_t vlm_threads_print_prometheus(const vlm_threads_counters *given, FILE *file) {
    char name[32];
    vlm_threads_counters counters;
    if (!is_copied(&counters, sizeof counters, given, FIRST_COUNTERS))
        return VLM_BADPARAM;
    for (size_t i = 0; i < SUMS; i++) {
        snprintf(name, sizeof name, "%s_total", sums[i].name);
        head(name, "counter", sums[i].help, file);
        fprintf(file, "vlm_%s %" PRIu64 "\n", name, count_of(&counters, &sums[i]));
    }
    print_refused(&counters, file);
    for (size_t i = 0; i < LEVELS; i++) {
        head(levels[i].name, "gauge", levels[i].help, file);
        fprintf(file, "vlm_%s %" PRIu64 "\n", levels[i].name, count_of(&counters, &levels[i]));
    }
    print_times(&counters, file);
    return VLM_NORMAL;
}

/* Waits and deadlocks. */

static const char *mode_name(uint32_t mode) {
    static const char *const names[] = {"NL", "CR", "CW", "PR", "PW", "EX"};
    return mode <= VLM_EX ? names[mode] : "nothing";
}

static void print_process(const uint8_t *label, uint32_t pid, FILE *file) {
    if (label[0])
        fprintf(file, "%.*s", VLM_THREADS_LABEL, (const char *)label);
    else
        fprintf(file, "process %" PRIu32, pid);
}

/* The name of a resource: as it is if a script can have it as a word, else in hexadecimal digits. */
static void print_name(const vlm_threads_wait *wait, FILE *file) {
    uint32_t fit = 0, len = wait->name_len < sizeof wait->name ? wait->name_len : sizeof wait->name;
    while (fit < len && wait->name[fit] > ' ' && wait->name[fit] <= '~')
        fit++;
    if (fit == len && memcmp(wait->name, "x:", 2) != 0) {
        fprintf(file, "%.*s", (int)len, (const char *)wait->name);
        return;
    }
    fputs("x:", file);
    for (uint32_t i = 0; i < len; i++)
        fprintf(file, "%02x", wait->name[i]);
}

/* What a lock holds or wants, with its number. */
static void print_lock(const vlm_lock *lock, FILE *file) {
    fprintf(file, "lock %" PRIu32 " ", lock->lkid);
    if (lock->held <= VLM_EX)
        fprintf(file, "holds %s", mode_name(lock->held));
    if (lock->want <= VLM_EX)
        fprintf(file, "%swants %s", lock->held <= VLM_EX ? " and " : "", mode_name(lock->want));
}

static void print_step(const vlm_threads_wait *wait, FILE *file) {
    print_process(wait->waits_label, wait->waits.pid, file);
    fputs(" waits for ", file);
    if (wait->blocks.lkid)
        print_process(wait->blocks_label, wait->blocks.pid, file);
    else
        fputs("nobody", file);
    fputs(" on ", file);
    print_name(wait, file);
    fputs(" (", file);
    print_lock(&wait->waits, file);
    if (wait->blocks.lkid) {
        fputs(", ", file);
        print_lock(&wait->blocks, file);
    }
    fputs(")", file);
}

uint32_t vlm_threads_print_wait(const vlm_threads_wait *wait, FILE *file) {
    /* (it has one size: a deadlock has an array of it) */
    if (wait->size != sizeof *wait)
        return VLM_BADPARAM;
    print_step(wait, file);
    fprintf(file, ", for %" PRIu32 " ms.\n", wait->milliseconds);
    return VLM_NORMAL;
}

uint32_t vlm_threads_print_deadlock(const vlm_threads_deadlock *given, FILE *file) {
    vlm_threads_deadlock deadlock;
    if (!is_copied(&deadlock, sizeof deadlock, given, FIRST_DEADLOCK))
        return VLM_BADPARAM;
    uint32_t told = deadlock.length < VLM_THREADS_CYCLE ? deadlock.length : VLM_THREADS_CYCLE;
    for (uint32_t i = 0; i < told; i++) {
        fputs(i ? ", " : "A circle: ", file);
        print_step(&deadlock.waits[i], file);
    }
    if (told < deadlock.length)
        fprintf(file, ", and %" PRIu32 " more", deadlock.length - told);
    fprintf(file, "%sThe victim is lock %" PRIu32 " of ", told ? ". " : "", deadlock.victim);
    print_process(deadlock.waits[0].waits_label, deadlock.pid, file);
    fputs(".\n", file);
    return VLM_NORMAL;
}
