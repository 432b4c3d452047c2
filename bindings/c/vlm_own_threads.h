/* How the layers in C start threads, keep calls from being cancelled, and count time. Not a header of programs. */
#ifndef VLM_OWN_THREADS_H
#define VLM_OWN_THREADS_H

#include <pthread.h>
#include <signal.h>
#include <stdbool.h>
#include <stdint.h>
#include <time.h>

static const uint64_t NANOSECONDS = 1000000000;

/* Starts a thread, to which no signal is delivered. */
static inline bool start_thread(pthread_t *thread, void *(*run)(void *), void *context) {
    sigset_t all, before;
    sigfillset(&all);
    pthread_sigmask(SIG_SETMASK, &all, &before);
    bool is_started = pthread_create(thread, NULL, run, context) == 0;
    pthread_sigmask(SIG_SETMASK, &before, NULL);
    return is_started;
}

/* Between these two the thread is not cancelled: it would leave a mutex locked, or a delivery unfinished. */
static inline int cancels_off(void) {
    int before;
    pthread_setcancelstate(PTHREAD_CANCEL_DISABLE, &before);
    return before;
}

static inline void cancels_back(int before) { pthread_setcancelstate(before, NULL); }

static inline uint64_t now(void) {
    struct timespec time;
    clock_gettime(CLOCK_MONOTONIC, &time);
    return (uint64_t)time.tv_sec * NANOSECONDS + (uint64_t)time.tv_nsec;
}

static inline uint64_t milliseconds(uint32_t count) { return (uint64_t)count * 1000000; }

static inline struct timespec moment_at(uint64_t nanoseconds) {
    return (struct timespec){.tv_sec = (time_t)(nanoseconds / NANOSECONDS),
                             .tv_nsec = (long)(nanoseconds % NANOSECONDS)};
}

#endif
