/* ASTs: the queue, who delivers, and waits.
 *
 * One routine runs at a time. A thread in a service delivers what is pending, while it waits and at the end of its
 * call. If there is none, a thread of the layer does. In a routine no other one is delivered.
 *
 * The original interrupts the program until a routine returns. Here the program's first thread goes on beside a routine
 * of another thread, up to its next service: there it waits for the end of the routine. */
#include "parts.h"

#include "ssdef.h"

#include <signal.h>
#include <stdlib.h>
#include <unistd.h>

static pthread_mutex_t mutex = PTHREAD_MUTEX_INITIALIZER;
static pthread_cond_t changed = PTHREAD_COND_INITIALIZER;
/* Guarded by the mutex. */
static struct ast *first, *last;
static bool are_enabled = true, is_running, is_awake, is_started;
static uint32_t in_services; /* threads that are going to deliver */
/* Of each thread: it runs an AST routine; its ID, or 0 if that is not known yet. */
static _Thread_local bool is_in_routine;
static _Thread_local pid_t thread;

void vms_lock(void) { pthread_mutex_lock(&mutex); }

void vms_unlock(void) { pthread_mutex_unlock(&mutex); }

void vms_changed(void) { pthread_cond_broadcast(&changed); }

/* A thread that is cancelled meanwhile ends after its service. */
static void sleep_until_changed(void) {
    int before;
    pthread_setcancelstate(PTHREAD_CANCEL_DISABLE, &before);
    pthread_cond_wait(&changed, &mutex);
    pthread_setcancelstate(before, NULL);
}

struct ast *vms_new_ast(VMS$AST routine, VMS$PARAMETER parameter) {
    struct ast *ast = calloc(1, sizeof *ast);
    if (ast != NULL) {
        ast->routine = routine;
        ast->parameter = parameter;
    }
    return ast;
}

void vms_queue_ast(struct ast *ast) {
    ast->is_queued = true;
    ast->next = NULL;
    ast->previous = last;
    *(last != NULL ? &last->next : &first) = ast;
    last = ast;
    vms_changed();
}

void vms_unqueue_ast(struct ast *ast) {
    if (!ast->is_queued)
        return;
    ast->is_queued = false;
    *(ast->previous != NULL ? &ast->previous->next : &first) = ast->next;
    *(ast->next != NULL ? &ast->next->previous : &last) = ast->previous;
}

/* Whether this thread is the first one of the program. */
static bool is_first_thread(void) {
    if (thread == 0)
        thread = gettid();
    return thread == getpid();
}

/* Whether this thread may go on beside what is running. */
static bool may_go_on(void) { return !is_running || is_in_routine || !is_first_thread(); }

static bool may_run(void) { return are_enabled && !is_running && first != NULL; }

/* (a routine has an argument of the program's choice, or none) */
#ifdef __clang__
#define ANY_ROUTINE __attribute__((no_sanitize("function")))
#else
#define ANY_ROUTINE
#endif

/* Runs the routine of the oldest AST, without the mutex. */
ANY_ROUTINE static void run_first(void) {
    struct ast *ast = first;
    VMS$AST routine = ast->routine;
    VMS$PARAMETER parameter = ast->parameter;
    vms_unqueue_ast(ast);
    if (!ast->is_kept)
        free(ast);
    is_running = is_in_routine = true;
    vms_unlock();
    int before;
    /* (a thread that ended in the routine would seem to run it for ever) */
    pthread_setcancelstate(PTHREAD_CANCEL_DISABLE, &before);
    ((void (*)(VMS$PARAMETER))routine)(parameter);
    pthread_setcancelstate(before, NULL);
    vms_lock();
    is_running = is_in_routine = false;
    vms_changed();
}

/* Runs the routines of the ASTs that are pending, and not of those that come meanwhile. */
static void run_pending(void) {
    const struct ast *newest = last;
    bool is_newest = false;
    while (!is_in_routine && may_run() && !is_newest) {
        is_newest = first == newest;
        run_first();
    }
}

void vms_enter(void) {
    vms_lock();
    while (!may_go_on())
        sleep_until_changed();
    in_services += !is_in_routine;
    vms_unlock();
}

void vms_leave(void) {
    vms_lock();
    run_pending();
    in_services -= !is_in_routine;
    if (first != NULL)
        vms_changed();
    vms_unlock();
}

void vms_wait(vms_condition_met is_met, const void *argument) {
    vms_lock();
    for (;;) {
        run_pending();
        if (may_go_on() && is_met(argument))
            break;
        if (may_run() && !is_in_routine)
            continue; /* an AST has come while another one ran */
        in_services += !is_in_routine;
        sleep_until_changed();
        in_services -= !is_in_routine;
    }
    vms_unlock();
}

void vms_await(vms_condition_met is_met, const void *argument) {
    vms_lock();
    while (!is_met(argument))
        sleep_until_changed();
    vms_unlock();
}

/* The thread of the layer. */
static void *deliver(void *unused) {
    (void)unused;
    vms_lock();
    for (;;)
        if (in_services == 0 && may_run())
            run_first();
        else
            sleep_until_changed();
    return NULL;
}

/* Without a thread ASTs come only at waits and services. VLM$ASTS=wait asks for that. */
bool vms_start(void) {
    pthread_t thread;
    sigset_t all, before;
    const char *asked = vms_setting("ASTS");
    vms_lock();
    if (!is_started && (asked == NULL || asked[0] != 'w')) {
        sigfillset(&all);
        pthread_sigmask(SIG_SETMASK, &all, &before);
        is_started = pthread_create(&thread, NULL, deliver, NULL) == 0 && pthread_detach(thread) == 0;
        pthread_sigmask(SIG_SETMASK, &before, NULL);
    }
    bool is_right = is_started || (asked != NULL && asked[0] == 'w');
    vms_unlock();
    return is_right;
}

int sys$setast(char enbflg) {
    vms_lock();
    bool were_enabled = are_enabled;
    are_enabled = (enbflg & 1) != 0;
    while ((!are_enabled && is_running && !is_in_routine) || !may_go_on())
        sleep_until_changed();
    vms_changed();
    run_pending();
    vms_unlock();
    return were_enabled ? SS$_WASSET : SS$_WASCLR;
}

int sys$dclast(VMS$AST astadr, VMS$PARAMETER astprm, unsigned int acmode) {
    (void)acmode;
    if (astadr == NULL)
        return SS$_ACCVIO;
    vms_claim(); /* (a child has no thread of the layer that could call the routines of its locks) */
    struct ast *ast = vms_start() ? vms_new_ast(astadr, astprm) : NULL;
    if (ast == NULL)
        return SS$_INSFMEM;
    vms_enter();
    vms_lock();
    vms_queue_ast(ast);
    vms_unlock();
    vms_leave();
    return SS$_NORMAL;
}

static bool is_woken(const void *unused) {
    (void)unused;
    bool was_awake = is_awake;
    is_awake = false;
    return was_awake;
}

int sys$hiber(void) {
    vms_wait(is_woken, NULL);
    return SS$_NORMAL;
}

int sys$wake(unsigned int *pidadr, void *prcnam) {
    if (prcnam != NULL || (pidadr != NULL && *pidadr != 0 && *pidadr != (unsigned int)getpid()))
        return SS$_UNSUPPORTED;
    vms_enter();
    vms_lock();
    is_awake = true;
    vms_changed();
    vms_unlock();
    vms_leave();
    return SS$_NORMAL;
}
