/* Bells, the hub's thread and the thread of a port: rings before a wait, time-outs, bells of functions, full rings, and
 * posts that race with sleeps without a lost wake-up. */
#include "hub_service.h"

#include <errno.h>
#include <poll.h>
#include <pthread.h>
#include <sys/eventfd.h>
#include <sys/wait.h>
#include <time.h>
#include <unistd.h>

enum { PLACES = 64, RACES = 20000 };

static int64_t milliseconds_now(void) {
    struct timespec now;
    clock_gettime(CLOCK_MONOTONIC, &now);
    return (int64_t)now.tv_sec * 1000 + now.tv_nsec / 1000000;
}

/* A bell of functions, by a mutex and a condition variable. */

struct chime {
    pthread_mutex_t mutex;
    pthread_cond_t rung;
    long rings, waits;
    bool is_rung;
};

static void ring_chime(void *context) {
    struct chime *chime = context;
    pthread_mutex_lock(&chime->mutex);
    chime->is_rung = true;
    chime->rings++;
    pthread_cond_signal(&chime->rung);
    pthread_mutex_unlock(&chime->mutex);
}

static uint32_t await_chime(void *context, int milliseconds) {
    struct chime *chime = context;
    struct timespec end;
    int failed = 0;
    clock_gettime(CLOCK_REALTIME, &end);
    end.tv_sec += milliseconds < 0 ? LOST / 1000 : milliseconds / 1000;
    pthread_mutex_lock(&chime->mutex);
    chime->waits++;
    while (!chime->is_rung && !failed)
        failed = milliseconds ? pthread_cond_timedwait(&chime->rung, &chime->mutex, &end) : ETIMEDOUT;
    bool is_rung = chime->is_rung;
    chime->is_rung = false;
    pthread_mutex_unlock(&chime->mutex);
    return is_rung ? VLM_NORMAL : VLM_TIMEOUT;
}

static void open_chime(struct chime *chime, vlm_bell *bell) {
    memset(chime, 0, sizeof *chime);
    pthread_mutex_init(&chime->mutex, NULL);
    pthread_cond_init(&chime->rung, NULL);
    *bell = (vlm_bell)VLM_BELL_CLOSED;
    EXPECT(vlm_bell_open_with(bell, ring_chime, await_chime, chime), VLM_NORMAL);
}

/* What each kind of bell does. */
static void each_ring(vlm_bell *bell) {
    EXPECT(vlm_bell_wait(bell, 0), VLM_TIMEOUT);
    vlm_bell_ring(bell);
    EXPECT(vlm_bell_wait(bell, -1), VLM_NORMAL);
    EXPECT(vlm_bell_wait(bell, 0), VLM_TIMEOUT);
    for (int i = 0; i < 1000; i++)
        vlm_bell_ring(bell);
    EXPECT(vlm_bell_wait(bell, LOST), VLM_NORMAL);
    EXPECT(vlm_bell_wait(bell, 0), VLM_TIMEOUT);
    for (int i = 0; i < 10; i++) {
        vlm_bell_ring(bell);
        EXPECT(vlm_bell_wait(bell, LOST), VLM_NORMAL);
    }
    EXPECT(vlm_bell_wait(bell, 0), VLM_TIMEOUT);
    EXPECT(vlm_bell_open(bell), VLM_BADPARAM);
    EXPECT(vlm_bell_open_on(bell, 0), VLM_BADPARAM);
    EXPECT(vlm_bell_open_with(bell, ring_chime, await_chime, NULL), VLM_BADPARAM);
}

static void *ring_later(void *bell) {
    nanosleep(&(struct timespec){.tv_nsec = 20000000}, NULL);
    vlm_bell_ring(bell);
    return NULL;
}

static void time_outs(void) {
    vlm_bell bell;
    open_bell(&bell);
    int64_t before = milliseconds_now();
    EXPECT(vlm_bell_wait(&bell, 30), VLM_TIMEOUT);
    HOLD(milliseconds_now() - before >= 29);
    pthread_t thread = started(ring_later, &bell);
    EXPECT(vlm_bell_wait(&bell, -1), VLM_NORMAL);
    pthread_join(thread, NULL);
    vlm_bell_close(&bell);
}

static void wrong_bells(void) {
    vlm_bell bell = VLM_BELL_CLOSED;
    int ends[2];
    EXPECT(vlm_bell_wait(&bell, 0), VLM_BADPARAM);
    EXPECT(vlm_bell_wait(&bell, -1), VLM_BADPARAM);
    vlm_bell_ring(&bell);
    EXPECT(vlm_bell_open_on(&bell, -1), VLM_BADPARAM);
    EXPECT(vlm_bell_open_with(&bell, NULL, await_chime, NULL), VLM_BADPARAM);
    EXPECT(vlm_bell_open_with(&bell, ring_chime, NULL, NULL), VLM_BADPARAM);
    HOLD(bell.descriptor == -1 && !bell.ring && !bell.wait);
    if (pipe(ends))
        abort();
    EXPECT(vlm_bell_open_on(&bell, ends[0]), VLM_NORMAL);
    close(ends[1]); /* the end that is left can only tell of the other one's closing */
    EXPECT(vlm_bell_wait(&bell, LOST), VLM_BADPARAM);
    vlm_bell_close(&bell);
    close(ends[0]);
}

/* An eventfd of the program, which the program polls. */
static void polled_bell(int flags) {
    vlm_bell bell = VLM_BELL_CLOSED;
    struct pollfd polled = {.fd = eventfd(0, flags), .events = POLLIN};
    HOLD(polled.fd >= 0);
    EXPECT(vlm_bell_open_on(&bell, polled.fd), VLM_NORMAL);
    each_ring(&bell);
    for (int i = 0; i < 3; i++) {
        HOLD(poll(&polled, 1, 0) == 0);
        vlm_bell_ring(&bell);
        vlm_bell_ring(&bell);
        HOLD(poll(&polled, 1, 0) == 1);
        EXPECT(vlm_bell_wait(&bell, 0), VLM_NORMAL);
    }
    vlm_bell_close(&bell);
    HOLD(bell.descriptor == -1 && poll(&polled, 1, 0) == 0);
    close(polled.fd);
}

static void bells_alone(void) {
    struct chime chime;
    vlm_bell bell;
    wrong_bells();
    open_bell(&bell);
    each_ring(&bell);
    vlm_bell_close(&bell);
    vlm_bell_close(&bell);
    open_chime(&chime, &bell);
    each_ring(&bell);
    HOLD(chime.rings == 1011);
    vlm_bell_close(&bell);
    polled_bell(0);
    polled_bell(EFD_NONBLOCK);
    time_outs();
}

/* Two threads ring each other's bell by turns. */

static vlm_bell ping, pong;

static void *answer_rings(void *given) {
    for (long round = rounds(RACES); round; round--) {
        EXPECT(vlm_bell_wait(&ping, LOST), VLM_NORMAL);
        vlm_bell_ring(&pong);
    }
    return given;
}

static void race_of_bells(void) {
    open_bell(&ping);
    open_bell(&pong);
    pthread_t thread = started(answer_rings, NULL);
    for (long round = rounds(RACES); round; round--) {
        vlm_bell_ring(&ping);
        EXPECT(vlm_bell_wait(&pong, LOST), VLM_NORMAL);
    }
    pthread_join(thread, NULL);
    vlm_bell_close(&ping);
    vlm_bell_close(&pong);
}

/* Each post comes a little later after the answer to the last one, so it meets the hub before its sleep and in it. */
static void *search_often(void *given) {
    const uint32_t *node = given;
    for (long round = rounds(RACES); round; round--) {
        for (volatile long spin = round % 500; spin; spin--)
            continue;
        search(*node);
    }
    return NULL;
}

static void race_of_posts(void) {
    static uint32_t nodes[2] = {1, 2};
    static vlm_entry part[VLM_LEAST_CAPACITY];
    open_all();
    service.entries = part;
    service.capacity = VLM_LEAST_CAPACITY;
    pthread_t server = started(serve, NULL), threads[2];
    for (int i = 0; i < 2; i++)
        threads[i] = started(search_often, &nodes[i]);
    for (int i = 0; i < 2; i++)
        pthread_join(threads[i], NULL);
    vlm_hub_stop(&service);
    pthread_join(server, NULL);
    HOLD(vlm_hub_entries(&hub) == 0);
    close_all();
}

/* A hub that sleeps, since a node has no place for an item, is woken when that node takes. 64 answers fill the items,
 * 64 more posts fill the posts. */
static void full_items(void) {
    vlm_item item;
    int posted = 0, answered = 0;
    open_all();
    pthread_t server = started(serve, NULL);
    for (int64_t end = milliseconds_now() + LOST; posted < 2 * PLACES && milliseconds_now() < end;)
        posted += vlm_port_posted(&hub_bell, vlm_port_search(&ports[0])) == VLM_NORMAL;
    HOLD(posted == 2 * PLACES);
    search(2);
    while (answered < posted && next(1, LOST, &item) == VLM_NORMAL)
        answered += item.kind == VLM_ANSWER;
    HOLD(answered == posted);
    EXPECT(next(1, 0, &item), VLM_TIMEOUT);
    HOLD(item.kind == VLM_NO_ITEM);
    EXPECT(next(1, 10, &item), VLM_TIMEOUT);
    vlm_hub_stop(&service);
    pthread_join(server, NULL);
    close_all();
}

/* A port that is closed while the hub runs: the hub makes its posts, and serves the other port. */
static void closed_port(void) {
    open_all();
    pthread_t server = started(serve, NULL);
    for (int i = 0; i < PLACES; i++)
        EXPECT(vlm_port_posted(&hub_bell, vlm_port_search(&ports[0])), VLM_NORMAL);
    vlm_port_close(&ports[0]);
    for (int i = 0; i < 2 * PLACES; i++)
        search(2);
    vlm_hub_stop(&service);
    pthread_join(server, NULL);
    HOLD(vlm_hub_entries(&hub) == (size_t)3 * PLACES);
    close_all();
}

/* A turn rings exactly the bells of the nodes that got an item. */
static void turns_ring(void) {
    size_t made;
    open_all();
    EXPECT(vlm_hub_turn_ringing(&hub, bells, 2, &made), VLM_NORMAL);
    HOLD(made == 0);
    EXPECT(vlm_port_search(&ports[1]), VLM_NORMAL);
    EXPECT(vlm_hub_turn_ringing(&hub, bells, 2, &made), VLM_NORMAL);
    HOLD(made == 1);
    EXPECT(vlm_bell_wait(&bells[0], 0), VLM_TIMEOUT);
    EXPECT(vlm_bell_wait(&bells[1], 0), VLM_NORMAL);
    vlm_declaration declaration = declaration_of(1);
    vlm_request request = request_of(first_of(1), VLM_EX);
    request.has_ast = 1;
    EXPECT(vlm_port_declare(&ports[0], &declaration), VLM_NORMAL);
    EXPECT(vlm_port_enq(&ports[0], &request, (const uint8_t *)"A", 1), VLM_NORMAL);
    HOLD(turns(&hub) == 3);
    EXPECT(vlm_port_enq(&ports[0], &request, (const uint8_t *)"B", 1), VLM_NORMAL);
    EXPECT(vlm_hub_turn(&hub, &made), VLM_NORMAL);
    EXPECT(vlm_bell_wait(&bells[0], 0), VLM_TIMEOUT);
    EXPECT(vlm_hub_turn_ringing(&hub, bells, 2, &made), VLM_NORMAL); /* an AST alone */
    HOLD(made == 1);
    EXPECT(vlm_bell_wait(&bells[0], 0), VLM_NORMAL);
    EXPECT(vlm_bell_wait(&bells[1], 0), VLM_TIMEOUT);
    EXPECT(vlm_port_search(&ports[1]), VLM_NORMAL);
    EXPECT(vlm_hub_turn_ringing(&hub, bells, 1, &made), VLM_NORMAL);
    EXPECT(vlm_bell_wait(&bells[1], 0), VLM_TIMEOUT); /* it was not handed over */
    close_all();
    EXPECT(vlm_hub_turn_ringing(&hub, bells, 2, &made), VLM_BADPARAM);
    HOLD(made == 0);
}

/* A post that failed rings nothing. */
static void posts_ring(void) {
    vlm_item item = {.size = 63};
    open_all();
    EXPECT(vlm_port_posted(&hub_bell, VLM_FULL), VLM_FULL);
    EXPECT(vlm_port_posted(&hub_bell, VLM_BADPARAM), VLM_BADPARAM);
    EXPECT(vlm_bell_wait(&hub_bell, 0), VLM_TIMEOUT);
    EXPECT(vlm_port_posted(&hub_bell, vlm_port_search(&ports[0])), VLM_NORMAL);
    EXPECT(vlm_bell_wait(&hub_bell, 0), VLM_NORMAL);
    EXPECT(vlm_port_next(&ports[0], &bells[0], &hub_bell, -1, &item), VLM_BADPARAM);
    turns(&hub);
    EXPECT(next(1, 0, &item), VLM_NORMAL);
    EXPECT(vlm_bell_wait(&hub_bell, 0), VLM_TIMEOUT);
    EXPECT(next(1, 0, &item), VLM_TIMEOUT); /* it took an item: the hub is to know of the place */
    EXPECT(vlm_bell_wait(&hub_bell, 0), VLM_NORMAL);
    EXPECT(next(1, 0, &item), VLM_TIMEOUT);
    EXPECT(vlm_bell_wait(&hub_bell, 0), VLM_TIMEOUT);
    vlm_bell_close(&bells[0]);
    EXPECT(next(1, 0, &item), VLM_BADPARAM);
    vlm_port_close(&ports[0]);
    EXPECT(next(1, 0, &item), VLM_BADPARAM);
    close_all();
}

/* The service: wrong ones, parts of the journal, lost nodes, and a stop before the start. */

static uint64_t kept;

static uint32_t keep(void *context, const vlm_entry *entries, const vlm_cut *cut) {
    HOLD(cut->base == kept && cut->count > 0 && entries->size == sizeof *entries);
    kept += cut->count;
    return *(uint32_t *)context;
}

static void wrong_services(void) {
    vlm_entry entry;
    open_all();
    vlm_hub_service right = service;
    service.size--;
    EXPECT(vlm_hub_run(&service), VLM_BADPARAM);
    service = right;
    service.reserved = 1;
    EXPECT(vlm_hub_run(&service), VLM_BADPARAM);
    service = right;
    service.capacity = 100;
    EXPECT(vlm_hub_run(&service), VLM_BADPARAM);
    service = right;
    service.entries = &entry;
    service.capacity = VLM_LEAST_CAPACITY - 1;
    EXPECT(vlm_hub_run(&service), VLM_BADPARAM);
    service = right;
    EXPECT(vlm_hub_tell_lost(&service, 0), VLM_BADPARAM);
    EXPECT(vlm_hub_tell_lost(&service, 9), VLM_BADPARAM);
    HOLD(service.lost == 0);
    vlm_hub_stop(&service);
    EXPECT(vlm_hub_run(&service), VLM_NORMAL);
    EXPECT(vlm_hub_run(&service), VLM_NORMAL);
    HOLD(vlm_hub_entries(&hub) == 0);
    vlm_hub_close(&hub);
    service.is_stopped = 0;
    EXPECT(vlm_hub_run(&service), VLM_BADPARAM);
    vlm_bell_close(&hub_bell);
    EXPECT(vlm_hub_run(&service), VLM_BADPARAM);
    close_all();
}

static void parts(void) {
    static vlm_entry entries[VLM_LEAST_CAPACITY];
    uint32_t answer = VLM_NORMAL;
    kept = 0;
    open_all();
    service.entries = entries;
    service.capacity = VLM_LEAST_CAPACITY;
    service.keep = keep;
    service.context = &answer;
    pthread_t server = started(serve, NULL);
    for (int i = 0; i < 100; i++)
        search(1 + (uint32_t)i % 2);
    EXPECT(vlm_hub_tell_lost(&service, 2), VLM_NORMAL);
    EXPECT(vlm_hub_tell_lost(&service, 8), VLM_NORMAL);
    search(1);
    vlm_hub_stop(&service);
    pthread_join(server, NULL);
    HOLD(kept == 103 && service.lost == 0 && vlm_hub_entries(&hub) == 0);
    answer = VLM_ABORT;
    service.is_stopped = 0;
    for (int i = 0; i < 8; i++)
        EXPECT(vlm_hub_lost(&hub, 2), VLM_DEPARTED);
    for (int i = 0; i < 10; i++)
        EXPECT(vlm_port_search(&ports[0]), VLM_NORMAL);
    EXPECT(vlm_hub_run(&service), VLM_ABORT);
    for (int i = 0; i <= VLM_LEAST_CAPACITY; i++)
        EXPECT(vlm_hub_lost(&hub, 2), VLM_DEPARTED);
    EXPECT(vlm_hub_run(&service), VLM_IVBUFLEN);
    close_all();
}

/* In a program without standard streams a bell takes none of their numbers: it would get what is printed. */
static void clear_of_streams(void) {
    pid_t child = fork();
    int status;
    if (child == 0) {
        vlm_bell bell = VLM_BELL_CLOSED;
        for (int stream = 0; stream <= STDERR_FILENO; stream++)
            close(stream);
        bool is_right = vlm_bell_open(&bell) == VLM_NORMAL && bell.descriptor > STDERR_FILENO;
        vlm_bell_ring(&bell);
        is_right &= vlm_bell_wait(&bell, 0) == VLM_NORMAL;
        vlm_bell_close(&bell);
        _exit(!is_right);
    }
    HOLD(waitpid(child, &status, 0) == child && status == 0);
}

/* The same by bells of functions. */
static void by_functions(void) {
    struct chime chimes[2];
    open_all();
    vlm_bell_close(&hub_bell);
    vlm_bell_close(&bells[0]);
    open_chime(&chimes[0], &hub_bell);
    open_chime(&chimes[1], &bells[0]);
    pthread_t server = started(serve, NULL);
    for (long round = rounds(RACES / 10); round; round--)
        search(1);
    vlm_hub_stop(&service);
    pthread_join(server, NULL);
    HOLD(chimes[0].rings >= rounds(RACES / 10) && chimes[1].rings >= rounds(RACES / 10));
    close_all();
}

int main(void) {
    clear_of_streams();
    bells_alone();
    race_of_bells();
    turns_ring();
    posts_ring();
    wrong_services();
    parts();
    full_items();
    closed_port();
    race_of_posts();
    by_functions();
    printf("bells of a hub: %u wrong\n", wrong);
    return wrong != 0;
}
