/* How the threads of a hub sleep. It shares no state with the layer for threads.
 *
 * No wake-up is lost. A thread sleeps only after it has looked and found nothing. What comes for it is first put into
 * the ring of items or posts, and then the bell is rung. A bell that is rung before the sleep ends the sleep at once; a
 * bell that is rung later ends it then. Either way the thread looks again. The hub may find nothing for one more
 * reason: a node has no place for an item. Its port makes a place by taking, and vlm_port_next rings the hub's bell
 * before its thread sleeps.
 *
 * A bell that is rung already needs no system call: `is_rung` tells. A wait reads the eventfd, then clears is_rung, and
 * then its thread looks. So a ring that finds is_rung set came before that look, and the exchanges of is_rung let the
 * look see what came with it. In the other order, the reading could take a ring that came after the clearing. Then
 * is_rung would stay set without a readable eventfd, and no ring would write any more.
 */
#define _POSIX_C_SOURCE 200809L

#include "vlm_hub_wait.h"
#include "vlm_descriptors.h"

#include <errno.h>
#include <poll.h>
#include <pthread.h>
#include <sys/eventfd.h>
#include <time.h>
#include <unistd.h>

enum { NODE_SHIFT = 16 };

/* The states of a read. The port's thread makes it ASKED from FREE, and FREE from ANSWERED; the hub's thread makes it
 * ANSWERED from ASKED. Each writes the other members only before it makes its change. */
enum { FREE, ASKED, ANSWERED };

/* The part of a service that programs with an older header have too. */
enum { FIRST_SERVICE = offsetof(vlm_hub_service, reads) };

static const int64_t MILLISECOND = 1000000, FOR_EVER = INT64_MAX;

/* The moment at which a wait of so many milliseconds ends, in nanoseconds. */
static int64_t end_of(int milliseconds) {
    struct timespec now;
    if (milliseconds < 0)
        return FOR_EVER;
    clock_gettime(CLOCK_MONOTONIC, &now);
    return (int64_t)now.tv_sec * 1000 * MILLISECOND + now.tv_nsec + milliseconds * MILLISECOND;
}

/* The milliseconds that are left until a moment, rounded up, or -1. */
static int left_until(int64_t end) {
    if (end == FOR_EVER)
        return -1;
    int64_t left = end - end_of(0);
    return left <= 0 ? 0 : (int)((left + MILLISECOND - 1) / MILLISECOND);
}

/* Bells. */

static bool is_open(const vlm_bell *bell) { return bell->ring || bell->descriptor >= 0; }

uint32_t vlm_bell_open_on(vlm_bell *bell, int descriptor) {
    if (is_open(bell) || descriptor < 0)
        return VLM_BADPARAM;
    *bell = (vlm_bell){.descriptor = descriptor};
    return VLM_NORMAL;
}

uint32_t vlm_bell_open(vlm_bell *bell) {
    if (is_open(bell))
        return VLM_BADPARAM;
    int descriptor = clear_of_streams(eventfd(0, EFD_CLOEXEC | EFD_NONBLOCK));
    if (descriptor < 0)
        return VLM_INSFMEM;
    *bell = (vlm_bell){.descriptor = descriptor, .is_made = 1};
    return VLM_NORMAL;
}

uint32_t vlm_bell_open_with(vlm_bell *bell, void (*ring)(void *context),
                            uint32_t (*wait)(void *context, int milliseconds), void *context) {
    if (is_open(bell) || !ring || !wait)
        return VLM_BADPARAM;
    *bell = (vlm_bell){.ring = ring, .wait = wait, .context = context, .descriptor = -1};
    return VLM_NORMAL;
}

void vlm_bell_close(vlm_bell *bell) {
    if (bell->is_made)
        close(bell->descriptor);
    *bell = (vlm_bell)VLM_BELL_CLOSED;
}

/* Makes an eventfd readable. The thread is not cancelled meanwhile: it would leave a bell that seems rung, and is not.
 * */
static void make_readable(int descriptor) {
    const uint64_t one = 1;
    int before;
    pthread_setcancelstate(PTHREAD_CANCEL_DISABLE, &before);
    while (write(descriptor, &one, sizeof one) < 0 && errno == EINTR)
        continue;
    pthread_setcancelstate(before, NULL);
}

void vlm_bell_ring(vlm_bell *bell) {
    if (bell->ring)
        bell->ring(bell->context);
    else if (bell->descriptor >= 0 && !__atomic_exchange_n(&bell->is_rung, 1, __ATOMIC_SEQ_CST))
        make_readable(bell->descriptor);
}

/* Waits until an eventfd is readable. */
static uint32_t await_readable(int descriptor, int64_t end) {
    struct pollfd polled = {.fd = descriptor, .events = POLLIN};
    int count;
    do
        count = poll(&polled, 1, left_until(end));
    while (count < 0 && errno == EINTR);
    if (count == 0)
        return VLM_TIMEOUT;
    return count > 0 && polled.revents & POLLIN ? VLM_NORMAL : VLM_BADPARAM;
}

/* Takes all rings of an eventfd that is readable. */
static void take_rings(vlm_bell *bell) {
    uint64_t rings;
    int before;
    /* (a thread that ended in between would leave a bell that seems rung, and is not) */
    pthread_setcancelstate(PTHREAD_CANCEL_DISABLE, &before);
    while (read(bell->descriptor, &rings, sizeof rings) < 0 && errno == EINTR)
        continue;
    __atomic_exchange_n(&bell->is_rung, 0, __ATOMIC_SEQ_CST);
    pthread_setcancelstate(before, NULL);
}

uint32_t vlm_bell_wait(vlm_bell *bell, int milliseconds) {
    if (bell->wait)
        return bell->wait(bell->context, milliseconds);
    if (bell->descriptor < 0)
        return VLM_BADPARAM;
    uint32_t status = await_readable(bell->descriptor, end_of(milliseconds));
    if (status == VLM_NORMAL)
        take_rings(bell);
    return status;
}

/* The hub's thread. */

/* The node that got an item by an entry, or 0. */
static uint32_t node_of(const vlm_entry *entry) {
    return entry->step == VLM_STEP_TAKE ? entry->pid >> NODE_SHIFT : entry->sender;
}

/* The nodes that got an item by the entries from a place on: bit n for node n. */
static uint32_t nodes_from(vlm_hub *hub, size_t place) {
    vlm_entry entry = {.size = sizeof entry};
    uint32_t nodes = 0;
    for (; vlm_hub_entry(hub, place, &entry) == VLM_NORMAL; place++)
        nodes |= 1u << node_of(&entry);
    return nodes;
}

uint32_t vlm_hub_turn_ringing(vlm_hub *hub, vlm_bell *bells, size_t count, size_t *made) {
    size_t before = vlm_hub_entries(hub);
    uint32_t status = vlm_hub_turn(hub, made);
    uint32_t nodes = *made ? nodes_from(hub, before) : 0;
    for (size_t i = 0; i < count && i < VLM_MAX_NODES; i++)
        if (nodes >> (i + 1) & 1)
            vlm_bell_ring(&bells[i]);
    return status;
}

static uint32_t state_of(const vlm_block_read *read) { return __atomic_load_n(&read->state, __ATOMIC_SEQ_CST); }

static void answer_read(vlm_hub *hub, vlm_block_read *read) {
    read->lksb.size = sizeof read->lksb;
    read->status = vlm_hub_block(hub, read->pid, read->block, &read->lksb);
    __atomic_store_n(&read->state, ANSWERED, __ATOMIC_SEQ_CST);
}

size_t vlm_hub_answer_reads(vlm_hub *hub, vlm_bell *bells, size_t count, vlm_block_read *reads) {
    size_t answered = 0;
    for (size_t i = 0; i < count && i < VLM_MAX_NODES; i++) {
        if (state_of(&reads[i]) != ASKED)
            continue;
        answer_read(hub, &reads[i]);
        vlm_bell_ring(&bells[i]);
        answered++;
    }
    return answered;
}

static bool is_well_formed(const vlm_hub_service *service) {
    bool has_room = service->entries ? service->capacity >= VLM_LEAST_CAPACITY : !service->capacity;
    bool is_sized = service->size == FIRST_SERVICE || service->size == sizeof *service;
    return is_sized && !service->reserved && has_room && is_open(service->bell);
}

static size_t answer_reads(vlm_hub_service *service) {
    if (service->size == FIRST_SERVICE || !service->reads)
        return 0;
    return vlm_hub_answer_reads(service->hub, service->bells, service->bell_count, service->reads);
}

static uint32_t cut(vlm_hub_service *service) {
    vlm_cut part = {.size = sizeof part, .entry_size = sizeof(vlm_entry)};
    uint32_t status = vlm_hub_cut(service->hub, service->entries, service->capacity, &part);
    if (status != VLM_NORMAL || !part.count || !service->keep)
        return status;
    return service->keep(service->context, service->entries, &part);
}

/* Cuts, if there might be no place for all that comes before the next cut: an entry for each lost node, and up to two
 * for each node in a turn. */
static uint32_t cut_if_due(vlm_hub_service *service) {
    if (!service->entries || vlm_hub_entries(service->hub) + (size_t)3 * VLM_MAX_NODES <= service->capacity)
        return VLM_NORMAL;
    return cut(service);
}

/* Lets the nodes depart that were told lost. If memory is refused, the rest stay told. */
static uint32_t lose_nodes(vlm_hub_service *service) {
    uint32_t lost = __atomic_load_n(&service->lost, __ATOMIC_SEQ_CST);
    for (uint32_t node = 1; lost >> node; node++) {
        if (!(lost >> node & 1))
            continue;
        if (vlm_hub_lost(service->hub, node) == VLM_INSFMEM)
            return VLM_INSFMEM;
        __atomic_fetch_and(&service->lost, ~(1u << node), __ATOMIC_SEQ_CST);
    }
    return VLM_NORMAL;
}

/* Lets the nodes depart that were told lost, with place for all entries that come before the next cut. */
static uint32_t prepare(vlm_hub_service *service) {
    uint32_t status = cut_if_due(service);
    return status == VLM_NORMAL ? lose_nodes(service) : status;
}

/* Makes a turn and answers the reads. Sleeps if there was nothing to do. */
static uint32_t serve(vlm_hub_service *service) {
    size_t made;
    uint32_t status = prepare(service);
    if (status == VLM_NORMAL)
        status = vlm_hub_turn_ringing(service->hub, service->bells, service->bell_count, &made);
    if (status == VLM_NORMAL)
        made += answer_reads(service);
    return status == VLM_NORMAL && !made ? vlm_bell_wait(service->bell, -1) : status;
}

uint32_t vlm_hub_run(vlm_hub_service *service) {
    if (!is_well_formed(service))
        return VLM_BADPARAM;
    uint32_t status = VLM_NORMAL;
    while (status == VLM_NORMAL && !__atomic_load_n(&service->is_stopped, __ATOMIC_SEQ_CST))
        status = serve(service);
    if (status == VLM_NORMAL)
        status = prepare(service);
    return status == VLM_NORMAL && service->entries ? cut(service) : status;
}

void vlm_hub_stop(vlm_hub_service *service) {
    __atomic_store_n(&service->is_stopped, 1, __ATOMIC_SEQ_CST);
    vlm_bell_ring(service->bell);
}

uint32_t vlm_hub_tell_lost(vlm_hub_service *service, uint32_t node) {
    if (node < 1 || node > VLM_MAX_NODES)
        return VLM_BADPARAM;
    __atomic_fetch_or(&service->lost, 1u << node, __ATOMIC_SEQ_CST);
    vlm_bell_ring(service->bell);
    return VLM_NORMAL;
}

/* The thread of a port. */

uint32_t vlm_port_posted(vlm_bell *hub_bell, uint32_t status) {
    if (status == VLM_NORMAL)
        vlm_bell_ring(hub_bell);
    return status;
}

/* Takes the next item, if there is one. Rings the hub's bell when there are no more. */
static uint32_t take(vlm_port *port, vlm_bell *bell, vlm_bell *hub_bell, vlm_item *item) {
    uint32_t status = vlm_port_take(port, item);
    if (status != VLM_NORMAL)
        return status;
    if (item->kind != VLM_NO_ITEM) {
        bell->has_taken = 1;
    } else if (bell->has_taken) {
        bell->has_taken = 0;
        vlm_bell_ring(hub_bell);
    }
    return status;
}

uint32_t vlm_port_next(vlm_port *port, vlm_bell *bell, vlm_bell *hub_bell, int milliseconds, vlm_item *item) {
    int64_t end = end_of(milliseconds);
    uint32_t status = take(port, bell, hub_bell, item);
    while (status == VLM_NORMAL && item->kind == VLM_NO_ITEM) {
        status = vlm_bell_wait(bell, left_until(end));
        if (status == VLM_NORMAL)
            status = take(port, bell, hub_bell, item);
    }
    return status;
}

/* Asks for a status block, if that is not done yet. */
static uint32_t ask(vlm_port *port, vlm_bell *hub_bell, vlm_block_read *read) {
    uint32_t state = state_of(read), node = vlm_port_node(port);
    if (read->size != sizeof *read || read->reserved || state > ANSWERED || !node || !is_open(hub_bell))
        return VLM_BADPARAM;
    if (state != FREE)
        return VLM_NORMAL;
    if (read->pid >> NODE_SHIFT != node)
        return VLM_BADPARAM;
    __atomic_store_n(&read->state, ASKED, __ATOMIC_SEQ_CST);
    vlm_bell_ring(hub_bell);
    return VLM_NORMAL;
}

uint32_t vlm_port_block(vlm_port *port, vlm_bell *bell, vlm_bell *hub_bell, int milliseconds, vlm_block_read *read) {
    int64_t end = end_of(milliseconds);
    uint32_t status = is_open(bell) ? ask(port, hub_bell, read) : VLM_BADPARAM;
    while (status == VLM_NORMAL && state_of(read) != ANSWERED)
        status = left_until(end) ? vlm_bell_wait(bell, left_until(end)) : VLM_TIMEOUT;
    if (status != VLM_NORMAL)
        return status;
    __atomic_store_n(&read->state, FREE, __ATOMIC_SEQ_CST);
    return read->status;
}
