/* A program with one thread and an event loop. It never waits for a lock: it starts requests and polls the layer's file
 * descriptor, and a pipe that represents the rest of its work. Three sessions take A in turn. */
#include <vlm_threads.h>

#include <poll.h>
#include <unistd.h>

struct session {
    const char *name;
    uint32_t pid;
};

static vlm_threads *layer;
static int jobs[2];
static int left = 3;

static void give_up(const struct session *session, uint32_t lock) {
    vlm_threads_dequeue dequeue = {.size = sizeof dequeue, .pid = session->pid, .lock = lock};
    vlm_threads_deq(layer, &dequeue);
}

/* The session has A: it works, and gives A up. */
static void is_granted(void *context, const vlm_threads_event *event) {
    const struct session *session = context;
    printf("%s has A: %s\n", session->name, vlm_condition_name(event->status));
    give_up(session, event->lkid);
    left--;
    if (write(jobs[1], session->name, 1) != 1)
        left = 0;
}

static void begin(struct session *session) {
    vlm_threads_declaration declaration = {.size = sizeof declaration, .node = 1, .quota = 9, .requests = 1};
    vlm_threads_request request = {
        .size = sizeof request, .mode = VLM_EX, .completion = is_granted, .completion_context = session};
    if (vlm_threads_declare(layer, &declaration, &session->pid) != VLM_NORMAL)
        return;
    request.pid = session->pid;
    uint32_t status = vlm_threads_start_enq(layer, &request, (const uint8_t *)"A", 1);
    printf("%s asks: %s\n", session->name, vlm_condition_name(status));
}

/* One turn of the loop: serves what is readable. */
static void serve(struct pollfd polled[2]) {
    uint32_t delivered;
    char job;
    if (poll(polled, 2, -1) < 1)
        return;
    if (polled[0].revents & POLLIN && read(jobs[0], &job, 1) == 1)
        printf("a job of %c is done\n", job);
    if (polled[1].revents & POLLIN && vlm_threads_dispatch(layer, &delivered) == VLM_NORMAL)
        printf("%u delivered\n", (unsigned)delivered);
}

int main(void) {
    struct session sessions[] = {{"P", 0}, {"Q", 0}, {"R", 0}};
    vlm_threads_options options = VLM_THREADS_OPTIONS;
    struct pollfd polled[2] = {{.events = POLLIN}, {.events = POLLIN}};
    options.delivery = VLM_THREADS_BY_PROGRAM;
    if (pipe(jobs) || vlm_threads_open(&options, &layer) != VLM_NORMAL)
        return 1;
    polled[0].fd = jobs[0];
    vlm_threads_fd(layer, &polled[1].fd);
    for (int i = 0; i < 3; i++)
        begin(&sessions[i]);
    while (left)
        serve(polled);
    vlm_threads_close(layer);
    close(jobs[0]);
    close(jobs[1]);
    return 0;
}
