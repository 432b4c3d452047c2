/* The readings of a client: block, tail, show and tails. */
#include "parts.h"

#include <inttypes.h>

enum { STATUS_WORD = 4, BLOCK_LOCK_WORD = 6, ROW_LOCK_WORD = 1, ROW_PROCESS_WORD = 3, QUEUES = 3 };

/* What a status block shows: nothing of an earlier session, and what it had in an earlier lock manager. */
static void hide(const struct process *process, uint32_t block, vlm_text *text) {
    const struct dispatcher *dispatcher = process->session->dispatcher;
    vlm_lksb read = {.size = sizeof read};
    bool is_named = has_bit(process->named, block);
    if (is_named && dispatcher->epoch == 0)
        return;
    struct old_block shown = {0, 0};
    if (!is_named && process->old != NULL)
        shown = process->old[block];
    else if (is_named && vlm_block(&process->session->dispatcher->manager, process->pid, block, &read) == VLM_NORMAL)
        shown = (struct old_block){read.status, handle_of(dispatcher, read.lkid)};
    replace_word(text, BLOCK_LOCK_WORD, shown.handle);
    replace_word(text, STATUS_WORD, shown.status);
}

/* `block P N` and `tail P N`, of a process or of one that has ended: null. A status block that was not declared does
 * not exist. */
void run_reading(struct client *client, const vlm_line *line, const struct process *process) {
    vlm *manager = &client->dispatcher->manager;
    vlm_text text = {.size = sizeof text};
    bool is_there = process != NULL && line->number != 0 && line->number <= process->blocks;
    uint32_t pid = is_there ? process->pid : 0;
    if (line->kind == VLM_LINE_TAIL)
        vlm_print_tail(manager, pid, line, &text);
    else
        vlm_print_block(manager, pid, line, &text);
    if (is_there && line->kind == VLM_LINE_BLOCK)
        hide(process, line->number, &text);
    answer(client, text.bytes, text.len);
}

static bool may_see(const struct client *client, const vlm_resource *resource) {
    return client->rights.is_admin || resource->is_system != 0 || resource->group == client->rights.group;
}

static void show_queue(struct client *client, const vlm_resource *resource, uint32_t queue) {
    struct dispatcher *dispatcher = client->dispatcher;
    vlm_lock lock = {.size = sizeof lock};
    vlm_text text = {.size = sizeof text};
    uint32_t status = vlm_first_row(&dispatcher->manager, resource, queue, &lock);
    for (; status == VLM_NORMAL && lock.lkid != 0; status = vlm_next_row(&dispatcher->manager, lock.lkid, &lock)) {
        dispatcher->walked++;
        vlm_print_lock(&lock, &text);
        replace_word(&text, ROW_PROCESS_WORD, process_of(dispatcher, lock.pid)->number);
        replace_word(&text, ROW_LOCK_WORD, handle_of(dispatcher, lock.lkid));
        put(client, text.bytes, text.len);
    }
}

static void show_resource(struct client *client, const vlm_resource *resource, bool is_tails) {
    vlm_text text = {.size = sizeof text};
    if (is_tails)
        vlm_print_resource_tail(&client->dispatcher->manager, resource, &text);
    else
        vlm_print_resource(&client->dispatcher->manager, resource, &text);
    put(client, text.bytes, text.len);
    for (uint32_t queue = 0; queue < QUEUES && !is_tails; queue++)
        show_queue(client, resource, queue);
}

/* `show` and `tails`: the resources that the client may see, and a blank line. The cost grows with all locks. */
void show(struct client *client, bool is_tails) {
    struct dispatcher *dispatcher = client->dispatcher;
    vlm_resource resource = {.size = sizeof resource};
    bool is_empty = true;
    if (vlm_lock_count(&dispatcher->manager) > dispatcher->limits.shown) {
        answer_text(client, "too many locks\n\n");
        return;
    }
    begin_long_answer(client);
    uint32_t status = vlm_next_resource(&dispatcher->manager, &resource);
    for (; status == VLM_NORMAL && resource.serial != 0; status = vlm_next_resource(&dispatcher->manager, &resource)) {
        dispatcher->walked++;
        if (!may_see(client, &resource))
            continue;
        is_empty = false;
        show_resource(client, &resource, is_tails);
    }
    end_long_answer(client, is_empty ? "no resources\n\n" : "\n");
}
