/* The calls that walk, look up and take the AST of any process, with each of their answers. */
#include "core_test.h"

/* Each call of a reading that is to be refused: it is BADPARAM, and nothing is written. */
#define REFUSED(call, words)                                \
    do {                                                    \
        unsigned char before[sizeof(words)];                \
        memcpy(before, &(words), sizeof(words));            \
        EXPECT(call, VLM_BADPARAM);                         \
        HOLD(memcmp(before, &(words), sizeof(words)) == 0); \
    } while (0)

static const uint32_t sizes[] = {0, 4, 31, 33, 63, 65, 143, 145, UINT32_MAX};
enum { SIZES = sizeof sizes / sizeof *sizes };

static uint32_t declared(vlm *handle, uint32_t node) {
    vlm_declaration declaration = {
        .size = sizeof declaration, .node = node, .group = 7, .syslck = 1, .quota = 9, .blocks = 9};
    uint32_t pid;
    EXPECT(vlm_declare(handle, &declaration, &pid), VLM_NORMAL);
    return pid;
}

/* A lock at NL on the resource of a name, with a completion routine if it is not 0. */
static uint32_t locked(vlm *handle, uint32_t pid, const char *name, uint32_t parent, uint32_t flags, uint32_t routine) {
    vlm_request request = {.size = sizeof request,
                           .pid = pid,
                           .flags = flags,
                           .block = 1,
                           .lock = parent,
                           .has_ast = routine != 0,
                           .ast = routine,
                           .param = routine + 1};
    uint32_t lkid;
    EXPECT(vlm_enq(handle, &request, (const uint8_t *)name, strlen(name), &lkid), VLM_NORMAL);
    return lkid;
}

static void given_up(vlm *handle, uint32_t pid, uint32_t lkid) {
    vlm_dequeue dequeue = {.size = sizeof dequeue, .pid = pid, .lock = lkid};
    EXPECT(vlm_deq(handle, &dequeue), VLM_NORMAL);
}

/* The key of a root of a group, or of a resource below the one with the serial `parent`. */
static vlm_resource key(const char *name, uint32_t parent, uint32_t group) {
    vlm_resource made = {.size = sizeof made, .parent = parent, .group = group};
    made.name_len = (uint32_t)strlen(name);
    memcpy(made.name, name, strlen(name));
    return made;
}

static int is_named(const vlm_resource *resource, const char *name) {
    return resource->name_len == strlen(name) && memcmp(resource->name, name, strlen(name)) == 0;
}

/* A closed handle: BADPARAM of each call, and only *pid is written. */
static void closed_calls(vlm *handle) {
    vlm_process process = {.size = sizeof process, .pid = 5};
    vlm_resource resource = key("A", 0, 7);
    vlm_ast ast = {.size = sizeof ast, .kind = 9};
    uint32_t pid = 5;
    REFUSED(vlm_next_process(handle, 0, &process), process);
    REFUSED(vlm_next_resource(handle, &resource), resource);
    REFUSED(vlm_find(handle, &resource), resource);
    REFUSED(vlm_take_any(handle, &pid, &ast), ast);
    HOLD(pid == 0);
}

/* A lock manager with nothing in it: each walk ends at once, and nothing is pending. */
static void empty_calls(vlm *handle) {
    vlm_process process = {.size = sizeof process, .pid = 5};
    vlm_resource resource = {.size = sizeof resource, .name_len = 9};
    vlm_ast ast = {.size = sizeof ast, .kind = 9, .lkid = 9};
    uint32_t pid = 5;
    EXPECT(vlm_next_process(handle, 0, &process), VLM_NORMAL);
    HOLD(process.size == sizeof process && process.pid == 0);
    REFUSED(vlm_next_process(handle, 65537, &process), process);
    EXPECT(vlm_next_resource(handle, &resource), VLM_NORMAL);
    HOLD(resource.size == sizeof resource && resource.serial == 0 && resource.name_len == 0);
    resource = key("A", 0, 7);
    REFUSED(vlm_find(handle, &resource), resource);
    EXPECT(vlm_take_any(handle, &pid, &ast), VLM_NORMAL);
    HOLD(pid == 0 && ast.size == sizeof ast && ast.kind == VLM_NO_AST && ast.lkid == 0);
}

static void processes(vlm *handle, const uint32_t *made, size_t count) {
    vlm_process process = {.size = sizeof process};
    for (size_t i = 0; i < count; i++) {
        EXPECT(vlm_next_process(handle, process.pid, &process), VLM_NORMAL);
        HOLD(process.pid == made[i] && process.group == 7 && process.syslck == 1 && process.blocks == 9);
    }
    EXPECT(vlm_next_process(handle, process.pid, &process), VLM_NORMAL);
    HOLD(process.pid == 0 && process.node == 0 && process.blocks == 0);
    for (size_t i = 0; i < SIZES; i++) {
        process.size = sizes[i];
        REFUSED(vlm_next_process(handle, 0, &process), process);
        REFUSED(vlm_next_process(handle, made[0], &process), process);
    }
    process.size = sizeof process;
    REFUSED(vlm_next_process(handle, 12345, &process), process);
    REFUSED(vlm_next_process(handle, UINT32_MAX, &process), process);
}

/* Three resources: A and its sub-resource B of group 7, and A of the system's domain. */
static void resources(vlm *handle, uint32_t p) {
    uint32_t root = locked(handle, p, "A", 0, 0, 0), below = locked(handle, p, "B", root, 0, 0);
    locked(handle, p, "A", 0, VLM_SYSTEM, 0);
    vlm_resource resource = {.size = sizeof resource};
    EXPECT(vlm_next_resource(handle, &resource), VLM_NORMAL);
    HOLD(resource.serial == 1 && resource.parent == 0 && resource.group == 7 && is_named(&resource, "A"));
    EXPECT(vlm_next_resource(handle, &resource), VLM_NORMAL);
    HOLD(resource.serial == 2 && resource.parent == 1 && is_named(&resource, "B"));
    vlm_resource second = resource;
    EXPECT(vlm_next_resource(handle, &resource), VLM_NORMAL);
    HOLD(resource.serial == 3 && resource.is_system == 1 && is_named(&resource, "A"));
    EXPECT(vlm_next_resource(handle, &resource), VLM_NORMAL);
    HOLD(resource.size == sizeof resource && resource.serial == 0 && resource.name_len == 0);

    /* A resource that is gone: a walk does not go on from it, and begins again after it is made again. */
    given_up(handle, p, below);
    REFUSED(vlm_next_resource(handle, &second), second);
    REFUSED(vlm_find(handle, &second), second);
    locked(handle, p, "B", root, 0, 0);
    EXPECT(vlm_find(handle, &second), VLM_NORMAL);
    HOLD(second.serial == 4 && second.parent == 1 && is_named(&second, "B"));
    EXPECT(vlm_next_resource(handle, &second), VLM_NORMAL);
    HOLD(second.serial == 0);
}

static void keys(vlm *handle) {
    static const struct {
        const char *name;
        uint32_t parent, group, is_system, serial;
    } found[] = {{"A", 0, 7, 0, 1}, {"B", 1, 0, 0, 4}, {"A", 0, 0, 1, 3}, {"B", 1, 9, 1, 4}, {"A", 0, 9, 1, 3}};
    for (size_t i = 0; i < sizeof found / sizeof *found; i++) {
        vlm_resource resource = key(found[i].name, found[i].parent, found[i].group);
        resource.is_system = found[i].is_system;
        resource.reserved[3] = 9; /* is not read */
        EXPECT(vlm_find(handle, &resource), VLM_NORMAL);
        HOLD(resource.serial == found[i].serial && is_named(&resource, found[i].name) && resource.reserved[3] == 0);
    }
    vlm_resource absent[] = {key("A", 0, 8), key("B", 0, 7),     key("A", 1, 7),          key("B", 2, 7),
                             key("", 0, 7),  key("A", 0, 65543), key("B", UINT32_MAX, 7), key("A", 0, 7),
                             key("A", 0, 7), key("A", 0, 7),     key("A", 0, 7)};
    absent[7].is_system = 2;
    absent[8].name_len = 32;
    absent[9].name_len = 33;
    absent[10].name_len = UINT32_MAX;
    for (size_t i = 0; i < sizeof absent / sizeof *absent; i++) {
        REFUSED(vlm_find(handle, &absent[i]), absent[i]);
        absent[i].serial = 1;
        REFUSED(vlm_next_resource(handle, &absent[i]), absent[i]);
    }
    vlm_resource resource = key("A", 0, 7);
    for (size_t i = 0; i < SIZES; i++) {
        resource.size = sizes[i];
        REFUSED(vlm_find(handle, &resource), resource);
        REFUSED(vlm_next_resource(handle, &resource), resource);
    }
}

static void takes(vlm *handle, uint32_t pid, uint32_t routine, uint32_t lkid) {
    vlm_ast ast = {.size = sizeof ast};
    uint32_t taker = 5;
    EXPECT(vlm_take_any(handle, &taker, &ast), VLM_NORMAL);
    HOLD(taker == pid && ast.kind == VLM_COMPLETION && ast.routine == routine && ast.lkid == lkid);
    HOLD(ast.param == routine + 1);
}

/* ASTs of two processes of node 1 and one of node 2: the first node comes first, and on it the process that was made
 * first, whatever was queued first. */
static void asts(vlm *handle, uint32_t p, uint32_t q, uint32_t other) {
    uint32_t fourth = locked(handle, other, "C", 0, 0, 4), third = locked(handle, q, "C", 0, 0, 3);
    uint32_t first = locked(handle, p, "C", 0, 0, 1), second = locked(handle, p, "C", 0, 0, 2);
    vlm_ast ast = {.size = sizeof ast, .kind = 9};
    for (size_t i = 0; i < SIZES; i++) {
        uint32_t pid = 5;
        ast.size = sizes[i];
        REFUSED(vlm_take_any(handle, &pid, &ast), ast);
        HOLD(pid == 0);
    }
    takes(handle, p, 1, first);
    takes(handle, p, 2, second);
    takes(handle, q, 3, third);
    takes(handle, other, 4, fourth);
    uint32_t pid = 5;
    ast.size = sizeof ast;
    EXPECT(vlm_take_any(handle, &pid, &ast), VLM_NORMAL);
    HOLD(pid == 0 && ast.kind == VLM_NO_AST && ast.routine == 0);
}

/* A process that is gone: a walk does not go on from it, and its ASTs are gone too. */
static void ended(vlm *handle, uint32_t p, uint32_t q, uint32_t other) {
    vlm_process process = {.size = sizeof process};
    locked(handle, p, "D", 0, 0, 1);
    uint32_t kept = locked(handle, other, "D", 0, 0, 2);
    EXPECT(vlm_rundown(handle, p), VLM_NORMAL);
    REFUSED(vlm_next_process(handle, p, &process), process);
    EXPECT(vlm_next_process(handle, 0, &process), VLM_NORMAL);
    HOLD(process.pid == other && process.pending == 1);
    EXPECT(vlm_next_process(handle, other, &process), VLM_NORMAL);
    HOLD(process.pid == q);
    takes(handle, other, 2, kept);
    EXPECT(vlm_leave(handle, 2), VLM_NORMAL);
    REFUSED(vlm_next_process(handle, other, &process), process);
}

int main(void) {
    vlm handle_itself = VLM_CLOSED, *handle = &handle_itself;
    vlm_options options = VLM_OPTIONS;
    closed_calls(handle);
    EXPECT(vlm_open(handle, &options), VLM_NORMAL);
    empty_calls(handle);
    uint32_t p = declared(handle, 1), other = declared(handle, 2), q = declared(handle, 1);
    processes(handle, (const uint32_t[]){p, other, q}, 3);
    resources(handle, p);
    keys(handle);
    asts(handle, p, q, other);
    ended(handle, p, q, other);
    vlm_close(handle);
    closed_calls(handle);
    printf("%u calls, %u wrong\n", calls, wrong);
    return wrong == 0 ? 0 : 1;
}
