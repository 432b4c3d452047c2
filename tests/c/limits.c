/* The limits of vlm.h: what each allows is done, and one more is refused as the header or its condition says. */
#include "core_test.h"

static uint32_t pid, lkid;

static uint32_t declare(vlm *handle, uint32_t node, uint32_t group, uint32_t quota, uint32_t blocks) {
    vlm_declaration declaration = {
        .size = sizeof declaration, .node = node, .group = group, .syslck = 0, .quota = quota, .blocks = blocks};
    return vlm_declare(handle, &declaration, &pid);
}

/* Asks for a lock at NL, below a parent that is not 0. */
static uint32_t ask(vlm *handle, const char *name, uint32_t parent, uint32_t block) {
    vlm_request request = {.size = sizeof request, .pid = pid, .block = block, .lock = parent};
    return vlm_enq(handle, &request, (const uint8_t *)name, strlen(name), &lkid);
}

static void declarations(vlm *handle) {
    EXPECT(declare(handle, VLM_MAX_NODES + 1, 1, 1, 1), VLM_BADPARAM);
    EXPECT(declare(handle, 1, VLM_MAX_GROUP + 1, 1, 1), VLM_BADPARAM);
    EXPECT(declare(handle, 1, 1, VLM_MAX_QUOTA + 1, 1), VLM_BADPARAM);
    EXPECT(declare(handle, 1, 1, 1, VLM_MAX_BLOCKS + 1), VLM_BADPARAM);
    EXPECT(declare(handle, VLM_MAX_NODES, VLM_MAX_GROUP, VLM_MAX_QUOTA, VLM_MAX_BLOCKS), VLM_NORMAL);
}

static void names(vlm *handle) {
    static const char longest[] = "a name that has 31 bytes in all";
    VLM_ASSERT(sizeof longest - 1 == VLM_MAX_NAME);
    EXPECT(ask(handle, longest, 0, VLM_MAX_BLOCKS), VLM_NORMAL);
    EXPECT(ask(handle, "a name that has 32 bytes, one up", 0, 1), VLM_IVBUFLEN);
}

/* A tree with a resource at each level. */
static void levels(vlm *handle) {
    uint32_t parent = 0;
    for (unsigned level = 0; level < VLM_MAX_LEVELS; level++, parent = lkid)
        EXPECT(ask(handle, "level", parent, 1), VLM_NORMAL);
    EXPECT(ask(handle, "level", parent, 1), VLM_EXDEPTH);
}

/* A process has as many locks as its quota. */
static void quotas(vlm *handle) {
    EXPECT(declare(handle, 1, 1, VLM_MAX_QUOTA, 1), VLM_NORMAL);
    for (unsigned lock = 0; lock < VLM_MAX_QUOTA; lock++)
        EXPECT(ask(handle, "quota", 0, 1), VLM_NORMAL);
    EXPECT(ask(handle, "quota", 0, 1), VLM_EXENQLM);
}

/* A value block and its tail are those of a status block. */
static void values(vlm *handle) {
    vlm_lksb block = {.size = sizeof block};
    VLM_ASSERT(sizeof block.value == VLM_VALUE_BYTES && sizeof block.tail == VLM_TAIL_BYTES);
    EXPECT(vlm_block(handle, pid, 1, &block), VLM_NORMAL);
}

int main(void) {
    vlm handle_itself = VLM_CLOSED, *handle = &handle_itself;
    vlm_options options = VLM_OPTIONS;
    EXPECT(vlm_open(handle, &options), VLM_NORMAL);
    declarations(handle);
    names(handle);
    levels(handle);
    quotas(handle);
    values(handle);
    vlm_close(handle);
    printf("%u calls, %u wrong\n", calls, wrong);
    return wrong == 0 ? 0 : 1;
}
