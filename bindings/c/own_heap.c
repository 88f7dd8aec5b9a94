/* Heap functions of a program's own, in the place of those that the archive has. They give no more than cargo_manifest.h
   asks of them: blocks are aligned to `align` and no further, nothing of a block is set, and what a block held is lost when
   it is given back. They count, and can refuse each request in turn: a call is then answered as without, or says that there
   is no memory. */
#include "cargo_manifest.h"

#include <stdio.h>
#include <stdlib.h>
#include <string.h>

/* What stands before each block. */
struct header {
    void *base;
    size_t size;
};

/* How many blocks there are now; of a call, how many requests it made, and which of them is refused; and how many requests
   broke the rules. */
static size_t blocks, requests, refused, broken;

static char nowhere;

/* A block whose address is no multiple of 2 * `align`. */
static struct rattle_tried given(size_t size, size_t align)
{
    struct rattle_tried answer = {0, &nowhere};
    if (requests++ == refused)
        return answer;
    struct header header = {malloc(sizeof header + 2 * align + size), size};
    if (!header.base)
        return answer;
    uint8_t *block = (uint8_t *)header.base + sizeof header;
    while ((uintptr_t)block % (2 * align) != align)
        block++;
    memcpy(block - sizeof header, &header, sizeof header);
    memset(block, 0x5A, size);
    blocks++;
    answer.is_there = 1;
    answer.block = block;
    return answer;
}

static struct header header_of(void *block)
{
    struct header header;
    memcpy(&header, (uint8_t *)block - sizeof header, sizeof header);
    return header;
}

struct rattle_tried rattle_alloc(size_t size, size_t align)
{
    broken += align == 0 || align > 16 || (align & (align - 1));
    return given(size, align);
}

void rattle_dealloc(void *block)
{
    struct header header = header_of(block);
    memset(block, 0xA5, header.size);
    free(header.base);
    blocks--;
}

struct rattle_tried rattle_realloc(void *block, size_t kept, size_t size, size_t align)
{
    broken += kept > size || kept > header_of(block).size;
    struct rattle_tried answer = rattle_alloc(size, align);
    if (answer.is_there) {
        memcpy(answer.block, block, kept);
        rattle_dealloc(block);
    }
    return answer;
}

#define PACKAGE "[package]\nedition = \"2021\"\nname = \"p-q\"\n"
#define LIBRARY                                                                                                         \
    "[lib]\ncrate-type = [\"lib\"]\nedition = \"2021\"\nname = \"p_q\"\npath = \"src/lib.rs\"\nrequired-features = []\n\n"
#define VERSION "version = \"2.0.0\"\n"

static const char OWN[] = "[package]\nname = 'p-q'\nedition = '2021'\n", ROOT[] = "[workspace.package]\nversion = '2.0.0'\n",
                  MEMBER[] = "[package]\nname = 'p-q'\nedition = '2021'\nversion.workspace = true\n";

static const struct manifest_bytes SOURCES[] = {{(const uint8_t *)"lib.rs", 6}, {(const uint8_t *)"other.rs", 8}};
static const struct manifest_folder FOLDERS[] = {{{(const uint8_t *)".", 1}, {NULL, 0}, MANIFEST_NO_FAULT},
                                                 {{(const uint8_t *)"src", 3}, {SOURCES, 2}, MANIFEST_NO_FAULT}};

#define INLINE "package = {edition = '2021', name = 'p-q'}"
#define TABLE "\x08\x01\x07package\x08\x02\x07" "edition\x01\x04" "2021\x04name\x01\x03p-q"
#define BADGE "badges.gitlab = 1\npackage = {name = 'p-q'}"
/* (what is ignored, since no byte of it is zero) */
#define FOUND                                                                                                           \
    "\x07\x01\x07\x03\x02\x03\x01\x06" "badges\x07\x01\x07\x03\x02\x03\x01\x06gitlab\x07\x01\x07\x02\x02\x01\x02\x01"

/* What each kind of call answers. */
static const char *const TEXTS[] = {PACKAGE, LIBRARY PACKAGE, PACKAGE VERSION, LIBRARY PACKAGE VERSION,
                                    TABLE, TABLE, TABLE, FOUND, PACKAGE};

enum { CALLS = sizeof TEXTS / sizeof TEXTS[0] };

static struct manifest_answer made(int call, uint8_t *out, size_t room)
{
    const uint8_t *own = (const uint8_t *)OWN, *member = (const uint8_t *)MEMBER, *root = (const uint8_t *)ROOT;
    size_t length = sizeof OWN - 1, member_length = sizeof MEMBER - 1, root_length = sizeof ROOT - 1;
    switch (call) {
    case 0:
        return manifest_canonical(own, length, SIZE_MAX, out, room);
    case 1:
        return manifest_completed(own, length, FOLDERS, 2, SIZE_MAX, out, room);
    case 2:
        return manifest_resolved(member, member_length, root, root_length, SIZE_MAX, out, room);
    case 3:
        return manifest_resolved_completed(member, member_length, root, root_length, FOLDERS, 2, SIZE_MAX, out, room);
    case 4:
        return manifest_table(own, length, SIZE_MAX, out, room);
    case 5:
        return manifest_table_without_metadata(own, length, SIZE_MAX, out, room);
    case 6:
        return manifest_document((const uint8_t *)INLINE, sizeof INLINE - 1, SIZE_MAX, out, room);
    case 7:
        return manifest_findings((const uint8_t *)BADGE, sizeof BADGE - 1, SIZE_MAX, out, room);
    default:
        return manifest_canonical_of_table((const uint8_t *)TABLE, sizeof TABLE - 1, SIZE_MAX, out, room);
    }
}

/* Whether the call with this request refused gives its text, or says that there is no memory where one was refused. All
   blocks have to be given back, and no rule broken. */
static int is_answered(int call, size_t which)
{
    uint8_t out[256];
    requests = 0;
    refused = which;
    struct manifest_answer answer = made(call, out, sizeof out);
    int is_text = answer.status == MANIFEST_ACCEPTED && answer.length == strlen(TEXTS[call])
                  && !memcmp(out, TEXTS[call], answer.length);
    int is_memory = answer.length == 0 && (answer.status == MANIFEST_MEMORY
                    || (answer.status == MANIFEST_IO && answer.cause == MANIFEST_OUT_OF_MEMORY));
    return (is_text || (is_memory && requests > which)) && blocks == 0 && broken == 0;
}

int main(void)
{
    int failed = 0;
    for (int call = 0; call < CALLS; call++) {
        int is_right = is_answered(call, SIZE_MAX) && requests > 0;
        for (size_t i = 0, all = requests; i < all; i++)
            is_right = is_answered(call, i) && is_right;
        failed += !is_right;
        if (!is_right)
            printf("call %d over a heap of the program's own is not answered as wanted\n", call + 1);
    }
    printf("%d passed, %d failed\n", CALLS - failed, failed);
    return failed != 0;
}
