/* What a call takes: makes one call of the library in a thread, and prints what it answers, and the stack, memory and time
   that it takes.

       bounds CALL MOST BYTES [ROOT] [FOLDERS]

   CALL is the name of a call without `manifest_`; BYTES, ROOT and FOLDERS are files. (What else a call takes is made: offsets
   of every eighth byte, and one edit, which inserts a key at the top.) Each line of FOLDERS is a path and the
   names in it, with tabs between. The line that is printed has seven numbers: the status, the length of the text, the bytes
   of stack below the call, the most bytes of memory that it has at once, the number of requests for memory, the bytes that it
   still has at the end, and the nanoseconds of the processor.

   The stack is filled with a byte before, and looked at after the call. The heap functions stand in the place of those of the
   archive, and count; they refuse the request of which the variable REFUSED has the number. */
#include "cargo_manifest.h"

#include <pthread.h>
#include <stdio.h>
#include <stdlib.h>
#include <string.h>
#include <time.h>

enum { STACK = 4 << 20, FILL = 0xA5, ROOM = 1 << 22 };

static size_t live, peak, requests, refused = SIZE_MAX;

struct rattle_tried rattle_alloc(size_t size, size_t align)
{
    struct rattle_tried answer = {0, &live};
    size_t *block = align <= 16 && requests++ != refused ? malloc(16 + size) : NULL;
    if (!block)
        return answer;
    *block = size;
    live += size;
    if (live > peak)
        peak = live;
    answer.is_there = 1;
    answer.block = block + 2;
    return answer;
}

void rattle_dealloc(void *block)
{
    size_t *begin = (size_t *)block - 2;
    live -= *begin;
    free(begin);
}

struct rattle_tried rattle_realloc(void *block, size_t kept, size_t size, size_t align)
{
    struct rattle_tried answer = rattle_alloc(size, align);
    if (answer.is_there) {
        memcpy(answer.block, block, kept);
        rattle_dealloc(block);
    }
    return answer;
}

struct file {
    uint8_t *at;
    size_t length;
};

static struct file bytes, root;
static struct manifest_folder *folders;
static size_t folders_length, most;
static uint8_t *out;
static const char *call;

static struct file contents(const char *path)
{
    FILE *file = fopen(path, "rb");
    struct file all = {NULL, 0};
    if (!file || fseek(file, 0, SEEK_END) || (all.length = (size_t)ftell(file), 0) || fseek(file, 0, SEEK_SET)
        || !(all.at = malloc(all.length + 1)) || fread(all.at, 1, all.length, file) != all.length)
        exit((fprintf(stderr, "%s is not read\n", path), 2));
    fclose(file);
    return all;
}

/* The folders that the lines of a file say. */
static void read_folders(struct file lines)
{
    size_t count = 0, parts = 0;
    for (size_t i = 0; i < lines.length; i++) {
        count += lines.at[i] == '\n';
        parts += lines.at[i] == '\t';
    }
    folders = calloc(count + 1, sizeof *folders);
    struct manifest_bytes *names = calloc(parts + 1, sizeof *names);
    uint8_t *begin = lines.at, *end = lines.at + lines.length;
    while (begin < end) {
        struct manifest_folder *folder = &folders[folders_length++];
        int is_path = 1;
        folder->names.at = names;
        for (uint8_t *at = begin;; at++)
            if (*at == '\t' || *at == '\n') {
                struct manifest_bytes part = {begin, (size_t)(at - begin)};
                if (is_path)
                    folder->path = part;
                else
                    *names++ = part, folder->names.length++;
                is_path = 0;
                begin = at + 1;
                if (*at == '\n')
                    break;
            }
    }
}

#define ON_BYTES(name)                                                                                                   \
    if (!strcmp(call, #name))                                                                                            \
        return manifest_##name(bytes.at, bytes.length, most, out, ROOM)
#define OVER_FOLDERS(name)                                                                                               \
    if (!strcmp(call, #name))                                                                                            \
        return manifest_##name(bytes.at, bytes.length, folders, folders_length, most, out, ROOM)
#define OF_ROOT(name)                                                                                                    \
    if (!strcmp(call, #name))                                                                                            \
        return manifest_##name(bytes.at, bytes.length, root.at, root.length, most, out, ROOM)
#define OF_BOTH(name)                                                                                                    \
    if (!strcmp(call, #name))                                                                                            \
        return manifest_##name(bytes.at, bytes.length, root.at, root.length, folders, folders_length, most, out, ROOM)

/* The positions of every eighth byte. */
static struct manifest_answer positions(void)
{
    size_t count = bytes.length / 8, *offsets = malloc((count + 1) * sizeof *offsets);
    if (!offsets)
        exit(2);
    for (size_t i = 0; i < count; i++)
        offsets[i] = 8 * i;
    return manifest_positions(bytes.at, bytes.length, offsets, count, most, out, ROOM);
}

/* The text with a new key at its top. */
static struct manifest_answer edited(void)
{
    const struct manifest_step step = {{(const uint8_t *)"new", 3}, 0, 0};
    const struct manifest_edit edit = {{&step, 1}, {(const uint8_t *)"1", 1}, MANIFEST_INSERT};
    return manifest_edited(bytes.at, bytes.length, &edit, 1, 0, most, out, ROOM);
}

/* Everything that is wrong, with the root and the folders around it. */
static struct manifest_answer diagnostics(void)
{
    struct manifest_check_request request = {0};
    request.bytes.at = bytes.at, request.bytes.length = bytes.length;
    request.root.at = root.at, request.root.length = root.length;
    request.folders.at = folders, request.folders.length = folders_length;
    request.most = most;
    request.has_root = root.at ? MANIFEST_IS : MANIFEST_UNKNOWN;
    request.has_folders = folders_length > 0;
    request.publishes = 1;
    return manifest_diagnostics(request, out, ROOM);
}

static struct manifest_answer called(void)
{
    if (!strcmp(call, "diagnostics"))
        return diagnostics();
    if (!strcmp(call, "positions"))
        return positions();
    if (!strcmp(call, "edited"))
        return edited();
    ON_BYTES(canonical);
    ON_BYTES(table);
    ON_BYTES(table_without_metadata);
    ON_BYTES(document);
    ON_BYTES(findings);
    ON_BYTES(placed_findings);
    ON_BYTES(canonical_of_table);
    OVER_FOLDERS(completed);
    OVER_FOLDERS(completed_table);
    OVER_FOLDERS(completed_of_table);
    OVER_FOLDERS(placed_unfound_targets);
    OF_ROOT(resolved);
    OF_ROOT(resolved_table);
    OF_ROOT(resolved_of_tables);
    OF_ROOT(placed_refusals);
    OF_BOTH(resolved_completed);
    OF_BOTH(resolved_completed_table);
    exit((fprintf(stderr, "there is no call %s\n", call), 2));
}

static uint8_t *stack;
static size_t top;
static struct manifest_answer answer;
static long long took;

static void *work(void *unused)
{
    uint8_t here = 0;
    struct timespec began, ended;
    top = (size_t)(&here - stack);
    clock_gettime(CLOCK_THREAD_CPUTIME_ID, &began);
    answer = called();
    clock_gettime(CLOCK_THREAD_CPUTIME_ID, &ended);
    took = (ended.tv_sec - began.tv_sec) * 1000000000LL + (ended.tv_nsec - began.tv_nsec);
    return unused;
}

int main(int count, char **words)
{
    pthread_attr_t attributes;
    pthread_t thread;
    size_t unused = 0;
    if (count < 4 || count > 6)
        return 2;
    call = words[1];
    most = strtoull(words[2], NULL, 10);
    if (getenv("REFUSED"))
        refused = strtoull(getenv("REFUSED"), NULL, 10);
    bytes = contents(words[3]);
    if (count > 4)
        root = contents(words[4]);
    if (count > 5)
        read_folders(contents(words[5]));
    out = malloc(ROOM);
    stack = aligned_alloc(1 << 16, STACK);
    if (!out || !stack)
        return 2;
    memset(stack, FILL, STACK);
    if (pthread_attr_init(&attributes) || pthread_attr_setstack(&attributes, stack, STACK)
        || pthread_create(&thread, &attributes, work, NULL) || pthread_join(thread, NULL))
        return 2;
    while (stack[unused] == FILL)
        unused++;
    printf("%d %zu %zu %zu %zu %zu %lld\n", answer.status, answer.length, top - unused, peak, requests, live, took);
    return 0;
}
