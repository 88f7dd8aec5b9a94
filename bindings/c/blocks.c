/* Asks the heap functions of the library for blocks as the library does, at random from a seed and from four threads at
   once, and sees that each block is aligned, keeps its bytes, and overlaps no other: each is filled with a byte of its own,
   which is compared before it is given back or made larger or smaller. */
#include "cargo_manifest.h"

#include <pthread.h>
#include <stdio.h>
#include <string.h>

enum { BLOCKS = 400, STEPS = 30000, THREADS = 4, ROUNDS = 3 };

struct block {
    uint8_t *at;
    size_t size;
    uint8_t byte;
};

struct run {
    uint64_t seed;
    struct block blocks[BLOCKS];
    long failed;
};

static size_t next(struct run *run, size_t below)
{
    run->seed = run->seed * 6364136223846793005u + 1442695040888963407u;
    return (size_t)(run->seed >> 33) % below;
}

/* Sizes about the limits between one kind of block and another come often; so do small ones, and none at all. */
static size_t size_of_next(struct run *run)
{
    static const size_t LIMITS[] = {0, 8, 24, 40, 376, 392, 504, 760, 1024, 4088, 4104, 16384, 65536, 131072};
    size_t limit = LIMITS[next(run, sizeof LIMITS / sizeof LIMITS[0])];
    size_t near = limit + next(run, 5);
    return next(run, 3) ? next(run, 200) : near >= 2 ? near - 2 : near;
}

/* Whether the first bytes of the block are those that it was filled with. */
static int is_kept(const struct block *block, size_t size)
{
    for (size_t i = 0; i < size; i++)
        if (block->at[i] != block->byte)
            return 0;
    return 1;
}

static void fill(struct run *run, struct block *block, struct rattle_tried tried, size_t size)
{
    run->failed += !tried.is_there || (uintptr_t)tried.block % 16 != 0;
    block->at = tried.block;
    block->size = size;
    block->byte = (uint8_t)next(run, 256);
    memset(block->at, block->byte, size);
}

static void drop(struct run *run, struct block *block)
{
    run->failed += !is_kept(block, block->size);
    rattle_dealloc(block->at);
    block->at = NULL;
}

/* One request of a random kind at a random place. */
static void step(struct run *run)
{
    struct block *block = &run->blocks[next(run, BLOCKS)];
    size_t size = size_of_next(run);
    if (!block->at) {
        fill(run, block, rattle_alloc(size, (size_t)1 << next(run, 5)), size);
    } else if (next(run, 3) == 0) {
        size_t kept = size < block->size ? size : block->size;
        struct rattle_tried tried = rattle_realloc(block->at, kept, size, 8);
        struct block moved = {tried.block, size, block->byte};
        run->failed += !tried.is_there || !is_kept(&moved, kept);
        fill(run, block, tried, size);
    } else {
        drop(run, block);
    }
}

/* Several times from no block to no block, as calls go. */
static void *all_steps(void *made)
{
    struct run *run = made;
    for (int round = 0; round < ROUNDS; round++) {
        for (int i = 0; i < STEPS / ROUNDS; i++)
            step(run);
        for (int i = 0; i < BLOCKS; i++)
            if (run->blocks[i].at)
                drop(run, &run->blocks[i]);
    }
    return NULL;
}

int main(void)
{
    static struct run runs[THREADS];
    pthread_t threads[THREADS];
    int failed = 0;
    for (int i = 0; i < THREADS; i++) {
        runs[i].seed = (uint64_t)i + 1;
        if (pthread_create(&threads[i], NULL, all_steps, &runs[i]))
            return 2;
    }
    for (int i = 0; i < THREADS; i++) {
        pthread_join(threads[i], NULL);
        failed += runs[i].failed != 0;
        if (runs[i].failed)
            printf("blocks of thread %d: %ld are not as they have to be\n", i + 1, runs[i].failed);
    }
    printf("%d passed, %d failed\n", THREADS - failed, failed);
    return failed != 0;
}
