/* The memory that the library asks for, over malloc. The archive has the three functions at the end as weak symbols, so a
   program may bring its own in their place, by the rules that stand in cargo_manifest.h. Nothing is included: a compiler
   that has no headers of a C library compiles this too.

   A call makes many small blocks and gives all of them back before it ends. So small blocks are cut from chunks that malloc
   gave, and larger ones from the first chunk, where it has room. What is given back is kept for the next block of its size,
   but for the last one that was cut, which is cut off again, and may grow where it stands; with the last block of a thread all
   its chunks go back to free. Each thread has its own chunks, and a call runs in one thread. Blocks that are larger, or have no
   room, come from malloc one by one. */
typedef __SIZE_TYPE__ size_t;

void *malloc(size_t size);
void *realloc(void *block, size_t size);
void free(void *block);
void *memcpy(void *to, const void *from, size_t size);

struct rattle_tried {
    _Bool is_there;
    void *block;
};

/* A block is aligned to 16, and before it stand 8 bytes that say how many units of 16 it takes with them, or 0 for a block
   that malloc gave, which begins 16 bytes before it. Small blocks have each number of units; the larger ones that are cut from
   the first chunk, each multiple of a step. */
enum { UNIT = 16, HEADER = 8, SMALL_UNITS = 24, STEP = 16, MOST_UNITS = 256, FIRST_CHUNK = 1 << 16, LAST_CHUNK = 1 << 20 };

/* A block that is kept for the next one of its size, and a chunk: each begins with the place of another one, or null. */
struct linked {
    struct linked *next;
};

/* What a thread has: blocks that are kept, by their units, and the larger ones by their steps; what is left of the last chunk,
   from the header of a block on; the chunks, and how large the last one is; and how many blocks the library holds. */
struct heap {
    struct linked *kept[SMALL_UNITS + 1];
    struct linked *larger[MOST_UNITS / STEP - 1];
    char *at;
    size_t left;
    struct linked *chunks;
    size_t chunk;
    size_t blocks;
};

/* How a thread finds what it has: few bytes, and without a call, wherever the archive is linked into. scripts/build names
   another model for the shared library, which musl cannot load into a running program with this one. */
#ifndef HEAP_TLS_MODEL
#define HEAP_TLS_MODEL "initial-exec"
#endif

static _Thread_local __attribute__((tls_model(HEAP_TLS_MODEL))) struct heap heap;

/* Where there is no memory, the pointer is the one to this byte, since it must not be null. */
static char nowhere;

static struct rattle_tried tried(void *block)
{
    struct rattle_tried answer = {block != 0, block ? block : &nowhere};
    return answer;
}

/* How many units a block of this many bytes takes, or 0 where it comes from malloc. */
static size_t units_for(size_t size)
{
    if (size > MOST_UNITS * UNIT - HEADER)
        return 0;
    size_t units = (size + HEADER + UNIT - 1) / UNIT;
    return units <= SMALL_UNITS ? units : (units + STEP - 1) / STEP * STEP;
}

/* Where blocks of this many units are kept. */
static struct linked **kept_for(size_t units)
{
    return units <= SMALL_UNITS ? &heap.kept[units] : &heap.larger[units / STEP - 2];
}

static size_t *header_of(void *block)
{
    return (size_t *)((char *)block - HEADER);
}

/* Takes one more chunk from malloc, twice as large as the last one up to a limit. What was left of that one is lost. */
static _Bool add_chunk(void)
{
    size_t size = heap.chunk == 0 ? FIRST_CHUNK : heap.chunk < LAST_CHUNK ? 2 * heap.chunk : LAST_CHUNK;
    struct linked *chunk = malloc(size);
    if (!chunk)
        return 0;
    chunk->next = heap.chunks;
    heap.chunks = chunk;
    heap.chunk = size;
    /* (malloc aligns to 16, so the block after the first header is aligned too) */
    heap.at = (char *)chunk + UNIT - HEADER;
    heap.left = size - (UNIT - HEADER);
    return 1;
}

/* Whether this many units can be cut: larger blocks from the first chunk alone, small ones from each, and a new one. */
static _Bool has_room(size_t units)
{
    if (units <= SMALL_UNITS)
        return heap.left >= units * UNIT || add_chunk();
    return (heap.chunk != 0 || add_chunk()) && heap.chunk == FIRST_CHUNK && heap.left >= units * UNIT;
}

/* A block of this many units, or null. */
static void *cut(size_t units)
{
    struct linked **place = kept_for(units), *kept = *place;
    if (kept) {
        *place = kept->next;
        return kept;
    }
    if (!has_room(units))
        return 0;
    void *block = heap.at + HEADER;
    *header_of(block) = units;
    heap.at += units * UNIT;
    heap.left -= units * UNIT;
    return block;
}

/* Whether a block of this many units is the last one that was cut. */
static _Bool is_last(void *block, size_t units)
{
    return (char *)block - HEADER + units * UNIT == heap.at;
}

/* The block that begins after the header of what malloc or realloc gave. */
static void *large(char *given)
{
    if (!given)
        return 0;
    void *block = given + UNIT;
    *header_of(block) = 0;
    return block;
}

/* The library asks for less than half of what there are addresses for, so nothing here wraps around. */
static void *made(size_t size)
{
    size_t units = units_for(size);
    void *block = units ? cut(units) : 0;
    if (!block && (!units || units > SMALL_UNITS))
        block = large(malloc(size + UNIT));
    heap.blocks += block != 0;
    return block;
}

/* Gives all chunks back. */
static void clear(void)
{
    struct linked *chunk = heap.chunks;
    while (chunk) {
        struct linked *next = chunk->next;
        free(chunk);
        chunk = next;
    }
    heap = (struct heap){0};
}

__attribute__((weak)) struct rattle_tried rattle_alloc(size_t size, size_t align)
{
    /* (`align` is 16 at most) */
    (void)align;
    return tried(made(size));
}

__attribute__((weak)) void rattle_dealloc(void *block)
{
    size_t units = *header_of(block);
    if (!units) {
        free((char *)block - UNIT);
    } else if (is_last(block, units)) {
        heap.at -= units * UNIT;
        heap.left += units * UNIT;
    } else {
        struct linked **place = kept_for(units), *kept = block;
        kept->next = *place;
        *place = kept;
    }
    if (--heap.blocks == 0)
        clear();
}

/* Makes the last block larger where it stands, if there is room. */
static _Bool grows(void *block, size_t units, size_t wanted)
{
    size_t more = (wanted - units) * UNIT;
    if (!is_last(block, units) || heap.left < more || (wanted > SMALL_UNITS && heap.chunk != FIRST_CHUNK))
        return 0;
    *header_of(block) = wanted;
    heap.at += more;
    heap.left -= more;
    return 1;
}

__attribute__((weak)) struct rattle_tried rattle_realloc(void *block, size_t kept, size_t size, size_t align)
{
    (void)align;
    size_t units = *header_of(block), wanted = units_for(size);
    if (!units && (!wanted || wanted > SMALL_UNITS))
        return tried(large(realloc((char *)block - UNIT, size + UNIT)));
    if (units && wanted && (wanted <= units || grows(block, units, wanted)))
        return tried(block);
    void *moved = made(size);
    if (moved) {
        memcpy(moved, block, kept < size ? kept : size);
        rattle_dealloc(block);
    }
    return tried(moved);
}
