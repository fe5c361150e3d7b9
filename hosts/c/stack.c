/* How deep the engine's calls get: each runs on a thread whose stack was filled with a pattern, over a drive with misses. stack PACK DRIVE K MOST
 * Exits with 1 where step or deliver takes more than MOST bytes. */
#include <inttypes.h>
#include <pthread.h>
#include <stdio.h>
#include <stdlib.h>
#include <string.h>

#include "terrain.h"

#define PAGES 24
#define CHUNK 2048
#define STACK (1024 * 1024)
#define PATTERN 0xa5

static struct terrain_engine engine, whole;
static uint8_t arena[PAGES * 8192], whole_arena[PAGES * 8192];
static uint8_t pack[1 << 24], chunk[CHUNK];
static uint8_t *stack;
static size_t pack_len, deepest;
static uint32_t failure;
static struct terrain_step_told told;
static struct terrain_ahead_told ahead;

/* Bytes of the stack that were written below a place in the caller's frame. */
static void measure(const volatile uint8_t *top)
{
    size_t i = 0, depth;
    while (stack[i] == PATTERN)
        i++;
    depth = (size_t)((uintptr_t)top - (uintptr_t)&stack[i]);
    deepest = depth > deepest ? depth : deepest;
}

static void *step(void *unused)
{
    volatile uint8_t top = 0;
    told = terrain_step(&engine, arena, sizeof arena);
    measure(&top);
    return unused;
}

static void *deliver(void *unused)
{
    volatile uint8_t top = 0;
    told = terrain_deliver(&engine, arena, sizeof arena, failure, chunk, failure == 0 ? (size_t)told.len : 0);
    measure(&top);
    return unused;
}

/* An engine of its own, over the pack in memory. */
static void *step_from(void *unused)
{
    volatile uint8_t top = 0;
    told = terrain_step_from(&whole, whole_arena, sizeof whole_arena, pack, pack_len);
    measure(&top);
    return unused;
}

static void *read_ahead(void *unused)
{
    volatile uint8_t top = 0;
    ahead = terrain_ahead(&engine, arena, sizeof arena);
    measure(&top);
    return unused;
}

/* The deepest of a call, of those before and of this one. */
static size_t painted(void *(*call)(void *), size_t before)
{
    pthread_attr_t attributes;
    pthread_t thread;
    memset(stack, PATTERN, STACK);
    deepest = before;
    if (pthread_attr_init(&attributes) != 0 || pthread_attr_setstack(&attributes, stack, STACK) != 0 ||
        pthread_create(&thread, &attributes, call, NULL) != 0 || pthread_join(thread, NULL) != 0) {
        puts("stack: no thread could be made");
        exit(1);
    }
    pthread_attr_destroy(&attributes);
    return deepest;
}

int main(int count, char **words)
{
    size_t steps = 0, deliveries = 0, steps_from = 0, reads_ahead = 0, calls = 0, most;
    unsigned long reads = 0, every;
    int32_t lat, lon;
    uint64_t at_ms;
    FILE *file, *list;
    if (count != 5 || !(file = fopen(words[1], "rb")) || !(list = fopen(words[2], "r")) || !(stack = aligned_alloc(4096, STACK)))
        return puts("usage: stack PACK DRIVE K MOST"), 2;
    every = strtoul(words[3], NULL, 10);
    most = strtoul(words[4], NULL, 10);
    pack_len = fread(pack, 1, sizeof pack, file);
    terrain_new(&engine, arena, sizeof arena, 10000.0f);
    terrain_new(&whole, whole_arena, sizeof whole_arena, 10000.0f);
    while (fscanf(list, "%" SCNd32 " %" SCNd32 " %" SCNu64, &lat, &lon, &at_ms) == 3) {
        terrain_fix(&engine, arena, sizeof arena, lat / 10, lon / 10, at_ms);
        do {
            steps = painted(step, steps);
            calls++;
            if (told.status == TERRAIN_FETCH) {
                reads++;
                failure = every != 0 && reads % every == 0 ? 1 : told.offset + told.len <= pack_len ? 0 : 2;
                if (failure == 0)
                    memcpy(chunk, pack + told.offset, (size_t)told.len);
                deliveries = painted(deliver, deliveries);
            }
        } while (told.status == TERRAIN_WORKING);
        reads_ahead = painted(read_ahead, reads_ahead);
        terrain_fix(&whole, whole_arena, sizeof whole_arena, lat / 10, lon / 10, at_ms);
        do {
            steps_from = painted(step_from, steps_from);
        } while (told.status == TERRAIN_WORKING);
    }
    printf("stack: at most %zu bytes of terrain_step, %zu of terrain_deliver, %zu of terrain_step_from, %zu of terrain_ahead (%zu steps, %lu deliveries)\n",
           steps, deliveries, steps_from, reads_ahead, calls, reads);
    if (steps <= most && deliveries <= most)
        return 0;
    printf("stack: step and deliver may take %zu bytes\n", most);
    return 1;
}
