/* Drives an engine along a list of GPS fixes and prints what the program `drive` prints: drive PACK DRIVE [K].
 * PACK is a pack's file. A line of DRIVE has latitude and longitude in 1e-7 degrees and the time in milliseconds. With K every K-th read of the pack is
 * reported missed, as a card in the cold misses reads. */
#include <inttypes.h>
#include <stdio.h>
#include <stdlib.h>

#include "terrain.h"

/* Pages of the arena, and the most steps after one fix. */
#define PAGES 24
#define STEPS 65536

static struct terrain_engine engine;
static uint8_t arena[PAGES * 8192];
static FILE *pack;
static unsigned long every, reads;

static const char *const statuses[] = {"idle", "working", "no-pack", "off-map", "working", "refused"};
static const char *const ways[] = {"-", "back", "forward"};
static const char *const ends[] = {"horizon", "fork", "dead-end", "map-edge", "uncertain", "memory"};

/* The bytes of a fetch: 0, or 1 where the read fails, or 2 where it passes the file's end. */
static uint32_t read_at(uint64_t offset, uint8_t *buf, size_t len)
{
    reads++;
    if ((every != 0 && reads % every == 0) || fseek(pack, (long)offset, SEEK_SET) != 0)
        return 1;
    if (fread(buf, 1, len, pack) == len)
        return 0;
    return ferror(pack) ? 1 : 2;
}

/* Steps until one leaves nothing to do; each fetch is answered. */
static struct terrain_step_told settle(void)
{
    uint8_t chunk[TERRAIN_FETCH_MOST];
    struct terrain_step_told told = {0, TERRAIN_WORKING, 0, 0};
    long left;
    for (left = STEPS; left > 0 && told.status == TERRAIN_WORKING; left--) {
        told = terrain_step(&engine, arena, sizeof arena);
        if (told.status == TERRAIN_FETCH) {
            uint32_t failure = told.len <= sizeof chunk ? read_at(told.offset, chunk, (size_t)told.len) : 1;
            told = terrain_deliver(&engine, arena, sizeof arena, failure, chunk, failure == 0 ? (size_t)told.len : 0);
        }
    }
    return told;
}

static void print_fix(unsigned long number, uint32_t status)
{
    struct terrain_ahead_told a = terrain_ahead(&engine, arena, sizeof arena);
    printf("%lu %s ", number, statuses[status]);
    if (a.matched.matched) {
        unsigned dm = a.matched.offset_m < 6553.5f ? (unsigned)(a.matched.offset_m * 10.0f) : 65535u;
        printf("%u %u %u %s %u.%u ", a.matched.row, a.matched.col, a.matched.edge, ways[a.matched.forward], dm / 10, dm % 10);
    } else {
        printf("- - - - - ");
    }
    printf("%u %s %u\n", (unsigned)a.len, ends[a.end], a.confidence);
}

/* Metres ahead and rise in whole metres, halves away from zero. */
static void print_road(void)
{
    struct terrain_ahead_told a = terrain_ahead(&engine, arena, sizeof arena);
    size_t i;
    puts("distance rise");
    for (i = 0; i < a.len; i++)
        printf("%u %d\n", (unsigned)i * 20u, (a.samples[i] + (a.samples[i] < 0 ? -5 : 5)) / 10);
}

int main(int count, char **words)
{
    int32_t lat, lon;
    uint64_t at_ms;
    char line[80], rest;
    unsigned long number = 0;
    FILE *list;
    if (count < 3 || count > 4)
        return puts("drive: usage: drive PACK DRIVE [K]"), 2;
    pack = fopen(words[1], "rb");
    list = fopen(words[2], "r");
    if (!pack || !list)
        return printf("drive: can't read %s\n", words[pack ? 2 : 1]), 2;
    if (ungetc(fgetc(list), list) == EOF)
        return puts("drive: the drive has no fixes"), 1;
    every = count == 4 ? strtoul(words[3], NULL, 10) : 0;
    terrain_new(&engine, arena, sizeof arena, 10000.0f);
    puts("fix status row col edge way offset samples end confidence");
    while (fgets(line, sizeof line, list)) {
        struct terrain_fix_given fix;
        struct terrain_step_told told;
        number++;
        if (sscanf(line, "%" SCNd32 " %" SCNd32 " %" SCNu64 " %c", &lat, &lon, &at_ms, &rest) != 3)
            return printf("drive: line %lu is not latitude, longitude and time\n", number), 1;
        fix = terrain_from_e7(lat, lon, at_ms);
        told.status = TERRAIN_REFUSED;
        if (terrain_fix(&engine, arena, sizeof arena, fix.lat, fix.lon, fix.at_ms) == 0)
            told = settle();
        print_fix(number, told.status);
        if (told.status == TERRAIN_NO_PACK)
            return puts("drive: the pack is refused, or eight reads of it failed"), 1;
    }
    print_road();
    fclose(list);
    fclose(pack);
    return 0;
}
