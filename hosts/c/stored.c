/* Makes a list of calls along a drive and prints each answer with the sums of all that is lent: stored FILE CALLS ODD PACK DRIVE [K].
 * With - for FILE one process makes all of them. Else words and arena are written to FILE after each call and read back before the next, and after CALLS calls the program ends with status 0;
 * started again it goes on from FILE, and ends with 1 where the list does. ODD, 0 to 15, moves what is lent: words by so many words, heights by so many heights, bytes by so many bytes.
 * PACK, DRIVE and K are those of drive.c. */
#include <inttypes.h>
#include <stdio.h>
#include <stdlib.h>
#include <string.h>

#include "terrain.h"

/* Few pages, so that tiles are evicted; fixes before which the fixes stop, and after which the pack is read anew. */
#define PAGES 2
#define LOST_BEFORE 5
#define RESET_AFTER 8

/* Of three fixes one is stepped over the whole pack in memory. */
#define WHOLE_EVERY 3
#define LONGEST (1 << 20)

enum call { NEW, FIX, STEP, STEP_FROM, DELIVER, AHEAD, HEADER, HEADING, COUNTS, LOOK, UPDATE, PREDICT, PAGE, FAR_FIX, LOST, RESET };

/* What the host keeps of its own: the next call, the fixes given and the reads made so far, and the open fetch. */
struct host { uint32_t next, fixes, reads, offset, len; };

static struct host host;
static uint32_t engine_room[TERRAIN_WORDS + 15], matcher_room[TERRAIN_MATCHER_WORDS + 15];
static uint8_t arena_room[PAGES * 8192 + 15], chunk_room[TERRAIN_FETCH_MOST + 15], whole_room[LONGEST + 15], page_room[TERRAIN_PAGE + 15];
static int16_t samples_room[501 + 15], behind_room[11 + 15];

/* What is lent, moved into its room. */
static struct terrain_engine *engine;
static struct terrain_matcher *matcher;
static uint8_t *arena, *chunk, *whole, *page;
static int16_t *samples, *behind;
static const size_t arena_len = (size_t)PAGES * 8192;
static FILE *pack;
static size_t whole_len;
static unsigned long every;

static void move_by(unsigned odd)
{
    engine = (struct terrain_engine *)(engine_room + odd);
    matcher = (struct terrain_matcher *)(matcher_room + odd);
    arena = arena_room + odd;
    chunk = chunk_room + odd;
    whole = whole_room + odd;
    page = page_room + odd;
    samples = samples_room + odd;
    behind = behind_room + odd;
}

static uint32_t bits(float x)
{
    uint32_t word;
    memcpy(&word, &x, sizeof word);
    return word;
}

static uint32_t sum(const void *bytes, size_t len)
{
    return terrain_crc32(bytes, len);
}

/* The bytes of a fetch: 0, or 1 where the read fails or is one that is missed, or 2 where it passes the file's end. */
static uint32_t read_chunk(void)
{
    host.reads++;
    if ((every != 0 && host.reads % every == 0) || fseek(pack, (long)host.offset, SEEK_SET) != 0)
        return 1;
    if (fread(chunk, 1, host.len, pack) == host.len)
        return 0;
    return ferror(pack) ? 1 : 2;
}

static void print_match(const struct terrain_match_told *m)
{
    printf(" %" PRIu32 " %u %u %" PRIx32 " %u %u %u %" PRIx32 " %" PRIu32 " %" PRIx32, m->matched, m->row, m->col, m->crc, m->edges, m->edge, m->segment, bits(m->fraction), m->forward, bits(m->offset_m));
    printf(" %" PRId32 " %u %u %u %" PRIx32, m->z_dm, m->road_class, m->flags, m->confidence, bits(m->ridden_m));
}

/* How the fix that was given last is stepped. */
static uint32_t stepping(void)
{
    return host.fixes % WHOLE_EVERY == 0 ? STEP_FROM : STEP;
}

/* What comes after a step: the read that it asks for, another step, or what is held. */
static uint32_t after(struct terrain_step_told told)
{
    printf(" %" PRIu32 " %" PRIu32 " %" PRIu64 " %" PRIu64, told.number, told.status, told.offset, told.len);
    host.offset = (uint32_t)told.offset;
    host.len = (uint32_t)told.len;
    if (told.status == TERRAIN_FETCH)
        return DELIVER;
    return told.status == TERRAIN_WORKING ? stepping() : AHEAD;
}

static uint32_t deliver(void)
{
    uint32_t failure = read_chunk();
    return after(terrain_deliver(engine, arena, arena_len, failure, chunk, failure == 0 ? host.len : 0));
}

static void print_ahead(void)
{
    struct terrain_ahead_told a = terrain_ahead(engine, arena, arena_len);
    printf(" %" PRIu32 " %" PRIu32 " %" PRIu64, a.number, a.generation, a.at_ms);
    print_match(&a.matched);
    printf(" %" PRId32 " %" PRIx32 " %u %" PRIx32 " %u", a.start_z_dm, sum(a.samples, sizeof a.samples), (unsigned)a.len, sum(a.behind, sizeof a.behind), (unsigned)a.behind_len);
    printf(" %" PRIx32 " %" PRIu32 " %" PRIx32 " %u %" PRIu32, bits(a.behind_m), a.end, bits(a.end_m), a.confidence, a.on_road);
}

static struct terrain_header header(void)
{
    struct terrain_header_told told = terrain_header(engine, arena, arena_len);
    struct terrain_header h;
    h.tile = told.tile, h.south = told.south, h.west = told.west, h.rows = told.rows, h.cols = told.cols;
    h.directory = told.directory, h.data = told.data, h.total = told.total, h.tiles = told.tiles, h.created = told.created;
    h.attribution_offset = told.attribution_offset, h.attribution_len = told.attribution_len;
    return h;
}

static void print_header(void)
{
    struct terrain_header h = header();
    printf(" %" PRIu32 " %" PRId32 " %" PRId32 " %u %u %" PRIu32 " %" PRIu32 " %" PRIu32 " %" PRIu32 " %" PRIu64, h.tile, h.south, h.west, h.rows, h.cols, h.directory, h.data, h.total, h.tiles, h.created);
}

static void print_heading(void)
{
    struct terrain_heading_told h = terrain_heading(engine, arena, arena_len);
    printf(" %" PRIu32 " %" PRIu32 " %" PRIx32, h.number, h.known, bits(h.degrees));
}

static void print_counts(void)
{
    struct terrain_count_told loads = terrain_loads(engine, arena, arena_len), steps = terrain_steps(engine, arena, arena_len);
    printf(" %" PRIu32 " %" PRIu32 " %" PRIu32 " %" PRIu32, loads.number, loads.count, steps.number, steps.count);
}

/* What the cache has of the first tile, and the read that it would make for it. */
static void look(void)
{
    struct terrain_key first = {0, 0};
    struct terrain_lookup l = terrain_cache_get(engine, arena, arena_len, header(), first);
    struct terrain_request r = terrain_cache_fetch(engine, arena, arena_len, header(), first);
    struct terrain_count pages = terrain_cache_pages(engine, arena, arena_len, header(), first);
    printf(" %" PRIu32 " %" PRIu32 " %u %u", l.number, l.lookup, (unsigned)l.first, (unsigned)l.len);
    printf(" %" PRIu32 " %" PRIu32 " %" PRIu64 " %u", r.number, r.request, r.offset, (unsigned)r.len);
    printf(" %" PRIu32 " %u", pages.number, (unsigned)pages.count);
}

/* The heights of the host's own as a printed page. */
static void print_page(void)
{
    struct terrain_printed p = terrain_profile_page(samples, 501, 0, page, TERRAIN_PAGE);
    printf(" %" PRIu32 " %u %" PRIx32, p.number, (unsigned)p.length, sum(page, p.length));
}

/* The matcher of the host's own, over the engine's cache. */
static void update(struct terrain_point fix)
{
    struct terrain_heading heading = {1, 30.0f};
    struct terrain_updated u = terrain_matcher_update(matcher, engine, arena, arena_len, header(), fix, heading);
    printf(" %" PRIu32 " %" PRIu32 " %u %u", u.number, u.outcome, u.key.row, u.key.col);
    print_match(&u.matched);
}

/* The road from that matcher's match on. */
static void predict(void)
{
    struct terrain_current start = terrain_matcher_current(matcher);
    struct terrain_predicted p = terrain_predict(engine, arena, arena_len, header(), start.matched, 5000.0f, samples, behind);
    printf(" %" PRIu32 " %" PRIu32 " %u %u %u %u", p.number, p.outcome, p.key.row, p.key.col, (unsigned)p.len, (unsigned)p.behind);
    printf(" %" PRIx32 " %" PRIu32 " %" PRIx32 " %u", bits(p.behind_m), p.end, bits(p.end_m), p.confidence);
}

/* The calls that read, one after the other; then the next fix, with the fixes lost or the pack read anew in between. */
static uint32_t after_reads(uint32_t call)
{
    if (call < FAR_FIX)
        return call + 1;
    if (call == FAR_FIX && host.fixes + 1 == LOST_BEFORE)
        return LOST;
    return call == FAR_FIX && host.fixes == RESET_AFTER ? RESET : FIX;
}

static void print_read(uint32_t call, struct terrain_point fix)
{
    switch (call) {
    case AHEAD: print_ahead(); break;
    case HEADER: print_header(); break;
    case HEADING: print_heading(); break;
    case COUNTS: print_counts(); break;
    case LOOK: look(); break;
    case UPDATE: update(fix); break;
    case PREDICT: predict(); break;
    case PAGE: print_page(); break;
    case FAR_FIX: printf(" %" PRIu32, terrain_fix(engine, arena, arena_len, 360000001, 0, 1)); break;
    case LOST: printf(" %" PRIu32, terrain_lost(engine, arena, arena_len)); break;
    default: printf(" %" PRIu32, terrain_reset(engine, arena, arena_len)); break;
    }
}

/* The fixes of a drive. */
static struct terrain_fix_given fixes[4096];
static uint32_t fix_count;

static void read_drive(FILE *list)
{
    int32_t lat, lon;
    uint64_t at_ms;
    while (fix_count < 4096 && fscanf(list, "%" SCNd32 " %" SCNd32 " %" SCNu64, &lat, &lon, &at_ms) == 3)
        fixes[fix_count++] = terrain_from_e7(lat, lon, at_ms);
}

static uint32_t give(void)
{
    struct terrain_fix_given fix = fixes[host.fixes++];
    printf(" %" PRIu32, terrain_fix(engine, arena, arena_len, fix.lat, fix.lon, fix.at_ms));
    return stepping();
}

static uint32_t begin(void)
{
    terrain_new(engine, arena, arena_len, 10000.0f);
    terrain_matcher_reset(matcher);
    return FIX;
}

/* The next call and the sums of what it leaves; whether there is another. */
static int call(void)
{
    uint32_t now = host.next;
    struct terrain_point fix = {0, 0};
    if (host.fixes > 0)
        fix.lat = fixes[host.fixes - 1].lat, fix.lon = fixes[host.fixes - 1].lon;
    printf("%" PRIu32, now);
    switch (now) {
    case NEW: host.next = begin(); break;
    case FIX: host.next = give(); break;
    case STEP: host.next = after(terrain_step(engine, arena, arena_len)); break;
    case STEP_FROM: host.next = after(terrain_step_from(engine, arena, arena_len, whole, whole_len)); break;
    case DELIVER: host.next = deliver(); break;
    default: print_read(now, fix), host.next = after_reads(now); break;
    }
    printf(" | %" PRIx32 " %" PRIx32 " %" PRIx32, sum(engine->words, sizeof engine->words), sum(matcher->words, sizeof matcher->words), sum(arena, arena_len));
    printf(" %" PRIx32 " %" PRIx32 "\n", sum(samples, 501 * sizeof *samples), sum(behind, 11 * sizeof *behind));
    return host.next != FIX || host.fixes < fix_count;
}

/* Everything that is kept, from a file or into one; whether all of it went. */
static int all(FILE *file, size_t (*go)(void *, size_t, size_t, FILE *))
{
    return go(&host, sizeof host, 1, file) == 1 && go(engine->words, sizeof engine->words, 1, file) == 1
        && go(matcher->words, sizeof matcher->words, 1, file) == 1 && go(arena, arena_len, 1, file) == 1
        && go(samples, 501 * sizeof *samples, 1, file) == 1 && go(behind, 11 * sizeof *behind, 1, file) == 1;
}

static size_t put(void *from, size_t size, size_t count, FILE *file)
{
    return fwrite(from, size, count, file);
}

/* Writes what is kept; then, or for `written` 0 in its place, reads it from the file into what is empty. */
static int through(const char *name, int written)
{
    FILE *file = written ? fopen(name, "wb") : NULL;
    int gone = !written || (file && all(file, put));
    if (file && fclose(file) != 0)
        gone = 0;
    memset(engine, 0x55, sizeof *engine), memset(matcher, 0x55, sizeof *matcher), memset(arena, 0x55, arena_len);
    file = fopen(name, "rb");
    gone = gone && file && all(file, fread);
    if (file)
        fclose(file);
    return gone;
}

int main(int count, char **words)
{
    FILE *list;
    int more = 1, is_kept;
    unsigned long left;
    if (count < 6 || count > 7)
        return puts("stored: usage: stored FILE CALLS ODD PACK DRIVE [K]"), 2;
    is_kept = strcmp(words[1], "-") != 0;
    left = strtoul(words[2], NULL, 10);
    move_by((unsigned)strtoul(words[3], NULL, 10) % 16);
    pack = fopen(words[4], "rb");
    list = fopen(words[5], "r");
    if (!pack || !list)
        return printf("stored: can't read %s\n", words[pack ? 5 : 4]), 2;
    whole_len = fread(whole, 1, LONGEST, pack);
    every = count == 7 ? strtoul(words[6], NULL, 10) : 0;
    read_drive(list);
    /* No file, or an empty one, stands for a list that has not begun. */
    if (is_kept && !through(words[1], 0) && host.next != NEW)
        return puts("stored: the file is not whole"), 2;
    if (host.next == NEW)
        memset(arena, 0x33, arena_len);
    while (more && (!is_kept || left-- > 0)) {
        more = call();
        if (is_kept && !through(words[1], 1))
            return puts("stored: the file can't be kept"), 2;
    }
    fclose(list);
    fclose(pack);
    return more ? 0 : 1;
}
