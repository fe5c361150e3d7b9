/* Replays a stored list of calls and answers: replay LIST. It makes each call, prints for each group of records how many there were and how many agreed, then the number of the first that
 * did not, and of one that can't be read, at which it stops. Exits with 0 where all agree. docs/REPLAY.md has the list's format. */
#include <stdbool.h>
#include <stdio.h>
#include <string.h>

#include "terrain.h"

/* The longest payload; 18 pages, six for the road ahead beside the twelve that a road leaves free; the most records; the most words that are summed. */
#define ROOM 65536
#define ARENA (18 * 8192)
#define RECORDS 1000000
#define SUMMED TERRAIN_WORDS

/* What calls are made on. */
static struct terrain_engine engine;
static struct terrain_matcher matcher;
static struct terrain_header header;
static uint8_t arena[ARENA], pack[ROOM];
static size_t lent, pack_len;

/* The payload of the record at hand, and the words of an answer as they are put together. */
static uint8_t payload[ROOM];
static size_t payload_len;
static uint32_t answer[SUMMED];
static size_t answered;

/* ---- what a payload holds */

static uint32_t word_of(const uint8_t *bytes)
{
    return bytes[0] | (uint32_t)bytes[1] << 8 | (uint32_t)bytes[2] << 16 | (uint32_t)bytes[3] << 24;
}

/* Word i, 0 past the end. */
static uint32_t word(size_t i)
{
    return i < payload_len / 4 ? word_of(payload + 4 * i) : 0;
}

static int32_t signed_word(size_t i)
{
    uint32_t n = word(i);
    return n < 0x80000000u ? (int32_t)n : -1 - (int32_t)(0xffffffffu - n);
}

static uint64_t long_word(size_t i)
{
    return word(i) | (uint64_t)word(i + 1) << 32;
}

static float float_of(uint32_t pattern)
{
    float x;
    memcpy(&x, &pattern, sizeof x);
    return x;
}

static float float_word(size_t i)
{
    return float_of(word(i));
}

/* A float's pattern, of every not-a-number the same. */
static uint32_t bits(float x)
{
    uint32_t pattern;
    if (x != x)
        return 0x7fc00000u;
    memcpy(&pattern, &x, sizeof pattern);
    return pattern;
}

static struct terrain_key key_word(size_t i)
{
    struct terrain_key key = {(uint16_t)(word(i) >> 16), (uint16_t)word(i)};
    return key;
}

static struct terrain_point point_words(size_t i)
{
    struct terrain_point point = {signed_word(i), signed_word(i + 1)};
    return point;
}

static struct terrain_metres metres_words(size_t i)
{
    struct terrain_metres metres = {float_word(i), float_word(i + 1)};
    return metres;
}

/* The 13 words that begin a payload. */
static struct terrain_header header_words(void)
{
    struct terrain_header h = {word(0), signed_word(1), signed_word(2), (uint16_t)word(3), (uint16_t)word(4), word(5), word(6),
                               word(7), word(8), long_word(9), word(11), word(12)};
    return h;
}

/* A match by the 14 words that an engine has of it. */
static struct terrain_match_told match_words(void)
{
    struct terrain_key key = key_word(1);
    struct terrain_match_told m = {word(0), key.row, key.col, word(2), (uint16_t)word(3), (uint16_t)word(4), (uint16_t)word(5), float_word(6),
                                   word(7), float_word(8), signed_word(9), (uint8_t)word(10), (uint8_t)word(11), (uint8_t)word(12), float_word(13)};
    return m;
}

/* Bytes of the pack, by where they stand and how many: those of them that there are. */
struct part { const uint8_t *bytes; size_t len; };

static struct part part_of(const uint8_t *bytes, size_t len, size_t from, size_t count)
{
    struct part part = {bytes, 0};
    if (from < len) {
        part.bytes = bytes + from;
        part.len = len - from < count ? len - from : count;
    }
    return part;
}

/* ---- answers as words */

static void put(uint32_t n)
{
    if (answered < SUMMED)
        answer[answered++] = n;
}

static void put_long(uint64_t n)
{
    put((uint32_t)n);
    put((uint32_t)(n >> 32));
}

static void put_key(struct terrain_key key)
{
    put(key.row);
    put(key.col);
}

static void put_heights(const int16_t *heights, size_t count)
{
    size_t i;
    for (i = 0; i < count; i++)
        put((uint32_t)(int32_t)heights[i]);
}

static void put_match(struct terrain_match_told m)
{
    put(m.matched), put(m.row), put(m.col), put(m.crc), put(m.edges), put(m.edge), put(m.segment), put(bits(m.fraction));
    put(m.forward), put(bits(m.offset_m)), put((uint32_t)m.z_dm), put(m.road_class), put(m.flags), put(m.confidence), put(bits(m.ridden_m));
}

static void put_header(struct terrain_header h)
{
    put(h.tile), put((uint32_t)h.south), put((uint32_t)h.west), put(h.rows), put(h.cols), put(h.directory), put(h.data);
    put(h.total), put(h.tiles), put_long(h.created), put(h.attribution_offset), put(h.attribution_len);
}

/* The CRC-32 of words as bytes, the low one first. */
static uint32_t sum(const uint32_t *words, size_t count)
{
    static uint8_t bytes[4 * SUMMED];
    size_t i;
    for (i = 0; i < 4 * count; i++)
        bytes[i] = (uint8_t)(words[i / 4] >> 8 * (i % 4));
    return terrain_crc32(bytes, 4 * count);
}

/* Whether the words from word i of the payload on are those of the answer. */
static bool told_from(size_t i)
{
    size_t k;
    for (k = 0; k < answered; k++)
        if (word(i + k) != answer[k])
            return false;
    return true;
}

/* ---- leaves: two arguments and the answer, a word each */

static bool leaf_agrees(uint32_t kind)
{
    uint32_t a = word(0), b = word(1), expected = word(2);
    struct part bytes = part_of(pack, pack_len, a, b);
    switch (kind) {
    case 1: return bits(terrain_f32_of_i32(signed_word(0))) == bits(float_of(expected));
    case 2: return bits(terrain_f32_of_u32(a)) == bits(float_of(expected));
    case 3: return terrain_i32_of_f32(float_of(a)) == signed_word(2);
    case 4: return terrain_u32_of_f32(float_of(a)) == expected;
    case 5: return terrain_u8_of_f32(float_of(a)) == expected;
    case 6: return terrain_i16_of_f32(float_of(a)) == signed_word(2);
    case 7: return bits(terrain_sqrt(float_of(a))) == bits(float_of(expected));
    case 8: return terrain_lon_scale_um(signed_word(0)) == expected;
    case 9: return bits(terrain_min(float_of(a), float_of(b))) == bits(float_of(expected));
    case 10: return bits(terrain_max(float_of(a), float_of(b))) == bits(float_of(expected));
    case 11: return bits(terrain_fabs(float_of(a))) == bits(float_of(expected));
    case 12: return (uint32_t)(terrain_total_cmp(float_of(a), float_of(b)) + 1) == expected;
    case 13: return terrain_i16_of_i32(signed_word(0)) == signed_word(2);
    case 14: return terrain_crc32(bytes.bytes, bytes.len) == expected;
    default: return false;
    }
}

/* ---- the format: what is given, the answer's number and its words, and a tile's bytes */

static bool sector_agrees(void)
{
    struct terrain_header_parsed parsed;
    if (payload_len < 512)
        return false;
    parsed = terrain_header_parse(payload);
    put(parsed.number);
    put_header(parsed.header);
    return told_from(128);
}

static bool tile_agrees(void)
{
    struct terrain_key key = {(uint16_t)word(0), (uint16_t)word(1)};
    struct part bytes = part_of(payload, payload_len, 44, word(10));
    struct terrain_tile_parsed t = terrain_tile_parse(bytes.bytes, bytes.len, key, word(2));
    put(t.number), put_key(t.key), put(t.nodes), put(t.edges), put(t.vertices), put(t.lon_um);
    return told_from(3);
}

static bool key_agrees(void)
{
    struct terrain_keyed keyed = terrain_header_key(header_words(), point_words(13));
    put(keyed.number), put_key(keyed.key);
    return told_from(15);
}

static bool locate_agrees(void)
{
    struct terrain_located located;
    if (payload_len < 60)
        return false;
    located = terrain_header_locate(header_words(), payload + 52);
    put(located.number), put(located.offset), put(located.length);
    return told_from(15);
}

/* Both have one number. */
static bool origin_agrees(void)
{
    struct terrain_key key = {(uint16_t)word(13), (uint16_t)word(14)};
    struct terrain_origin origin = terrain_header_origin(header_words(), key);
    struct terrain_offset offset = terrain_header_entry(header_words(), key);
    put(origin.number), put((uint32_t)origin.south), put((uint32_t)origin.west), put_long(offset.at);
    return offset.number == origin.number && told_from(15);
}

static void put_node(struct terrain_node_read read)
{
    put(read.number), put(read.node.x), put(read.node.y), put(read.node.z);
}

/* Node, edge or point; an edge that is not there has no points. */
static bool record_agrees(void)
{
    struct part bytes = part_of(payload, payload_len, 48, word(11));
    uint16_t index = (uint16_t)word(1);
    struct terrain_edge_read read = terrain_tile_edge(bytes.bytes, bytes.len, index);
    struct terrain_edge e = read.edge;
    struct terrain_node_read none = {read.number, {0, 0, 0}};
    if (word(0) == 0)
        put_node(terrain_tile_node(bytes.bytes, bytes.len, index));
    else if (word(0) == 1)
        put(read.number), put(e.from), put(e.to), put(e.first_vertex), put(e.vertices), put(e.road_class), put(e.flags), put(e.group);
    else
        put_node(read.number == 0 ? terrain_tile_point(bytes.bytes, bytes.len, e, word(2)) : none);
    return told_from(3);
}

static bool metres_agrees(void)
{
    struct terrain_metres_read read = terrain_metres_from(point_words(0), point_words(2), word(4));
    put(read.number), put(bits(read.metres.east)), put(bits(read.metres.north));
    return told_from(5);
}

static bool figure_agrees(struct terrain_figure figure)
{
    put(figure.number), put(bits(figure.value));
    return told_from(2);
}

static bool project_agrees(void)
{
    struct terrain_projected_read read = terrain_project(metres_words(0), metres_words(2), metres_words(4));
    put(read.number), put(bits(read.fraction)), put(bits(read.distance));
    return told_from(6);
}

static bool format_agrees(uint32_t kind)
{
    switch (kind) {
    case 65: return sector_agrees();
    case 66: return tile_agrees();
    case 67: return key_agrees();
    case 68: return locate_agrees();
    case 69: return origin_agrees();
    case 70: return record_agrees();
    case 71: return metres_agrees();
    case 72: return figure_agrees(terrain_turn(float_word(0), float_word(1)));
    case 73: return project_agrees();
    case 74: return figure_agrees(terrain_length(float_word(0), float_word(1)));
    default: return false;
    }
}

/* ---- the state that calls are made on */

static uint32_t state(void)
{
    return sum(engine.words, TERRAIN_WORDS) ^ terrain_crc32(arena, lent);
}

static bool set_new(void)
{
    if (word(0) > ARENA)
        return false;
    lent = word(0);
    if (word(2) < 256)
        memset(arena, (int)word(2), lent);
    terrain_new(&engine, arena, lent, float_word(1));
    return state() == word(3);
}

static bool set_word(uint32_t *words, size_t count)
{
    if (word(0) >= count)
        return false;
    words[word(0)] = word(1);
    return true;
}

static bool set_byte(void)
{
    if (word(0) >= ARENA)
        return false;
    arena[word(0)] = (uint8_t)word(1);
    return true;
}

static bool set_pack(void)
{
    if (payload_len < 4 || word(0) > payload_len - 4)
        return false;
    pack_len = word(0);
    memcpy(pack, payload + 4, pack_len);
    return true;
}

static bool set_lent(void)
{
    if (word(0) > ARENA)
        return false;
    lent = word(0);
    return true;
}

static bool set_header(void)
{
    header = header_words();
    return payload_len == 52;
}

static bool set_agrees(uint32_t kind)
{
    switch (kind) {
    case 128: return set_new();
    case 129: return set_word(engine.words, TERRAIN_WORDS);
    case 130: return set_word(matcher.words, TERRAIN_MATCHER_WORDS);
    case 131: return set_byte();
    case 132: return set_pack();
    case 133: return set_lent();
    case 134: return set_header();
    default: return false;
    }
}

/* ---- calls of the engine */

static void put_step(struct terrain_step_told told)
{
    put(told.number), put(told.status), put_long(told.offset), put_long(told.len);
}

static void put_ahead(struct terrain_ahead_told a)
{
    put(a.number), put(a.generation), put_long(a.at_ms), put_match(a.matched), put((uint32_t)a.start_z_dm);
    put_heights(a.samples, 501), put_long(a.len), put_heights(a.behind, 11), put_long(a.behind_len);
    put(bits(a.behind_m)), put(a.end), put(bits(a.end_m)), put(a.confidence), put(a.on_road);
}

static void put_known(struct terrain_header_told h)
{
    struct terrain_header known = {h.tile, h.south, h.west, h.rows, h.cols, h.directory, h.data, h.total, h.tiles, h.created, h.attribution_offset, h.attribution_len};
    put(h.number), put(h.known), put_header(known);
}

static void put_heading(struct terrain_heading_told told)
{
    put(told.number), put(told.known), put(bits(told.degrees));
}

static void put_counted(struct terrain_count_told told)
{
    put(told.number), put(told.count);
}

static void call_engine(uint32_t kind)
{
    struct part bytes = part_of(pack, pack_len, word(1), word(2));
    switch (kind) {
    case 140: put(terrain_fix(&engine, arena, lent, signed_word(0), signed_word(1), long_word(2))); break;
    case 141: put(terrain_lost(&engine, arena, lent)); break;
    case 142: put(terrain_reset(&engine, arena, lent)); break;
    case 143: put_step(terrain_step(&engine, arena, lent)); break;
    case 144: put_step(terrain_deliver(&engine, arena, lent, word(0), bytes.bytes, bytes.len)); break;
    case 145: put_step(terrain_step_from(&engine, arena, lent, pack, pack_len)); break;
    case 146: put_ahead(terrain_ahead(&engine, arena, lent)); break;
    case 147: put_known(terrain_header(&engine, arena, lent)); break;
    case 148: put_heading(terrain_heading(&engine, arena, lent)); break;
    case 149: put_counted(terrain_loads(&engine, arena, lent)); break;
    case 150: put_counted(terrain_steps(&engine, arena, lent)); break;
    default: break;
    }
}

/* ---- calls of the parts */

static void put_count(struct terrain_count told)
{
    put(told.number), put_long(told.count);
}

static void put_lookup(struct terrain_lookup told)
{
    put(told.number), put(told.lookup), put_long(told.first), put_long(told.len);
}

static void put_request(struct terrain_request told)
{
    put(told.number), put(told.request), put_long(told.offset), put_long(told.len);
}

static void put_progress(struct terrain_progress told)
{
    put(told.number), put(told.progress);
}

static void put_near(struct terrain_near told)
{
    int i;
    put(told.number), put_long(told.len);
    for (i = 0; i < 4; i++)
        put_key(told.keys[i]);
}

static void put_current(struct terrain_current told)
{
    put(told.number), put_match(told.matched);
}

static void put_updated(struct terrain_updated told)
{
    put(told.number), put(told.outcome), put_match(told.matched), put_key(told.key);
}

/* A match, the horizon, and the height that fills both arrays before. */
static void predict(void)
{
    int16_t samples[501], behind[11], mark = (int16_t)terrain_i16_of_i32(signed_word(15));
    struct terrain_predicted told;
    size_t i;
    for (i = 0; i < 501; i++)
        samples[i] = mark;
    for (i = 0; i < 11; i++)
        behind[i] = mark;
    told = terrain_predict(&engine, arena, lent, header, match_words(), float_word(14), samples, behind);
    put(told.number), put(told.outcome), put_key(told.key), put_long(told.len), put_long(told.behind);
    put(bits(told.behind_m)), put(told.end), put(bits(told.end_m)), put(told.confidence);
    put_heights(samples, 501), put_heights(behind, 11);
}

static void call_part(uint32_t kind)
{
    struct part bytes = part_of(pack, pack_len, word(2), word(3));
    struct terrain_heading heading = {word(2), float_word(3)};
    switch (kind) {
    case 160: put_count(terrain_cache_capacity(&engine, arena, lent)); break;
    case 161: put_count(terrain_cache_loads(&engine, arena, lent)); break;
    case 162: put_count(terrain_cache_pages(&engine, arena, lent, header, key_word(0))); break;
    case 163: put_lookup(terrain_cache_get(&engine, arena, lent, header, key_word(0))); break;
    case 164: put_request(terrain_cache_fetch(&engine, arena, lent, header, key_word(0))); break;
    case 165: put_progress(terrain_cache_load(&engine, arena, lent, header, key_word(0), word(1), bytes.bytes, bytes.len)); break;
    case 166: put_progress(terrain_cache_load_from(&engine, arena, lent, header, key_word(0), pack, pack_len)); break;
    case 167: put(terrain_cache_clear(&engine, arena, lent)); break;
    case 168: put_near(terrain_nearby(header, point_words(0))); break;
    case 169: terrain_matcher_reset(&matcher); break;
    case 170: put_current(terrain_matcher_current(&matcher)); break;
    case 171: put_updated(terrain_matcher_update(&matcher, &engine, arena, lent, header, point_words(0), heading)); break;
    case 172: predict(); break;
    default: break;
    }
}

/* Whether the answer and the state after a call have the sums that end its payload. A call that answers nothing has 0. */
static bool call_agrees(uint32_t kind)
{
    size_t end = payload_len / 4;
    uint32_t after;
    if (end < 2)
        return false;
    if (kind < 160)
        call_engine(kind);
    else
        call_part(kind);
    after = state();
    if (kind >= 169 && kind <= 171)
        after ^= sum(matcher.words, TERRAIN_MATCHER_WORDS);
    return (answered == 0 ? 0 : sum(answer, answered)) == word(end - 2) && after == word(end - 1);
}

/* ---- the list */

static const char *const groups[] = {"leaves", "format", "states", "engine", "parts", "of no kind"};

static int group_of(uint32_t kind)
{
    return kind < 64 ? 0 : kind < 128 ? 1 : kind < 140 ? 2 : kind < 160 ? 3 : kind < 180 ? 4 : 5;
}

static bool agrees(uint32_t kind, int group)
{
    answered = 0;
    switch (group) {
    case 0: return leaf_agrees(kind);
    case 1: return format_agrees(kind);
    case 2: return set_agrees(kind);
    case 5: return false;
    default: return call_agrees(kind);
    }
}

/* The next record's kind, with its payload where it belongs; whether there is one. */
static bool next(FILE *list, uint32_t *kind)
{
    uint8_t head[8];
    if (fread(head, 1, sizeof head, list) != sizeof head)
        return false;
    *kind = word_of(head);
    payload_len = word_of(head + 4);
    return payload_len % 4 == 0 && payload_len <= sizeof payload && fread(payload, 1, payload_len, list) == payload_len;
}

int main(int count, char **words)
{
    unsigned long records[6] = {0}, agreed[6] = {0}, number = 0, first = 0, unread = 0;
    uint32_t kind;
    int group;
    FILE *list;
    if (count != 2 || !(list = fopen(words[1], "rb")))
        return puts("usage: replay LIST"), 2;
    while (number++ < RECORDS) {
        if (!next(list, &kind)) {
            unread = number;
            break;
        }
        if (kind == 0)
            break;
        group = group_of(kind);
        records[group]++;
        if (agrees(kind, group))
            agreed[group]++;
        else if (first == 0)
            first = number;
    }
    fclose(list);
    for (group = 0; group < 6; group++)
        if (records[group] != 0)
            printf("%s: %lu records, %lu agreed\n", groups[group], records[group], agreed[group]);
    if (first != 0)
        printf("record %lu is the first that did not agree\n", first);
    if (unread != 0)
        printf("record %lu can't be read\n", unread);
    return first != 0 || unread != 0;
}
