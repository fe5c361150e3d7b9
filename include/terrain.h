/* The functions of libterrain.a, which `.ci/archive` writes to target/staticlib.
 * A slice is a pointer and a count of its elements; an empty one may have any pointer that is not null. What is lent to be written must not overlap anything else that is lent.
 * Every function is total: each bit pattern has an answer. None allocates, keeps a state or stops the program.
 * No call keeps a pointer. Words and numbers of 32 bits are aligned to 4 bytes, heights and numbers of 16 bits to 2, as C aligns a uint32_t and an int16_t, and to no more; bytes (arena, delivery, pack) may lie anywhere. The archive is for x86-64 Linux, and of the C library it calls memcpy and memset alone. On the drive
 * that hosts/run measures terrain_step takes 22 KB of stack, terrain_deliver and terrain_step_from 40 KB and terrain_ahead 20 KB (kit 13f).
 *
 * The numbers that refuse a call:
 *   1 a read was missed                       8 a point beyond 360 degrees, a figure not finite, a heading beyond 360
 *   2 a read passes the pack's end            9 a key outside the grid
 *   3 a header rule is broken                10 a start outside its tile
 *   4 a CRC, a tile rule, a bad entry        11 a delivery that no open fetch fits
 *   5 a tile is neither ready nor missing    12 a state, header, count or arena that can't be
 *   6 the start's tile is missing or another 13 what a tile or a pack is to be made of breaks a reader's rule
 *   7 an index past the tile                 14 the output is too short, or a total passes 32 bits
 * Structs have tags and no other names, so that a function and a struct may share one. */
#ifndef TERRAIN_H
#define TERRAIN_H

#include <stdbool.h>
#include <stddef.h>
#include <stdint.h>

#ifdef __cplusplus
extern "C" {
#endif

/* ---- The engine.
 * A host keeps the engine's state, TERRAIN_WORDS words, and an arena of 8,192 bytes a page, at most 96 pages, and lends both to every call; the arena's bytes and count
 * stay the same but for what deliver and step_from write. A host gives a fix for each fix of its receiver and calls step often. A step that answers TERRAIN_FETCH asks for
 * `len` bytes of the pack from `offset` on: the host reads them and calls deliver with failure 0 and the bytes, or with failure 1 (the read missed) or 2 (past the pack's end) and
 * none, and is answered how that step ended; until then a step repeats the fetch. TERRAIN_WORKING means more to do; idle, off the map and no pack mean nothing to do until the next fix or reset. Where the whole pack is in
 * memory, step_from does both halves. Words and arena are all that an engine is: stored after any call, also while a fetch is open, and lent again in another process or at other
 * addresses, they answer what they would have answered.
 *
 * The state in words, one number a word, in the order given here; a 64-bit number is two words, the low one first; a signed number is in two's complement, a float its bits, with
 * 0x7fc00000 for not-a-number; false is 0 and true 1. A key is row * 65,536 + col. An enum is its tag, 0 for the first variant, and its fields, 0 where the variant has none.
 *       0  the layout's version, 1
 *       1  phase: 0 unread, 1 ready, 2 failed
 *       2  header, 13: tile, south, west, rows, cols, directory, data, total, tiles, created (2), attribution offset, attribution length
 *      15  96 slots of 3: has key + 2 * ready + 4 * part, part 0 for a first page and h + 1 for a page of the run from page h on; key, or 0; length
 *     303  96 ages: when each page was last used
 *     399  count of pages, clock
 *     401  64 missing tiles of 2: tag, key
 *     529  the next place among them
 *     530  load, 6: tag, key, slot, offset, length, done
 *     536  open fetch, 2: 0 none, 1 header, 2 entry, 3 chunk; key of an entry
 *     538  loads
 *     539  fix, 5: tag, lat, lon, time (2)
 *     544  16 places of 2: lat, lon;  576 how many
 *     577  heading, 2: tag, degrees;  579 its time (2)
 *     581  match, 14: tag, key, crc, edges, edge, segment, fraction, forward (0 unknown, 1 back, 2 ahead), offset_m, z_dm, class, flags, confidence, ridden_m
 *     595  challenger, 6: tag, key, crc, edges, edge, count
 *     601  misses, run_from_m
 *     603  due, 8: matching, road, last road (tag, time (2)), need (tag, key), reloads
 *     611  road: generation, time (2);  614 its match, 14;  628 start_z_dm
 *     629  501 heights ahead;  1,130 how many;  1,131 11 heights behind;  1,142 how many, behind_m, end, end_m, confidence
 *   1,147  failures, horizon_m, steps
 * Words that no engine has (another version, a number above its field, an unknown tag, another not-a-number, a field of a variant that has none) are refused with 12. A refused call
 * of the engine changes nothing that is lent. A height of 16 bits is a word with its sign in all upper bits. */
#define TERRAIN_WORDS 1150
struct terrain_engine { uint32_t words[TERRAIN_WORDS]; };

/* The most bytes that a fetch asks for. */
#define TERRAIN_FETCH_MOST 2048

#define TERRAIN_IDLE 0u
#define TERRAIN_WORKING 1u
#define TERRAIN_NO_PACK 2u
#define TERRAIN_OFF_MAP 3u
#define TERRAIN_FETCH 4u
#define TERRAIN_REFUSED 5u

#define TERRAIN_HORIZON 0u
#define TERRAIN_FORK 1u
#define TERRAIN_DEAD_END 2u
#define TERRAIN_MAP_EDGE 3u
#define TERRAIN_UNCERTAIN 4u
#define TERRAIN_MEMORY 5u

/* Latitude and longitude in 1e-6 degrees, and a time in milliseconds. */
struct terrain_fix_given {
    int32_t lat;
    int32_t lon;
    uint64_t at_ms;
};

/* How a step ended: the refusal's number or 0, the status, and the read that a fetch asks for. */
struct terrain_step_told {
    uint32_t number;
    uint32_t status;
    uint64_t offset;
    uint64_t len;
};

/* A match; all zeros with `matched` 0 where there is none. `forward` is 0 unknown, 1 back, 2 ahead. */
struct terrain_match_told {
    uint32_t matched;
    uint16_t row;
    uint16_t col;
    uint32_t crc;
    uint16_t edges;
    uint16_t edge;
    uint16_t segment;
    float fraction;
    uint32_t forward;
    float offset_m;
    int32_t z_dm;
    uint8_t road_class;
    uint8_t flags;
    uint8_t confidence;
    float ridden_m;
};

/* The road ahead as of the fix at at_ms: heights every 20 m in decimetres over start_z_dm, `len` of them, to `end_m` metres, and why there are no more (`end`); those of the road just
 * ridden, `behind_len` of them, the last at `behind_m`; how sure it is, 0 to 100. `generation` is one more with every new result, `on_road` 1 where there is a match and more than one height. */
struct terrain_ahead_told {
    uint32_t number;
    uint32_t generation;
    uint64_t at_ms;
    struct terrain_match_told matched;
    int32_t start_z_dm;
    int16_t samples[501];
    size_t len;
    int16_t behind[11];
    size_t behind_len;
    float behind_m;
    uint32_t end;
    float end_m;
    uint8_t confidence;
    uint32_t on_road;
};

/* The pack's header; all zeros with `known` 0 until it was read. */
struct terrain_header_told {
    uint32_t number;
    uint32_t known;
    uint32_t tile;
    int32_t south;
    int32_t west;
    uint16_t rows;
    uint16_t cols;
    uint32_t directory;
    uint32_t data;
    uint32_t total;
    uint32_t tiles;
    uint64_t created;
    uint32_t attribution_offset;
    uint32_t attribution_len;
};

struct terrain_heading_told {
    uint32_t number;
    uint32_t known;
    float degrees;
};

struct terrain_count_told {
    uint32_t number;
    uint32_t count;
};

/* A new engine over the arena, which follows the road for `horizon_m`, at most 10 km. */
void terrain_new(struct terrain_engine *engine, const uint8_t *arena, size_t arena_len, float horizon_m);

/* A fix of 1e-7 degrees, cut toward zero. */
struct terrain_fix_given terrain_from_e7(int32_t lat_e7, int32_t lon_e7, uint64_t at_ms);

/* A new fix: 0, 8, 12. The fixes stopped; the pack was written anew: 0, 12. */
uint32_t terrain_fix(struct terrain_engine *engine, const uint8_t *arena, size_t arena_len, int32_t lat, int32_t lon, uint64_t at_ms);
uint32_t terrain_lost(struct terrain_engine *engine, const uint8_t *arena, size_t arena_len);
uint32_t terrain_reset(struct terrain_engine *engine, const uint8_t *arena, size_t arena_len);

/* One bounded unit of work: 0, 12. The open fetch answered: 0, 11, 12. Both over a pack in memory: 0, 12. */
struct terrain_step_told terrain_step(struct terrain_engine *engine, const uint8_t *arena, size_t arena_len);
struct terrain_step_told terrain_deliver(struct terrain_engine *engine, uint8_t *arena, size_t arena_len, uint32_t failure, const uint8_t *bytes, size_t len);
struct terrain_step_told terrain_step_from(struct terrain_engine *engine, uint8_t *arena, size_t arena_len, const uint8_t *pack, size_t pack_len);

/* What is held: 0, 12. The road ahead as it was published last; the pack's header; the bearing of travel; tiles read and steps that did work since start. */
struct terrain_ahead_told terrain_ahead(const struct terrain_engine *engine, const uint8_t *arena, size_t arena_len);
struct terrain_header_told terrain_header(const struct terrain_engine *engine, const uint8_t *arena, size_t arena_len);
struct terrain_heading_told terrain_heading(const struct terrain_engine *engine, const uint8_t *arena, size_t arena_len);
struct terrain_count_told terrain_loads(const struct terrain_engine *engine, const uint8_t *arena, size_t arena_len);
struct terrain_count_told terrain_steps(const struct terrain_engine *engine, const uint8_t *arena, size_t arena_len);

/* ---- The leaves. */

/* CRC-32 of ITU-T V.42; the second with the four bytes at `at` read as zero, those of them that there are. */
uint32_t terrain_crc32(const uint8_t *bytes, size_t len);
uint32_t terrain_crc32_skipping(const uint8_t *bytes, size_t len, size_t at);

/* Whole numbers and doubles to single floats, to nearest, ties to even. */
float terrain_f32_of_i32(int32_t z);
float terrain_f32_of_u32(uint32_t n);
float terrain_f32_of_usize(size_t n);
float terrain_f32_of_f64(double x);

/* Single floats to whole numbers: toward zero, held to the range of the name's type, not-a-number to 0. */
int32_t terrain_i32_of_f32(float x);
uint32_t terrain_u32_of_f32(float x);
uint32_t terrain_u8_of_f32(float x);
int32_t terrain_i16_of_f32(float x);

/* The low 16 bits as a signed number; the 32 bits as an unsigned one. */
int32_t terrain_i16_of_i32(int32_t z);
uint32_t terrain_u32_of_i32(int32_t z);

/* min and max pass over not-a-number, clamp passes it on. total_cmp answers -1, 0 or 1 and has it last; is_finite answers 1 or 0. */
float terrain_min(float a, float b);
float terrain_max(float a, float b);
float terrain_clamp(float x, float lo, float hi);
float terrain_fabs(float x);
int32_t terrain_total_cmp(float a, float b);
uint32_t terrain_is_finite(float x);

/* The correctly rounded square root. */
float terrain_sqrt(float x);

/* ---- Answers and records.
 * Records go by value, as plain structs of the fields' own widths. An answer is a struct whose first field is a number: 0, and the result follows; the
 * refusal's; or TERRAIN_NONE where there is no result. In this section and the next ones the rest of the struct is zero where there is no result or the call is refused. */
#define TERRAIN_NONE 256u

/* The compass bearing of a vector in degrees: 8 for a figure that is not finite. */
struct terrain_degrees { uint32_t number; float degrees; };
struct terrain_degrees terrain_bearing(float east, float north);

/* Micrometres per micro-degree of longitude at a latitude in micro-degrees. */
uint32_t terrain_lon_scale_um(int32_t lat);

/* ---- The format. */

/* The header of a pack: tile side and south-west corner in micro-degrees, rows and columns of the grid, offsets of directory and data, bytes in all, tiles,
 * seconds since 1970 of the map data, and where the attribution stands. */
struct terrain_header {
    uint32_t tile;
    int32_t south, west;
    uint16_t rows, cols;
    uint32_t directory, data, total, tiles;
    uint64_t created;
    uint32_t attribution_offset, attribution_len;
};

/* A tile by grid row, from the south, and column, from the west. */
struct terrain_key { uint16_t row, col; };

/* A point in micro-degrees. */
struct terrain_point { int32_t lat, lon; };

/* A node of a tile: micro-degrees from its south-west corner, and fifths of a metre above -500 m. */
struct terrain_node { uint16_t x, y, z; };

struct terrain_edge {
    uint16_t from, to;
    uint32_t first_vertex;
    uint16_t vertices;
    uint8_t road_class, flags;
    uint16_t group;
};

struct terrain_range { uint32_t number; size_t at; };
struct terrain_header_parsed { uint32_t number; struct terrain_header header; };
struct terrain_keyed { uint32_t number; struct terrain_key key; };
struct terrain_origin { uint32_t number; int32_t south, west; };
struct terrain_offset { uint32_t number; uint64_t at; };
struct terrain_located { uint32_t number, offset, length; };

/* Where `len` bytes from `offset` on start in a pack: 2 where they pass its end. */
struct terrain_range terrain_pack_read(const uint8_t *pack, size_t pack_len, uint64_t offset, size_t len);

/* The header of a sector: 4 for its CRC, then 3. */
struct terrain_header_parsed terrain_header_parse(const uint8_t sector[512]);

/* The key of a point (12, 8) and of a row and a column (12), none outside the grid; a tile's south-west corner and the offset of its directory entry (12, 9);
 * the offset and length that an entry holds (12, 4), none where it has no tile. */
struct terrain_keyed terrain_header_key(struct terrain_header header, struct terrain_point point);
struct terrain_keyed terrain_header_checked(struct terrain_header header, int64_t row, int64_t col);
struct terrain_origin terrain_header_origin(struct terrain_header header, struct terrain_key key);
struct terrain_offset terrain_header_entry(struct terrain_header header, struct terrain_key key);
struct terrain_located terrain_header_locate(struct terrain_header header, const uint8_t entry[8]);

/* ---- A tile. */

struct terrain_tile_parsed {
    uint32_t number;
    struct terrain_key key;
    uint16_t nodes, edges;
    uint32_t vertices, lon_um;
};
struct terrain_node_read { uint32_t number; struct terrain_node node; };
struct terrain_edge_read { uint32_t number; struct terrain_edge edge; };
struct terrain_entries { uint32_t number, start, end; };
struct terrain_entry_read { uint32_t number; uint16_t edge; bool ends; };
struct terrain_found { uint32_t number; uint16_t index; };

/* What the head of a tile says, of bytes that are a tile of that key and tile side: 4. */
struct terrain_tile_parsed terrain_tile_parse(const uint8_t *bytes, size_t len, struct terrain_key key, uint32_t size);

/* Readers of a tile's bytes: 7 for an index past its count or a record that does not end within the bytes. A point number past an edge's vertices is its end node. The entries of a node are a range of
 * places, from `start` up to `end`; an entry is an edge and whether it ends there. */
struct terrain_node_read terrain_tile_node(const uint8_t *bytes, size_t len, uint16_t index);
struct terrain_edge_read terrain_tile_edge(const uint8_t *bytes, size_t len, uint16_t index);
struct terrain_node_read terrain_tile_point(const uint8_t *bytes, size_t len, struct terrain_edge edge, size_t index);
struct terrain_entries terrain_tile_incident(const uint8_t *bytes, size_t len, uint16_t node);
struct terrain_entry_read terrain_tile_entry(const uint8_t *bytes, size_t len, uint32_t entry);
struct terrain_found terrain_tile_node_at(const uint8_t *bytes, size_t len, uint16_t x, uint16_t y);

/* ---- The geometry. */

/* Metres east and north of an origin. */
struct terrain_metres { float east, north; };

struct terrain_edge_point { uint32_t number; struct terrain_point point; int32_t z_dm; };
struct terrain_metres_read { uint32_t number; struct terrain_metres metres; };
struct terrain_figure { uint32_t number; float value; };
struct terrain_projected_read { uint32_t number; float fraction, distance; };

/* A point of an edge, and its elevation in decimetres: 12, 9, 7. */
struct terrain_edge_point terrain_edge_point(struct terrain_header header, const uint8_t *bytes, size_t len, struct terrain_edge edge, size_t index);

/* Metres east and north of a point; the length of a vector; the turn between two headings; the fraction and distance of p on the segment a-b: 8. */
struct terrain_metres_read terrain_metres_from(struct terrain_point point, struct terrain_point origin, uint32_t lon_um);
struct terrain_figure terrain_length(float east, float north);
struct terrain_figure terrain_turn(float from, float to);
struct terrain_projected_read terrain_project(struct terrain_metres p, struct terrain_metres a, struct terrain_metres b);

/* An edge of a tile and a segment of it, which joins the edge's points of its number and the next, that meets the transect from one point to another, touching
 * included; none where no segment does. Which one is named where several meet it is open: 12, 8 for an end, 9 for the key, 4 for the tile's bytes. */
struct terrain_crossed { uint32_t number; uint16_t edge; uint32_t segment; };
struct terrain_crossed terrain_crossing(struct terrain_point first, struct terrain_point second, struct terrain_header header, struct terrain_key key, const uint8_t *bytes, size_t len);

/* ---- The parts by themselves: cache, matcher, road.
 * They work on the cache in an engine's words, with a header and a key that the caller gives; words that no engine has are refused with 12. A matcher is TERRAIN_MATCHER_WORDS words of its
 * own, laid out as those of an engine from word 581 on; other words are refused with 12. A match is given as it is told: 12 where `matched` is not 1 or `forward` none of 0, 1, 2. An answer that
 * may be one of several has its number and says which it is, 0 for the first; what belongs to another is zero. 7, 8, 9, 11 and 12 change nothing that is lent, but for heights that
 * terrain_predict had set before a lookup was refused; 5, 6 and 10 also move the clock and the ages of tiles found before, and a load that failed (1, 2, 4) drops the load. */
#define TERRAIN_MATCHER_WORDS 22
struct terrain_matcher { uint32_t words[TERRAIN_MATCHER_WORDS]; };

#define TERRAIN_READY 0u
#define TERRAIN_MISSING 1u
#define TERRAIN_ABSENT 2u

#define TERRAIN_SETTLED 0u
#define TERRAIN_READ 1u

#define TERRAIN_DONE 0u
#define TERRAIN_MORE 1u
#define TERRAIN_FAILED 2u

#define TERRAIN_FOUND 0u
#define TERRAIN_NOTHING 1u
#define TERRAIN_NEED 2u

#define TERRAIN_ROAD 0u
#define TERRAIN_ROAD_NEED 1u
#define TERRAIN_REMATCH 2u

struct terrain_count { uint32_t number; size_t count; };

/* TERRAIN_READY with the first page of the tile's run in the arena and the tile's length, TERRAIN_MISSING, TERRAIN_ABSENT; or 3, refused. */
struct terrain_lookup { uint32_t number, lookup; size_t first, len; };

/* TERRAIN_SETTLED, or TERRAIN_READ with offset and length; or 2, refused. */
struct terrain_request { uint32_t number, request; uint64_t offset; size_t len; };

/* TERRAIN_DONE: the tile is ready or known missing; TERRAIN_MORE; TERRAIN_FAILED with number 1 or 2 for the read and 4 for the entry; or 3, refused. */
struct terrain_progress { uint32_t number, progress; };

/* Pages in the arena, tiles read since start: 12. Pages that a ready tile takes, one for anything else: 12, 9. */
struct terrain_count terrain_cache_capacity(const struct terrain_engine *engine, const uint8_t *arena, size_t arena_len);
struct terrain_count terrain_cache_loads(const struct terrain_engine *engine, const uint8_t *arena, size_t arena_len);
struct terrain_count terrain_cache_pages(const struct terrain_engine *engine, const uint8_t *arena, size_t arena_len, struct terrain_header header, struct terrain_key key);

/* What the cache holds for a tile; a ready one is checked again, and is then the most recently used: 12, 9. */
struct terrain_lookup terrain_cache_get(struct terrain_engine *engine, const uint8_t *arena, size_t arena_len, struct terrain_header header, struct terrain_key key);

/* Drop everything, for a pack that changed: 0, 12. */
uint32_t terrain_cache_clear(struct terrain_engine *engine, const uint8_t *arena, size_t arena_len);

/* The read that the next step towards a tile makes: 12, 9. That step, with failure 0 and the bytes, or with failure 1 or 2 and none: 12, 11, 9. Both over a pack in memory: 12, 9. */
struct terrain_request terrain_cache_fetch(const struct terrain_engine *engine, const uint8_t *arena, size_t arena_len, struct terrain_header header, struct terrain_key key);
struct terrain_progress terrain_cache_load(struct terrain_engine *engine, uint8_t *arena, size_t arena_len, struct terrain_header header, struct terrain_key key, uint32_t failure, const uint8_t *bytes, size_t len);
struct terrain_progress terrain_cache_load_from(struct terrain_engine *engine, uint8_t *arena, size_t arena_len, struct terrain_header header, struct terrain_key key, const uint8_t *pack, size_t pack_len);

/* The tiles that a search around a fix needs, `len` of them: 12, 8. */
struct terrain_near { uint32_t number; size_t len; struct terrain_key keys[4]; };
struct terrain_near terrain_nearby(struct terrain_header header, struct terrain_point fix);

/* A heading that is given: none with `known` 0, degrees with 1; else 12. */
struct terrain_heading { uint32_t known; float degrees; };

struct terrain_current { uint32_t number; struct terrain_match_told matched; };

/* TERRAIN_FOUND with the match; TERRAIN_NOTHING, number TERRAIN_NONE; TERRAIN_NEED with the key of a tile that is to be loaded first, number 5; or 3, refused. */
struct terrain_updated { uint32_t number, outcome; struct terrain_match_told matched; struct terrain_key key; };

/* The words of a matcher that has matched nothing; the match as it stands, TERRAIN_NONE where there is none: 12; a fix matched: 12, 8. */
void terrain_matcher_reset(struct terrain_matcher *matcher);
struct terrain_current terrain_matcher_current(const struct terrain_matcher *matcher);
struct terrain_updated terrain_matcher_update(struct terrain_matcher *matcher, struct terrain_engine *engine, const uint8_t *arena, size_t arena_len, struct terrain_header header, struct terrain_point fix, struct terrain_heading heading);

/* TERRAIN_ROAD: heights written ahead and behind, metres to the last one behind, why the road ends and after how many metres, and how sure; TERRAIN_ROAD_NEED with the key of a tile that is
 * to be loaded first, number 5; TERRAIN_REMATCH, number 6; or 3, refused. */
struct terrain_predicted {
    uint32_t number, outcome;
    struct terrain_key key;
    size_t len, behind;
    float behind_m;
    uint32_t end;
    float end_m;
    uint8_t confidence;
};

/* The road from a match on, for up to `horizon_m`: 12, 9, 10. */
struct terrain_predicted terrain_predict(struct terrain_engine *engine, const uint8_t *arena, size_t arena_len, struct terrain_header header, struct terrain_match_told start, float horizon_m, int16_t samples[501], int16_t behind[11]);

/* ---- The printed page. */

/* Page `page`, from 0, of the printed profile of a road: `count` heights in decimetres, one every 20 m. `out` begins with the page, whose length is at most
 * TERRAIN_PAGE bytes; or 12 for more than 501 heights, 14 for an output that is too short for the page, and nothing is written. */
#define TERRAIN_PAGE 2091
struct terrain_printed { uint32_t number; size_t length; };
struct terrain_printed terrain_profile_page(const int16_t *samples, size_t count, uint32_t page, uint8_t *out, size_t room);

/* ---- The writer. Made for a tool beside the engine: a pack is written whole, into one output that the caller lends. terrain_write_pack takes 266 KB of stack, 262,144 bytes of
 * it marks of keys, terrain_write_tile of a tile with 400 nodes 1 KB (kit 13f). Up to 262,144 places of the grid, or with tiles in row order, the time grows as tiles, their bytes and places do. */

/* How many bytes were written; or the refusal's number, and 0. A refusal leaves all of `out` as it was, and a result what lies past it. */
struct terrain_written { uint32_t number, length; };

/* The tile of a key made of its records, for a pack of that tile side. Nodes and vertices are three numbers each: x, y, z; edges seven: from, to, first vertex, vertices, class, flags,
 * group; the counts are of numbers. 13 for records that a reader would refuse: not whole ones, `lon_um` 0, a node outside the side or before the one above it by y, then x, an edge's node
 * or vertex that is not there, a number that its field can't hold, more than 49,152 bytes in all; then 14 for an output that is too short. */
struct terrain_written terrain_write_tile(struct terrain_key key, uint32_t size, uint32_t lon_um, const uint16_t *nodes, size_t nodes_len, const uint32_t *edges, size_t edges_len, const uint16_t *vertices, size_t vertices_len, uint8_t *out, size_t out_len);

/* A pack made of a grid (south-west corner, tile side, rows and columns) and finished tiles, whose bytes stand one after the other in `tiles`, the length of each in `lengths`, in
 * any order; the key of a tile is the one in its bytes. 13 for a grid that a header can't have, lengths that do not make up the bytes, a tile that a reader would refuse, a key outside the grid or
 * given twice; then 14 for an output that is too short or a total past 32 bits. */
struct terrain_written terrain_write_pack(int32_t south, int32_t west, uint32_t size, uint16_t rows, uint16_t cols, const uint8_t *tiles, size_t tiles_len, const uint32_t *lengths, size_t lengths_len, uint8_t *out, size_t out_len);

#ifdef __cplusplus
}
#endif

#endif
