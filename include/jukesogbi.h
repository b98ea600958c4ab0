/* Jukesogbi: driving times and ways over a gridded road network. The proved core's calls for C.
 *
 * A call never fails in another way than by a refusal: it hands back the number of the first rule broken (below), or 0. Nothing is asked of the
 * arguments but that each pointer is to as many bytes or words as the length beside it says (with a length of 0 it may be null), that `work` and `starts`
 * and `ends` are aligned as 32-bit words are, and that `work` and `out` overlap nothing else that is passed.
 *
 * Working memory is 8 words of 32 bits for each place of the file: 8 * N, N up to 4,096. What it holds before a call does not matter.
 *
 * What a call leaves in the caller's memory:
 *   refusals 1 to 14, 17 to 21   nothing is written
 *   refusals 15, 16              the first 8 * N working words are zero (of calls that have them), output is untouched
 *   success                      the first 8 * N working words are zero (of calls that have them), the result stands at the front of output,
 *                                and nothing past either is touched
 * Beside a refusal, every other number of a record is 0.
 *
 * Threads: a call reads and writes what it is lent and nothing else, and keeps nothing: as many may run at once as have words and output of their own.
 * They may share the network, the oracle, the sheet and the legs.
 *
 * Stack, in bytes, on x86-64, whatever the network, the sheet and the legs: jukesogbi_way and jukesogbi_way_under take at most 12,288,
 * jukesogbi_block 8,192, every other call 2,048.
 *
 * Walks are compared by seconds, then by fewer roads, and a least walk is one that is least so. A time is that of a least walk, in two numbers: its seconds
 * and its roads. A least walk has no place twice, so there are 4,095 roads at the most. (Over an oracle that was never built a far time is the least sum of
 * what it holds: 12,285 roads at the most.)
 *
 * Files. Numbers are little-endian. A network has 3 bodies, an oracle 7, the first 3 of them the network's own, a sheet 1. Byte 0 is the edition, 2 for an
 * oracle and 1 for the others, and byte 1 the number of bodies; from byte 2 on stands an entry of 9 bytes for each body: its number (1 byte), where it begins
 * in the file (4) and its length in bytes (4). The bodies follow without gaps. An oracle of edition 1 is refused by rule 1, and built again from its network.
 *   1  places: x and y, 4 bytes each, signed, in metres. N is the length (at byte 7) / 8.
 *   2  roads: the numbers of two places, 2 bytes each, and 4 bytes of seconds, 0 to 100,000. R is the length (at byte 16) / 8.
 *   3  nothing: its length is 0. In old files closed roads: their numbers, 2 bytes each, rising. The two calls of the converter take an old network and
 *      leave these roads out of it, or of a sheet for it; every other call refuses an old file by rule 21.
 *   4  the grid's g: 2 bytes.
 *   5  transit places: their numbers, 2 bytes each, rising. They begin at what bytes 39 to 42 say; T is the length (at byte 43) / 2.
 *   6  access: for each place 4 bytes, where its list begins in this body; then the lists (see jukesogbi_list).
 *   7  table: T rows of T times, 4 bytes of seconds and 2 of roads each: row i, column j is the time from transit place i to transit place j.
 *   8  (of a sheet, from byte 11 on) lines of 7 bytes: 1 closed or 2 delayed, the number of a road (2 bytes), and the seconds added (4), 0 when closed.
 * In bodies 6 and 7 JUKESOGBI_NO_WALK with JUKESOGBI_NO_ROADS stands where there is no walk; every other value is at most 409,500,000 with at most 4,095.
 *
 * A sheet is one day's closures and delays, any number of lines in any order. A closure holds over every delay of its road, wherever it stands; among
 * delays the last holds.
 *
 * Rules, in checking order:
 *    1  fewer than 2 bytes, a wrong edition, a wrong entry count or an incomplete contents
 *    2  a kind, offset or length that breaks the order or the joins of the bodies
 *    3  a places body that is no multiple of 8, or a place count outside 1 to 4,096
 *    4  a coordinate outside -1,000,000 to 1,000,000
 *    5  a roads body that is no multiple of 8, or over 16,384 roads
 *    6  a road with an end not below N, equal ends, or seconds over 100,000
 *    7  a closed list of odd length, not rising, or naming no road
 *   21  closed roads in body 3, which must be empty: `jukesogbi convert NETWORK NEW` (jukesogbi_convert) leaves them out of a network
 *    8  a grid body not of 2 bytes, or g outside 1 to 64
 *    9  a transit body of odd length, not rising, or naming no place
 *   10  an access body that breaks its layout, an index not below T, or a value out of range
 *   11  a table not of 6 * T * T bytes, or a value out of range
 *   12  a place number in the call not below N
 *   17  either side of a block names no place or more than 12, or there are over 1,000 legs or a part of a leg
 *   18  a sheet's form, a line's first byte, or the seconds of a closed line are wrong
 *   19  a line of the sheet names no road
 *   20  the line that holds takes a road over 100,000 seconds
 *   13  the far question on a local pair
 *   14  working memory below 8 * N words
 *   15  output shorter than the whole result
 *   16  an audited oracle that differs in any byte from the one built from its bodies 1 to 4
 */
#ifndef JUKESOGBI_H
#define JUKESOGBI_H

#include <stddef.h>
#include <stdint.h>

#ifdef __cplusplus
extern "C" {
#endif

/* Working words for each place. */
#define JUKESOGBI_WORDS 8

/* The most places that either side of a block may name. */
#define JUKESOGBI_SIDE 12

/* The most legs of a wages sheet. */
#define JUKESOGBI_LEGS 1000

/* The most places, and roads, of a network. */
#define JUKESOGBI_PLACES 4096
#define JUKESOGBI_ROADS 16384

/* The first byte of a sheet's line. */
#define JUKESOGBI_CLOSED 1
#define JUKESOGBI_DELAYED 2

/* `seconds`, a square of `times`, or a leg's time, where there is no walk. */
#define JUKESOGBI_NO_WALK UINT32_MAX

/* `roads`, or a square of `roads`, where there is no walk. */
#define JUKESOGBI_NO_ROADS 65535

/* `kind` of a pair of places; 0 beside a refusal. */
#define JUKESOGBI_FAR 1
#define JUKESOGBI_LOCAL 2

/* The oracle's size in bytes and its number of transit places. */
typedef struct {
    uint32_t rule;
    uint32_t size;
    uint32_t transit;
} jukesogbi_built;

/* Far or local; a time, or JUKESOGBI_NO_WALK and JUKESOGBI_NO_ROADS; and the pairs of access places tried. */
typedef struct {
    uint32_t rule;
    uint32_t kind;
    uint32_t seconds;
    uint32_t roads;
    uint32_t pairs;
} jukesogbi_reply;

/* A part of the lent oracle: its first byte, counted from the oracle's, and how many bytes it has. */
typedef struct {
    size_t start;
    size_t size;
} jukesogbi_part;

/* How many places a way has. */
typedef struct {
    uint32_t rule;
    uint32_t nodes;
} jukesogbi_route;

/* Seconds, and roads: a row for each start and a column for each end, in the order named. Unused squares are 0 in both. */
typedef struct {
    uint32_t rule;
    uint32_t times[JUKESOGBI_SIDE][JUKESOGBI_SIDE];
    uint32_t roads[JUKESOGBI_SIDE][JUKESOGBI_SIDE];
} jukesogbi_times;

/* How many bytes of output the result takes. */
typedef struct {
    uint32_t rule;
    size_t size;
} jukesogbi_output;

/* Output enough for the oracle of a network of so many places and roads under any grid: as there is a transit place for each road at the most, and all of
 * them may be in each list. 235 MB for the largest network; most oracles are far smaller. */
static inline size_t jukesogbi_room(size_t places, size_t roads) {
    size_t transit = roads < places ? roads : places;
    return 67 + 8 * places + 8 * roads + 2 * transit + places * (6 + 8 * transit) + 6 * transit * transit;
}

/* Builds the oracle of a network under a grid of g x g cells at the front of `out`. Rules 1 to 7, 21, 8, 14, 15. */
jukesogbi_built jukesogbi_build(const uint8_t *network, size_t network_size, uint32_t g,
                                uint32_t *work, size_t words, uint8_t *out, size_t room);

/* 0 where the oracle is, byte for byte, the one that building gives from its own bodies 1 to 4. Rules 1 to 7, 21, 8 to 11, 14, 16. */
uint32_t jukesogbi_audit(const uint8_t *oracle, size_t oracle_size, uint32_t *work, size_t words);

/* The time from place s to place t. Rules 1 to 7, 21, 8 to 12, 14. */
jukesogbi_reply jukesogbi_time(const uint8_t *oracle, size_t oracle_size, uint32_t s, uint32_t t,
                               uint32_t *work, size_t words);

/* The same for a far pair, from the oracle's lists and table alone. Rules 1 to 7, 21, 8 to 13. */
jukesogbi_reply jukesogbi_far(const uint8_t *oracle, size_t oracle_size, uint32_t s, uint32_t t);

/* The access list of place u, as that part of the oracle: a 16-bit count, then for each entry a 16-bit index into the transit places, 32-bit
 * seconds and 16-bit roads. Empty, at 0, where it is refused; no list is empty. Rules 1 to 7, 21, 8 to 12. */
jukesogbi_part jukesogbi_list(const uint8_t *oracle, size_t oracle_size, uint32_t u);

/* The number of the rule for which jukesogbi_list hands back the empty part, or 0. */
uint32_t jukesogbi_list_rule(const uint8_t *oracle, size_t oracle_size, uint32_t u);

/* The places of the way from s to t, as 16-bit numbers, low byte first, at the front of `out`: the first least walk by place numbers, one place more than
 * the `roads` of its time over a built oracle. No place where there is no walk. 2 * N bytes are room enough, as a way has no place twice.
 * Rules 1 to 7, 21, 8 to 12, 14, 15. */
jukesogbi_route jukesogbi_way(const uint8_t *oracle, size_t oracle_size, uint32_t s, uint32_t t,
                              uint32_t *work, size_t words, uint8_t *out, size_t room);

/* All times between up to 12 starts and 12 ends: times[i][j] is the `seconds` of jukesogbi_time from starts[i] to ends[j], roads[i][j] its `roads`. A place
 * may be named several times, on either side or on both. Rules 1 to 7, 21, 8 to 12, 17, 14, where 12 looks at every name, also past the twelfth. */
jukesogbi_times jukesogbi_block(const uint8_t *oracle, size_t oracle_size, const uint32_t *starts, size_t starts_count,
                                const uint32_t *ends, size_t ends_count, uint32_t *work, size_t words);

/* The time from place s to place t under a sheet. It is the reply of jukesogbi_time where that finds no walk, or where every step of the way without the
 * sheet can still be driven in its old seconds, by that road or by another between the two places. Else the roads are searched as the sheet leaves them: the
 * reply is local, with 0 pairs. Rules 1 to 7, 21, 8 to 12, 18, 19, 20, 14, where 18 looks at all of the sheet before 19 does, and 19 before 20. */
jukesogbi_reply jukesogbi_time_under(const uint8_t *oracle, size_t oracle_size, const uint8_t *sheet, size_t sheet_size,
                                     uint32_t s, uint32_t t, uint32_t *work, size_t words);

/* The way from s to t over the roads as the sheet leaves them, in the form of jukesogbi_way.
 * Rules 1 to 7, 21, 8 to 12, 18, 19, 20, 14, 15. */
jukesogbi_route jukesogbi_way_under(const uint8_t *oracle, size_t oracle_size, const uint8_t *sheet, size_t sheet_size,
                                    uint32_t s, uint32_t t, uint32_t *work, size_t words, uint8_t *out, size_t room);

/* The times of up to 1,000 legs, and what they come to. A leg is two 16-bit place numbers, its start and its end, low byte first; no leg at all is allowed.
 * At the front of `out` stand a 32-bit time for each leg in the order entered, the `seconds` of jukesogbi_time for its places, then the 32-bit number of legs
 * that are JUKESOGBI_NO_WALK, and the 64-bit total of the others, low byte first: 4 bytes for each leg, and 12. Rules 1 to 7, 21, 8 to 12, 17, 14, 15, where
 * 12 looks at the places of every whole leg, also past the 1,000th. */
jukesogbi_output jukesogbi_wages(const uint8_t *oracle, size_t oracle_size, const uint8_t *legs, size_t legs_size,
                                 uint32_t *work, size_t words, uint8_t *out, size_t room);

/* ---- the converter: two calls without working words, which take closed roads in body 3 */

/* The network without its closed roads at the front of `out`: the same places, the open roads in their order, each with its old number less the closed ones
 * before it, and an empty body 3. Over what is built from it every time and way is what it was before. A network without closed roads comes out as it is.
 * network_size bytes are room enough. Rules 1 to 7, 15. */
jukesogbi_output jukesogbi_convert(const uint8_t *network, size_t network_size, uint8_t *out, size_t room);

/* A sheet for the old network, made one for the network that jukesogbi_convert gives, at the front of `out`: the lines about closed roads go, the others name
 * their roads by the new numbers, in the order in which they stand. sheet_size bytes are room enough. Rules 1 to 7, of the network, then 18, 19, 15, where 18
 * looks at all of the sheet before 19 does. 20 is looked at when the sheet is used. */
jukesogbi_output jukesogbi_convert_sheet(const uint8_t *network, size_t network_size, const uint8_t *sheet, size_t sheet_size,
                                         uint8_t *out, size_t room);

#ifdef __cplusplus
}
#endif

#endif
