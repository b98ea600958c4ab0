/* The C interface as the header describes it: the files' form, room enough, null pointers, many threads, and how much stack each call takes.
 * Prints one line for each; the Rust test reads them. */
#define _POSIX_C_SOURCE 200809L
#include "files.h"

#include <pthread.h>

enum { WORDS = PLACES * JUKESOGBI_WORDS, STACK = 64 * 1024, THREADS = 8 };

/* Enough for one leg too many, and for every line of the sheet. */
static uint8_t *oracle, nodes[2 * PLACES], legs[4 * (JUKESOGBI_LEGS + 1)], times[4 * JUKESOGBI_LEGS + 12], *converted, lines[sizeof sheet];
static size_t oracle_size, room;
static uint32_t work[WORDS];

static jukesogbi_reply time_under(uint32_t s, uint32_t t) { return jukesogbi_time_under(oracle, oracle_size, sheet, sheet_size, s, t, work, WORDS); }

/* N, R and T as the header says where they stand. */
static void find_numbers(uint32_t transit) {
    uint32_t first = get(oracle + 39, 4), count = get(oracle + 43, 4) / 2;
    check(get(oracle + 7, 4) / 8 == PLACES && get(oracle + 16, 4) / 8 == PLACES - 1 && count == transit, "N, R and T");
    for (uint32_t i = 0; i < count; i++) {
        uint32_t place = get(oracle + first + 2 * i, 2);
        check(place < PLACES && (i == 0 || get(oracle + first + 2 * i - 2, 2) < place), "the transit places rise");
    }
    printf("N %u R %u T %u\n", PLACES, PLACES - 1, count);
}

static void null_pointers(void) {
    const uint32_t here = 0;
    check(jukesogbi_build(NULL, 0, 6, NULL, 0, NULL, 0).rule == 1, "build of nothing");
    check(jukesogbi_build(network, network_size, 6, NULL, 0, NULL, 0).rule == 14, "build without words");
    check(jukesogbi_build(network, network_size, 6, work, WORDS, NULL, 0).rule == 15, "build without output");
    check(jukesogbi_audit(NULL, 0, NULL, 0) == 1 && jukesogbi_audit(oracle, oracle_size, NULL, 0) == 14, "audit");
    check(jukesogbi_time(NULL, 0, 0, 0, NULL, 0).rule == 1 && jukesogbi_time(oracle, oracle_size, 0, 0, NULL, 0).rule == 14, "time");
    check(jukesogbi_far(NULL, 0, 0, 0).rule == 1, "far");
    check(jukesogbi_list_rule(NULL, 0, 0) == 1 && jukesogbi_list(NULL, 0, 0).size == 0, "list");
    check(jukesogbi_way(NULL, 0, 0, 0, NULL, 0, NULL, 0).rule == 1, "way over nothing");
    check(jukesogbi_way(oracle, oracle_size, 0, 9, work, WORDS, NULL, 0).rule == 15, "way without output");
    check(jukesogbi_block(NULL, 0, NULL, 0, NULL, 0, NULL, 0).rule == 1, "block over nothing");
    check(jukesogbi_block(oracle, oracle_size, NULL, 0, &here, 1, work, WORDS).rule == 17, "block without starts");
    check(jukesogbi_block(oracle, oracle_size, &here, 1, NULL, 0, work, WORDS).rule == 17, "block without ends");
    check(jukesogbi_time_under(NULL, 0, NULL, 0, 0, 0, NULL, 0).rule == 1, "time under a sheet over nothing");
    check(jukesogbi_time_under(oracle, oracle_size, NULL, 0, 0, 9, NULL, 0).rule == 18, "time under nothing");
    check(jukesogbi_way_under(oracle, oracle_size, NULL, 0, 0, 9, work, WORDS, NULL, 0).rule == 18, "way under nothing");
    begin_sheet();
    check(jukesogbi_time_under(oracle, oracle_size, sheet, sheet_size, 0, 9, NULL, 0).rule == 14, "time under a sheet without words");
    check(jukesogbi_way_under(oracle, oracle_size, sheet, sheet_size, 0, 9, work, WORDS, NULL, 0).rule == 15, "way under a sheet without output");
    check(jukesogbi_wages(NULL, 0, NULL, 0, NULL, 0, NULL, 0).rule == 1, "wages over nothing");
    check(jukesogbi_wages(oracle, oracle_size, NULL, 0, NULL, 0, NULL, 0).rule == 14, "wages without words");
    check(jukesogbi_wages(oracle, oracle_size, NULL, 0, work, WORDS, NULL, 0).rule == 15, "wages without output");
    check(jukesogbi_wages(oracle, oracle_size, NULL, 0, work, WORDS, times, sizeof times).size == 12, "no legs");
    check(jukesogbi_convert(NULL, 0, NULL, 0).rule == 1 && jukesogbi_convert(old, old_size, NULL, 0).rule == 15, "convert");
    check(jukesogbi_convert_sheet(NULL, 0, NULL, 0, NULL, 0).rule == 1, "convert a sheet beside nothing");
    check(jukesogbi_convert_sheet(old, old_size, NULL, 0, NULL, 0).rule == 18, "convert no sheet");
    check(jukesogbi_convert_sheet(old, old_size, sheet, sheet_size, NULL, 0).rule == 15, "convert a sheet without output");
    printf("null pointers\n");
}

/* The form of a sheet, and what its lines do: road i joins places i and i + 1 and takes i % 100 + 1 seconds. */
static void sheets(void) {
    begin_sheet();
    check(time_under(0, PLACES - 1).kind == JUKESOGBI_FAR && time_under(2, 5).seconds == 12, "no lines change nothing");
    check(time_under(0, PLACES - 1).roads == PLACES - 1 && time_under(2, 5).roads == 3, "the roads of a time");
    put_line(JUKESOGBI_DELAYED, 3, 100);
    check(time_under(2, 5).seconds == 112 && time_under(0, PLACES - 1).kind == JUKESOGBI_LOCAL, "a delay");
    put_line(JUKESOGBI_CLOSED, 3, 0);
    check(time_under(2, 5).seconds == JUKESOGBI_NO_WALK && time_under(4, 5).seconds == 5, "a closure");
    check(time_under(2, 5).roads == JUKESOGBI_NO_ROADS, "no roads without a walk");
    put_line(JUKESOGBI_DELAYED, 3, 0);
    put_line(JUKESOGBI_DELAYED, 3, 100000);
    check(time_under(2, 5).rule == 0 && time_under(2, 5).seconds == JUKESOGBI_NO_WALK, "a delay does not end a closure");
    check(jukesogbi_way_under(oracle, oracle_size, sheet, sheet_size, 2, 5, work, WORDS, nodes, sizeof nodes).nodes == 0, "no way");
    put_line(JUKESOGBI_CLOSED, PLACES - 1, 0);
    check(time_under(2, 5).rule == 19 && time_under(2, 5).seconds == 0 && time_under(2, 5).roads == 0, "no such road");
    sheet[sheet_size - 1] = 1;
    check(time_under(2, 5).rule == 18, "seconds beside a closure");
    begin_sheet();
    put_line(JUKESOGBI_DELAYED, 3, 99997);
    check(time_under(2, 5).rule == 20, "a road over 100,000 seconds");
    printf("sheets\n");
}

/* Legs, each to the next place or back, and what is written of them. */
static jukesogbi_output wages(uint32_t count, size_t left, size_t space) {
    uint8_t *at = legs;
    for (uint32_t i = 0; i < count; i++) {
        put(&at, 3 * i + i % 2, 2);
        put(&at, 3 * i + 1 - i % 2, 2);
    }
    return jukesogbi_wages(oracle, oracle_size, legs, 4 * count - left, work, WORDS, times, space);
}

static void many_legs(void) {
    uint32_t total = 0;
    jukesogbi_output output = wages(JUKESOGBI_LEGS, 0, sizeof times);
    check(output.rule == 0 && output.size == 4 * JUKESOGBI_LEGS + 12, "as many legs as may be");
    for (uint32_t i = 0; i < JUKESOGBI_LEGS; i++) {
        check(get(times + 4 * i, 4) == 3 * i % 100 + 1, "the time of a leg");
        total += 3 * i % 100 + 1;
    }
    check(get(times + 4 * JUKESOGBI_LEGS, 4) == 0 && get(times + 4 * JUKESOGBI_LEGS + 4, 4) == total, "none and the total");
    check(get(times + 4 * JUKESOGBI_LEGS + 8, 4) == 0, "the total has 64 bits");
    check(wages(2, 1, sizeof times).rule == 17 && wages(JUKESOGBI_LEGS + 1, 0, sizeof times).rule == 17, "a part of a leg, and too many");
    check(wages(2, 0, 19).rule == 15 && wages(2, 0, 20).size == 20, "output");
    printf("wages\n");
}

/* Road i of what is left was road 2 * i, from place 2 * i to the next. */
static void converter(void) {
    const size_t size = network_size - 8 * SHUT, roads = 29 + 8 * PLACES;
    check(jukesogbi_build(old, old_size, 6, work, WORDS, oracle, room).rule == 21, "an old network is refused");
    jukesogbi_output output = jukesogbi_convert(old, old_size, converted, old_size);
    check(output.rule == 0 && output.size == size && get(converted + 16, 4) == 8 * LEFT && get(converted + 25, 4) == 0, "the converted network");
    for (uint32_t i = 0; i < LEFT; i++) {
        const uint8_t *road = converted + roads + 8 * i;
        check(get(road, 2) == 2 * i && get(road + 2, 2) == 2 * i + 1 && get(road + 4, 4) == 2 * i % 100 + 1, "a road that is left");
    }
    check(jukesogbi_convert(old, old_size, converted, size - 1).rule == 15, "output that is too short");
    check(jukesogbi_convert(network, network_size, converted, network_size).size == network_size, "nothing to leave out");
    check(memcmp(network, converted, network_size) == 0, "a network without closed roads stays as it is");
    begin_sheet();
    for (uint32_t i = 0; i < PLACES - 1; i++) {
        put_line(i % 4 < 2 ? JUKESOGBI_DELAYED : JUKESOGBI_CLOSED, i, i % 4 < 2 ? 100000 + i : 0);
    }
    output = jukesogbi_convert_sheet(old, old_size, sheet, sheet_size, lines, sizeof lines);
    check(output.rule == 0 && output.size == 11 + 7 * LEFT && get(lines + 7, 4) == 7 * LEFT, "the converted sheet");
    for (uint32_t i = 0; i < LEFT; i++) {
        const uint8_t *line = lines + 11 + 7 * i;
        check(line[0] == (i % 2 ? JUKESOGBI_CLOSED : JUKESOGBI_DELAYED) && get(line + 1, 2) == i, "a line that is left");
        check(get(line + 3, 4) == (i % 2 ? 0 : 100000 + 2 * i), "its seconds");
    }
    check(jukesogbi_convert_sheet(old, old_size, sheet, sheet_size, lines, 11 + 7 * LEFT - 1).rule == 15, "output for the sheet");
    sheet[sheet_size - 6] = 255;
    check(jukesogbi_convert_sheet(old, old_size, sheet, sheet_size, lines, sizeof lines).rule == 19, "no such road");
    sheet[sheet_size - 7] = 0;
    check(jukesogbi_convert_sheet(old, old_size, sheet, sheet_size, lines, sizeof lines).rule == 18, "neither closed nor delayed");
    printf("converter\n");
}

/* ---- threads that share the oracle */

static void *asks(void *number) {
    uint32_t *words = malloc(sizeof work), s = (uint32_t)(size_t)number;
    for (uint32_t t = 0; t < 200; t++) {
        uint32_t seconds = 0;
        for (uint32_t i = s < t ? s : t; i < (s < t ? t : s); i++) {
            seconds += i % 100 + 1;
        }
        jukesogbi_reply reply = jukesogbi_time(oracle, oracle_size, s, t, words, WORDS);
        check(reply.rule == 0 && reply.seconds == seconds && reply.roads == (s < t ? t - s : s - t), "a time in a thread");
    }
    free(words);
    return NULL;
}

static void many_threads(void) {
    pthread_t threads[THREADS];
    for (size_t i = 0; i < THREADS; i++) {
        check(pthread_create(&threads[i], NULL, asks, (void *)(25 * i)) == 0, "a thread");
    }
    for (size_t i = 0; i < THREADS; i++) {
        pthread_join(threads[i], NULL);
    }
    printf("threads %d\n", THREADS);
}

/* ---- the stack that a call takes: a thread of 64 KB, painted before and looked at afterwards */

static void *nothing(void *unused) { return unused; }
static void *build(void *unused) {
    check(jukesogbi_build(network, network_size, 64, work, WORDS, oracle, room).rule == 0, "build");
    return unused;
}
static void *audit(void *unused) {
    check(jukesogbi_audit(oracle, oracle_size, work, WORDS) == 0, "audit");
    return unused;
}
static void *time_asked(void *unused) {
    check(jukesogbi_time(oracle, oracle_size, 1, 2, work, WORDS).seconds == 2, "a local time");
    check(jukesogbi_time(oracle, oracle_size, 0, PLACES - 1, work, WORDS).kind == JUKESOGBI_FAR, "a far time");
    return unused;
}
static void *far_asked(void *unused) {
    check(jukesogbi_far(oracle, oracle_size, 0, PLACES - 1).rule == 0, "far");
    return unused;
}
static void *list_asked(void *unused) {
    check(jukesogbi_list_rule(oracle, oracle_size, 9) == 0 && jukesogbi_list(oracle, oracle_size, 9).size > 0, "list");
    return unused;
}
static void *way_asked(void *unused) {
    check(jukesogbi_way(oracle, oracle_size, 0, PLACES - 1, work, WORDS, nodes, sizeof nodes).nodes == PLACES, "the longest way");
    return unused;
}
static void *block_asked(void *unused) {
    uint32_t names[JUKESOGBI_SIDE];
    for (uint32_t i = 0; i < JUKESOGBI_SIDE; i++) {
        names[i] = 17 * i;
    }
    jukesogbi_times block = jukesogbi_block(oracle, oracle_size, names, JUKESOGBI_SIDE, names, JUKESOGBI_SIDE, work, WORDS);
    check(block.rule == 0 && block.times[0][1] == 153 && block.roads[0][1] == 17, "a block");
    check(block.times[5][5] == 0 && block.roads[5][5] == 0 && block.roads[11][0] == 187, "its last rows");
    return unused;
}

static void *time_asked_under(void *unused) {
    check(time_under(0, PLACES - 1).kind == JUKESOGBI_LOCAL, "the longest way's time under a sheet");
    return unused;
}
static void *way_asked_under(void *unused) {
    jukesogbi_route route = jukesogbi_way_under(oracle, oracle_size, sheet, sheet_size, 0, PLACES - 1, work, WORDS, nodes, sizeof nodes);
    check(route.nodes == PLACES, "the longest way under a sheet");
    return unused;
}

static void *wages_asked(void *unused) {
    check(jukesogbi_wages(oracle, oracle_size, legs, 4 * JUKESOGBI_LEGS, work, WORDS, times, sizeof times).rule == 0, "wages");
    return unused;
}

static void *converted_asked(void *unused) {
    check(jukesogbi_convert(old, old_size, converted, old_size).rule == 0, "convert");
    return unused;
}
static void *sheet_converted(void *unused) {
    check(jukesogbi_convert_sheet(old, old_size, sheet, sheet_size, lines, sizeof lines).rule == 0, "convert a sheet");
    return unused;
}

static size_t stack_of(void *(*call)(void *)) {
    static _Alignas(4096) uint8_t stack[STACK];
    pthread_attr_t small;
    pthread_t thread;
    memset(stack, 0xa5, STACK);
    pthread_attr_init(&small);
    check(pthread_attr_setstack(&small, stack, STACK) == 0 && pthread_create(&thread, &small, call, NULL) == 0, "a thread of 64 KB");
    pthread_join(thread, NULL);
    pthread_attr_destroy(&small);
    size_t untouched = 0;
    while (untouched < STACK && stack[untouched] == 0xa5) {
        untouched++;
    }
    return STACK - untouched;
}

static void stacks(void) {
    const struct {
        const char *name;
        void *(*call)(void *);
    } calls[] = {{"build", build}, {"audit", audit}, {"time", time_asked}, {"far", far_asked}, {"list", list_asked}, {"way", way_asked}, {"block", block_asked},
                 {"time_under", time_asked_under}, {"way_under", way_asked_under}, {"wages", wages_asked},
                 {"convert", converted_asked}, {"convert_sheet", sheet_converted}};
    const size_t empty = stack_of(nothing);
    begin_sheet();
    for (uint32_t i = 0; i < PLACES - 1; i++) {
        put_line(JUKESOGBI_DELAYED, i, 1);
    }
    for (size_t i = 0; i < sizeof calls / sizeof calls[0]; i++) {
        printf("stack %s %zu\n", calls[i].name, stack_of(calls[i].call) - empty);
    }
}

int main(void) {
    make_network();
    make_old();
    converted = malloc(old_size);
    room = jukesogbi_room(PLACES, PLACES - 1);
    oracle = malloc(room);
    jukesogbi_built built = jukesogbi_build(network, network_size, 64, work, WORDS, oracle, room);
    check(built.rule == 0 && built.size <= room, "the oracle has room");
    oracle_size = built.size;
    find_numbers(built.transit);
    for (size_t roads = 0; roads <= JUKESOGBI_ROADS; roads += 1024) {
        printf("room %zu\n", jukesogbi_room(PLACES / 2, roads));
    }
    null_pointers();
    many_threads();
    sheets();
    many_legs();
    converter();
    stacks();
    free(network);
    free(oracle);
    free(old);
    free(converted);
    return 0;
}
