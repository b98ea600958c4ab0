/* Three places in a row: builds their oracle, audits it, asks a time, a way and a block of times, and meets refusals.
 * cc -Iinclude examples/line.c target/staticlib/libcapi.a -o line */
#include "jukesogbi.h"

#include <stdio.h>

/* Places (0,0), (30,0), (60,0); roads 0-1 of 7 seconds and 1-2 of 9; an empty body 3. */
static const uint8_t network[] = {
    1, 3,
    1, 29, 0, 0, 0, 24, 0, 0, 0,
    2, 53, 0, 0, 0, 16, 0, 0, 0,
    3, 69, 0, 0, 0, 0, 0, 0, 0,
    0, 0, 0, 0, 0, 0, 0, 0, 30, 0, 0, 0, 0, 0, 0, 0, 60, 0, 0, 0, 0, 0, 0, 0,
    0, 0, 1, 0, 7, 0, 0, 0, 1, 0, 2, 0, 9, 0, 0, 0,
};

int main(void) {
    uint32_t work[3 * JUKESOGBI_WORDS];
    uint8_t oracle[256];
    uint8_t nodes[2 * 3];

    jukesogbi_built built = jukesogbi_build(network, sizeof network, 6, work, 24, oracle, sizeof oracle);
    printf("built: rule %u, %u bytes, %u transit\n", built.rule, built.size, built.transit);
    printf("audit: rule %u\n", jukesogbi_audit(oracle, built.size, work, 24));

    jukesogbi_reply reply = jukesogbi_time(oracle, built.size, 0, 2, work, 24);
    const char *kind = reply.kind == JUKESOGBI_FAR ? "far" : "local";
    printf("time 0 to 2: %u seconds by %u roads, %s, %u pairs\n", reply.seconds, reply.roads, kind, reply.pairs);

    jukesogbi_route route = jukesogbi_way(oracle, built.size, 0, 2, work, 24, nodes, sizeof nodes);
    printf("way 0 to 2:");
    for (uint32_t i = 0; i < route.nodes; i++) {
        printf(" %u", nodes[2 * i] + 256 * nodes[2 * i + 1]);
    }
    printf("\n");

    const uint32_t starts[] = {0, 1}, ends[] = {2, 1, 0};
    jukesogbi_times block = jukesogbi_block(oracle, built.size, starts, 2, ends, 3, work, 24);
    for (int i = 0; i < 2; i++) {
        const uint32_t *times = block.times[i], *roads = block.roads[i];
        printf("times from %u to 2, 1, 0: %u %u %u, roads %u %u %u\n", starts[i], times[0], times[1], times[2], roads[0], roads[1], roads[2]);
    }

    jukesogbi_part list = jukesogbi_list(oracle, built.size, 0);
    printf("list of 0: %zu bytes from %zu on\n", list.size, list.start);
    printf("too few words: rule %u\n", jukesogbi_time(oracle, built.size, 0, 2, work, 23).rule);

    reply = jukesogbi_far(oracle, built.size, 2, 0);
    printf("far 2 to 0: %u seconds by %u roads; 0 to 1: rule %u\n", reply.seconds, reply.roads, jukesogbi_far(oracle, built.size, 0, 1).rule);
    return 0;
}
