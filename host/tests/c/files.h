/* The files that interface.c makes: a network, an old network, and sheets, by the form that the header describes. */
#include "jukesogbi.h"

#include <stdio.h>
#include <stdlib.h>
#include <string.h>

/* Of the roads every second is closed in the old network. */
enum { PLACES = JUKESOGBI_PLACES, SHUT = (PLACES - 1) / 2, LEFT = PLACES - 1 - SHUT };

/* The sheet is enough for a line about each road. */
static uint8_t *network, *old, sheet[11 + 7 * PLACES];
static size_t network_size, old_size, sheet_size;

static void check(int right, const char *what) {
    if (!right) {
        printf("wrong: %s\n", what);
        exit(1);
    }
}

static void put(uint8_t **at, uint32_t value, int bytes) {
    for (int i = 0; i < bytes; i++) {
        *(*at)++ = (uint8_t)(value >> (8 * i));
    }
}

static uint32_t get(const uint8_t *at, int bytes) {
    uint32_t value = 0;
    for (int i = 0; i < bytes; i++) {
        value |= (uint32_t)at[i] << (8 * i);
    }
    return value;
}

/* As many places as may be, in a row, each joined to the next: the longest way there is. */
static void make_network(void) {
    const uint32_t roads = PLACES - 1, lengths[] = {8 * PLACES, 8 * roads, 0};
    network_size = 29 + lengths[0] + lengths[1];
    network = malloc(network_size);
    uint8_t *at = network;
    uint32_t start = 29;
    put(&at, 1, 1);
    put(&at, 3, 1);
    for (uint32_t k = 0; k < 3; k++) {
        put(&at, k + 1, 1);
        put(&at, start, 4);
        put(&at, lengths[k], 4);
        start += lengths[k];
    }
    for (uint32_t i = 0; i < PLACES; i++) {
        put(&at, 100 * i, 4);
        put(&at, 0, 4);
    }
    for (uint32_t i = 0; i < roads; i++) {
        put(&at, i, 2);
        put(&at, i + 1, 2);
        put(&at, i % 100 + 1, 4);
    }
}

/* The same with roads 1, 3, 5 and so on closed. */
static void make_old(void) {
    old_size = network_size + 2 * SHUT;
    old = malloc(old_size);
    memcpy(old, network, network_size);
    uint8_t *length = old + 25, *at = old + network_size;
    put(&length, 2 * SHUT, 4);
    for (uint32_t i = 0; i < SHUT; i++) {
        put(&at, 2 * i + 1, 2);
    }
}

/* A sheet without lines, and one line more. */
static void begin_sheet(void) {
    uint8_t *at = sheet;
    put(&at, 1, 1);
    put(&at, 1, 1);
    put(&at, 8, 1);
    put(&at, 11, 4);
    put(&at, 0, 4);
    sheet_size = 11;
}

static void put_line(uint32_t first, uint32_t road, uint32_t seconds) {
    uint8_t *at = sheet + sheet_size, *length = sheet + 7;
    put(&at, first, 1);
    put(&at, road, 2);
    put(&at, seconds, 4);
    sheet_size += 7;
    put(&length, (uint32_t)sheet_size - 11, 4);
}
