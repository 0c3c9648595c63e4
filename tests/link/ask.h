/* What the programs share that call an entry: a book made record by record, fields read, and what differs counted. */
#include "../../include/market_time.h"

#include <stdio.h>
#include <string.h>

static uint8_t book[4096];
static size_t used;
static int wrong;

static void put(uint64_t value, int bytes) {
    for (int i = 0; i < bytes; i++) book[used++] = (uint8_t)(value >> (8 * i));
}

static void rule(uint8_t mask, int points, const uint64_t *minutes, const uint8_t *phases) {
    put(30 + 9 * points, 2), put(3, 2), put(20454, 4), put(20818, 4), put(0, 1), put(mask, 1);
    put(0, 2), put(1, 2), put(0, 2), put(0, 1), put(0, 8), put(0, 2), put(points, 1);
    for (int i = 0; i < points; i++) put(minutes[i] * 60000000000ull, 8), put(phases[i], 1);
}

/* Document 01's Book A. */
static inline void book_a(void) {
    put(22, 2), put(1, 2), put(1767225600000000000ull, 8), put(1798761600000000000ull, 8), put(0, 4);
    rule(31, 3, (uint64_t[]){0, 480, 990}, (uint8_t[]){0, 3, 0});
    rule(96, 1, (uint64_t[]){0}, (uint8_t[]){0});
}

static inline uint64_t get(const uint8_t *at, int bytes) {
    uint64_t value = 0;
    for (int i = bytes; i-- > 0;) value = value << 8 | at[i];
    return value;
}

/* Bytes on each side of a lent room. All but the answer must be as it was filled, with 0xa5. */
#define GUARD 64

static void untouched(const uint8_t *room, size_t size, size_t length) {
    for (size_t i = 0; i < size; i++)
        if ((i < GUARD || i >= GUARD + length) && room[i] != 0xa5) printf("byte %zu altered\n", i), wrong = 1;
}

static void is(const char *what, uint64_t found, uint64_t expected) {
    if (found != expected) printf("%s: %llu, expected %llu\n", what, (unsigned long long)found, (unsigned long long)expected), wrong = 1;
}
