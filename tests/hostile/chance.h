/* Chance from a seed: splitmix64. The same seed gives the same numbers, and with the same compiler, which orders some of the draws, the same run. */
#include <stdbool.h>
#include <stddef.h>
#include <stdint.h>

static uint64_t chance;

static uint64_t word(void) {
    uint64_t z = chance += 0x9e3779b97f4a7c15;
    z = (z ^ (z >> 30)) * 0xbf58476d1ce4e5b9;
    z = (z ^ (z >> 27)) * 0x94d049bb133111eb;
    return z ^ (z >> 31);
}

/* The numbers of one round: by the run's seed and the round's place in the run. */
static void begin_chance(uint64_t seed, uint64_t round) {
    chance = seed;
    chance = word() ^ round * 0xd1342543de82ef95;
}

/* Below `n`, which is not 0. */
static size_t below(size_t n) { return word() % n; }

/* From `low` to `high`, both included. */
static int64_t from_to(int64_t low, int64_t high) {
    uint64_t width = (uint64_t)high - (uint64_t)low + 1; /* 0: every number */
    return (int64_t)((uint64_t)low + (width ? word() % width : word()));
}

static bool percent(unsigned percent) { return word() % 100 < percent; }

#define PICK(type, ...) (((const type[]){__VA_ARGS__})[below(sizeof((const type[]){__VA_ARGS__}) / sizeof(type))])
