/* Bytes for the entries: good books, chance, and what mutations leave of good books and rows. They are made in `made`. */
#include <string.h>

#define BYTES_MOST ((size_t)192 * 1024)
#define SECOND INT64_C(1000000000)
#define DAY_SECONDS INT64_C(86400)
#define DAY (DAY_SECONDS * SECOND)
/* The first and the last instant of a query, and of a clock change. */
#define LOW (INT64_C(-2177452800) * SECOND)
#define HIGH (INT64_C(7226582400) * SECOND)
#define CHANGE_LAST INT64_C(7258118400)

static uint8_t made[BYTES_MOST];
static size_t used;

static void put(uint64_t value, int bytes) {
    for (int i = 0; i < bytes; i++) made[used++] = (uint8_t)(value >> (8 * i));
}

static uint64_t get(const uint8_t *at, int bytes) {
    uint64_t value = 0;
    for (int i = bytes; i-- > 0;) value = value << 8 | at[i];
    return value;
}

static void set(const uint8_t *bytes, size_t length) { memcpy(made, bytes, length), used = length; }

static void put_uncertainty(void) {
    unsigned tag = (unsigned)below(4);
    put(tag, 1), put(tag == 1 || tag == 2 ? word() % 1000000000000001 : 0, 8), put(tag >= 2 ? word() : 0, 2);
}

/* First and last day: most rules and events apply on the day that coverage begins with. */
static void put_days(int64_t day) {
    int64_t first = percent(70) ? day - from_to(0, 3) : day + from_to(-20, 20), last = first + from_to(0, percent(70) ? 400 : 3);
    first = first < -25567 ? -25567 : first > 84005 ? 84005 : first;
    last = last < first ? first : last > 84005 ? 84005 : last;
    put((uint64_t)first, 4), put((uint64_t)last, 4);
}

/* Rising times of a day, the first at 00:00, each with a phase. */
static void put_points(unsigned points) {
    uint64_t at = 0, most = 2 * (uint64_t)DAY / points - 1;
    for (unsigned left = points; left > 0; left--) {
        put(at, 8), put(below(8), 1);
        uint64_t rest = (uint64_t)DAY - at - left;
        at += percent(10) ? 1 : 1 + word() % (rest < most ? rest + 1 : most);
    }
}

static void put_rule(int64_t day, unsigned points) {
    unsigned code = percent(60) ? 0 : (unsigned)below(4);
    put(30 + 9 * points, 2), put(3, 2), put_days(day), put(code, 1), put(code ? 0 : PICK(uint8_t, 127, 127, 31, 96, 1, 0), 1);
    put(code ? word() : 0, 2), put(below(3), 2), put(below(3), 2), put_uncertainty(), put(points, 1), put_points(points);
}

static void put_event(int64_t day, unsigned times) {
    put(26 + 8 * times, 2), put(4, 2), put_days(day), put(below(3), 2), put(word(), 2), put_uncertainty(), put(times, 1);
    while (times-- > 0) put(percent(50) ? word() % 24 * 3600 * SECOND : word() % (uint64_t)DAY, 8);
}

static int32_t offset(void) { return percent(60) ? PICK(int32_t, 0, -18000, -14400, 3600, 34200) : (int32_t)from_to(-57600, 57600); }

/* The kinds behind a book's first record, in any order, until so many of each stand there. */
static void put_records(int64_t day, size_t changes, size_t rules, size_t events, bool largest) {
    int64_t change = (day - from_to(0, 4)) * DAY_SECONDS + from_to(0, DAY_SECONDS);
    change = change < INT64_C(-2208988800) ? INT64_C(-2208988800) : change;
    while (changes + rules + events > 0) {
        size_t next = below(changes + rules + events);
        if (next < changes) {
            changes--;
            if (change <= CHANGE_LAST) put(14, 2), put(2, 2), put((uint64_t)change, 8), put((uint64_t)offset(), 4);
            change += 172800 + (percent(30) ? 0 : from_to(0, 10 * DAY_SECONDS));
        } else if (next < changes + rules) {
            rules--, put_rule(day, largest ? 16 : percent(10) ? 16 : 1 + (unsigned)below(6));
        } else {
            events--, put_event(day, largest ? 8 : (unsigned)below(9));
        }
    }
}

/* A book that has to be accepted: small, larger, or with as much of everything as a book may have. */
static void make_book(bool largest) {
    int64_t day = percent(50) ? from_to(20454, 20818) : from_to(-25190, 83500);
    int64_t start = percent(2) ? LOW : day * DAY + from_to(-1, 1) + (percent(30) ? from_to(0, DAY) : 0);
    int64_t length = percent(10) ? from_to(1, DAY) : DAY * PICK(int64_t, 2, 7, 20, 60, 400) + from_to(-1, 1);
    int64_t end = percent(3) || start > HIGH - length ? HIGH : start + length;
    used = 0;
    put(22, 2), put(1, 2), put((uint64_t)start, 8), put((uint64_t)end, 8), put((uint64_t)offset(), 4);
    if (largest)
        put_records(day, 640, 256, 32, true);
    else if (percent(5))
        put_records(day, below(40), below(24), below(12), false);
    else
        put_records(day, below(4), below(5), below(3), false);
}

/* Where whole records begin, as far as lengths and kinds can be followed. */
#define RECORDS_MOST 4096
static size_t record_starts[RECORDS_MOST];

static size_t records(const uint8_t *bytes, size_t length) {
    size_t many = 0, at = 0;
    while (many < RECORDS_MOST && at + 4 <= length && at + 2 + get(bytes + at, 2) <= length) {
        record_starts[many++] = at;
        at += 2 + get(bytes + at, 2);
    }
    return many;
}

static size_t record_length(size_t at) { return 2 + get(made + at, 2); }

static uint8_t kept[BYTES_MOST];

/* Puts these bytes where `at` is. */
static void insert(size_t at, const uint8_t *bytes, size_t length) {
    if (used + length > BYTES_MOST) return;
    memcpy(kept, bytes, length);
    memmove(made + at + length, made + at, used - at);
    memcpy(made + at, kept, length), used += length;
}

static void take_out(size_t at, size_t length) { memmove(made + at, made + at + length, used - at - length), used -= length; }

static void swap_records(size_t one, size_t other) {
    if (one > other) swap_records(other, one);
    if (one >= other) return;
    size_t first = record_length(one), second = record_length(other), between = other - one - first;
    memcpy(kept, made + one, first);
    memcpy(kept + first, made + other, second);
    memmove(made + one + second, made + one + first, between);
    memcpy(made + one, kept + first, second), memcpy(made + one + second + between, kept, first);
}

static void mutate_record(size_t many) {
    size_t at = record_starts[below(many)], other = record_starts[below(many)];
    switch (below(4)) {
    case 0: insert(other, made + at, record_length(at)); break;
    case 1: swap_records(at, other); break;
    case 2: take_out(at, record_length(at)); break;
    default: made[at] = (uint8_t)(made[at] + (percent(50) ? 1 : -1)); break;
    }
}

static void mutate_byte(void) {
    size_t at = below(used);
    switch (below(5)) {
    case 0: made[at] ^= (uint8_t)(1 << below(8)); break;
    case 1: made[at] = PICK(uint8_t, 0, 255, 128, 1, 127); break;
    case 2: used = percent(50) ? used - 1 - below(used < 8 ? used : 8) : at; break;
    case 3: insert(used, (uint8_t[]){(uint8_t)word(), (uint8_t)word(), (uint8_t)word()}, 1 + below(3)); break;
    default: /* a number of eight bytes */
        if (at + 8 <= used) {
            uint64_t number = PICK(uint64_t, 0, 1, UINT64_MAX, INT64_MAX, (uint64_t)INT64_MAX + 1, (uint64_t)DAY, (uint64_t)LOW, (uint64_t)HIGH);
            for (int i = 0; i < 8; i++) made[at + (size_t)i] = (uint8_t)(number >> (8 * i));
        }
    }
}

/* Mutates what was made, once to eight times. */
static void mutate(void) {
    for (size_t left = 1 + below(1 + below(8)); left > 0 && used > 0; left--) {
        size_t many = records(made, used);
        if (many > 0 && percent(50))
            mutate_record(many);
        else
            mutate_byte();
    }
}

/* Chance alone, or behind the first bytes of a record. Few are about as long as a book may be. */
static void make_chance(void) {
    size_t length = PICK(size_t, 0, 1, below(64), below(64), below(600), below(600));
    if (percent(1)) length = PICK(size_t, 65535, 65536, 65537, 65536 + below(5000));
    for (used = 0; used < length;) put(word(), 1);
    if (used >= 4 && percent(50)) {
        size_t kept_length = used;
        used = 0;
        switch (below(4)) {
        case 0: put(22, 2), put(1, 2); break;
        case 1: put(103, 2), put(16, 2); break;
        case 2: put(35, 2), put(17, 2); break;
        default: put(4, 2), put(21, 2); break;
        }
        used = kept_length;
    }
}
