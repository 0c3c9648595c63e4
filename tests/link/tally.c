/* Calls market_time_tally on good and bad input, with guard bytes around the room, and compares what comes back. */
#include "ask.h"

static uint8_t room[GUARD + 50000 + GUARD];

static market_time_reply ask(size_t book_len, int64_t start, int64_t end, size_t out_len) {
    memset(room, 0xa5, sizeof room);
    market_time_reply r = market_time_tally(book_len ? book : NULL, book_len, start, end, out_len ? room + GUARD : NULL, out_len);
    untouched(room, sizeof room, r.length);
    return r;
}

/* A row's record: its kind, its edges, and ten totals, all in seconds. */
static void row(const uint8_t *at, uint64_t kind, uint64_t from, uint64_t to, const uint64_t *totals) {
    is("L", get(at, 2), 98), is("kind", get(at + 2, 2), kind);
    is("start", get(at + 4, 8), from * 1000000000), is("end", get(at + 12, 8), to * 1000000000);
    for (int i = 0; i < 10; i++) is("total", get(at + 20 + 8 * i, 8), totals[i] * 1000000000);
}

int main(void) {
    const int64_t s = 1000000000, from = 1767571200 * s, to = 1767700800 * s, day = 86400 * s;
    const uint8_t *a = room + GUARD;
    book_a();

    /* document 01's example: closed 84,600 s, continuous 45,000 s; the first row 24 hours, the second 12 */
    market_time_reply r = ask(used, from, to, 50000);
    is("number", r.number, 0), is("length", r.length, 300);
    row(a, 22, 1767571200, 1767657600, (uint64_t[]){55800, 0, 0, 30600, 0, 0, 0, 0, 0, 0});
    row(a + 100, 22, 1767657600, 1767700800, (uint64_t[]){28800, 0, 0, 14400, 0, 0, 0, 0, 0, 0});
    row(a + 200, 23, 1767571200, 1767700800, (uint64_t[]){84600, 0, 0, 45000, 0, 0, 0, 0, 0, 0});

    is("exact room", ask(used, from, to, 300).number, 0), is("a byte short", ask(used, from, to, 299).number, 16), is("no room", ask(used, from, to, 0).number, 16);
    is("400 days", ask(used, from, from + 400 * day, 50000).length, 40100), is("one ns more", ask(used, from, from + 400 * day + 1, 50000).number, 13);
    is("cut short", ask(used - 1, from, to, 50000).number, 2), is("too early", ask(used, -2177452800 * s - 1, to, 50000).number, 10);
    is("reversed", ask(used, to, from, 50000).number, 11), is("empty", ask(used, from, from, 50000).number, 12);

    /* an hour before coverage and one in it */
    r = ask(used, 1767222000 * s, 1767229200 * s, 50000);
    is("at coverage's start", r.number, 0), row(a, 22, 1767222000, 1767229200, (uint64_t[]){3600, 0, 0, 0, 0, 0, 0, 0, 3600, 0});

    r = ask(0, from, to, 50000);
    is("empty book", r.number, 0), row(a + 200, 23, 1767571200, 1767700800, (uint64_t[]){0, 0, 0, 0, 0, 0, 0, 0, 129600, 0});

    puts(wrong ? "tally: WRONG" : "tally: as expected");
    return wrong;
}
