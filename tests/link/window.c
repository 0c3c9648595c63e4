/* Calls market_time_window on good and bad input, with guard bytes around the room, and compares what comes back. */
#include "ask.h"

static uint8_t room[GUARD + 1024 + GUARD];

static market_time_reply ask(size_t book_len, int64_t start, int64_t end, size_t out_len) {
    memset(room, 0xa5, sizeof room);
    market_time_reply r = market_time_window(book_len ? book : NULL, book_len, start, end, out_len ? room + GUARD : NULL, out_len);
    untouched(room, sizeof room, r.length);
    return r;
}

int main(void) {
    const int64_t s = 1000000000, from = 1767571200 * s, to = 1767700800 * s;
    book_a();

    /* document 01's example: closed, continuous, closed over midnight, continuous */
    const uint64_t edges[] = {1767571200, 1767600000, 1767630600, 1767686400, 1767700800};
    const uint8_t phases[] = {0, 3, 0, 3}, *a = room + GUARD;
    market_time_reply r = ask(used, from, to, 1024);
    is("number", r.number, 0), is("length", r.length, 4 * 105);
    for (int i = 0; i < 4; i++) {
        is("L", get(a + 105 * i, 2), 103), is("kind", get(a + 105 * i + 2, 2), 16);
        is("start", get(a + 105 * i + 4, 8), edges[i] * s), is("end", get(a + 105 * i + 12, 8), edges[i + 1] * s);
        is("phase", a[105 * i + 20], phases[i]), is("evidence", get(a + 105 * i + 24, 2), 1), is("events", get(a + 105 * i + 101, 4), 0);
    }

    is("exact room", ask(used, from, to, 420).number, 0), is("a byte short", ask(used, from, to, 419).number, 16);
    is("no room", ask(used, from, to, 0).number, 16);
    for (size_t n = 1; n < used; n++)
        if (n != 24 && n != 83) is("cut short", ask(n, from, to, 1024).number, 2);
    is("too early", ask(used, -2177452800 * s - 1, to, 1024).number, 10), is("too late", ask(used, from, 7226582400 * s + 1, 1024).number, 10);
    is("reversed", ask(used, to, from, 1024).number, 11), is("empty", ask(used, from, from, 1024).number, 12);
    is("reversed and out of range", ask(used, 7226582400 * s + 1, from, 1024).number, 10);

    /* unknown before coverage, then New Year's Thursday, closed to 08:00 */
    r = ask(used, 1767225599 * s, 1767225601 * s, 1024);
    is("at coverage's start", r.number, 0), is("length", r.length, 37 + 105);
    is("kind", get(a + 2, 2), 17), is("end", get(a + 12, 8), 1767225600ull * s), is("present", a[20], 1), is("kind", get(a + 37 + 2, 2), 16);

    r = ask(0, from, to, 1024);
    is("empty book", r.number, 0), is("length", r.length, 37), is("kind", get(a + 2, 2), 17), is("present", a[20], 0);

    puts(wrong ? "window: WRONG" : "window: as expected");
    return wrong;
}
