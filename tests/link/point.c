/* Calls market_time_point on good and bad input, with guard bytes around the room, and compares what comes back. */
#include "ask.h"

static void event(uint64_t minutes) {
    put(26 + 8, 2), put(4, 2), put(20454, 4), put(20818, 4), put(7, 2), put(9, 2);
    put(0, 1), put(0, 8), put(0, 2), put(1, 1), put(minutes * 60000000000ull, 8);
}

static uint8_t room[GUARD + 512 + GUARD];

static market_time_reply ask(size_t book_len, int64_t at, size_t out_len) {
    memset(room, 0xa5, sizeof room);
    market_time_reply r = market_time_point(book_len ? book : NULL, book_len, at, out_len ? room + GUARD : NULL, out_len);
    untouched(room, sizeof room, r.length);
    return r;
}

int main(void) {
    const int64_t s = 1000000000, t = 1767600000 * s;
    book_a();
    size_t book_a = used;
    is("book A", book_a, 124);

    market_time_reply r = ask(book_a, t, 512);
    const uint8_t *a = room + GUARD;
    is("number", r.number, 0), is("length", r.length, 105);
    is("L", get(a, 2), 103), is("kind", get(a + 2, 2), 16);
    is("start", get(a + 4, 8), t), is("end", get(a + 12, 8), 1767630600 * s);
    is("phase", a[20], 3), is("code", a[21], 0), is("evidence", get(a + 24, 2), 1), is("events", get(a + 101, 4), 0);

    is("exact room", ask(book_a, t, 105).number, 0), is("a byte short", ask(book_a, t, 104).number, 16);
    is("no room", ask(book_a, t, 0).number, 16);
    for (size_t n = 1; n < book_a; n++)
        if (n != 24 && n != 83) is("cut short", ask(n, t, 512).number, 2);
    is("too early", ask(book_a, -2177452800 * s - 1, 512).number, 10), is("too late", ask(book_a, 7226582400 * s + 1, 512).number, 10);
    is("book before query", ask(book_a - 1, 7226582400 * s + 1, 512).number, 2);

    r = ask(book_a, 1767225599 * s, 512);
    is("before coverage", r.number, 0), is("length", r.length, 29), is("kind", get(a + 2, 2), 19);
    is("instant", get(a + 4, 8), 1767225599 * s), is("present", a[12], 1), is("coverage", get(a + 13, 8), 1767225600ull * s);

    r = ask(0, t, 512);
    is("empty book", r.number, 0), is("length", r.length, 29), is("present", a[12], 0);

    event(600), event(540);
    r = ask(used, t, 512);
    is("with events", r.number, 0), is("length", r.length, 175), is("events", get(a + 101, 4), 2);
    is("first event", get(a + 105 + 6, 8), 1767603600 * s), is("second event", get(a + 140 + 6, 8), 1767607200 * s);
    is("a byte short", ask(used, t, 174).number, 16);

    puts(wrong ? "point: WRONG" : "point: as expected");
    return wrong;
}
