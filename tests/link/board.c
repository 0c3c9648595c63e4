/* Calls the board's entries on a window's answer and on bad bytes, with guard bytes around the room, and compares what comes back. */
#include "ask.h"

static uint8_t room[GUARD + 1024 + GUARD], row[4096], rows[8192];
static size_t row_len, rows_len;

static market_time_reply ask(size_t len, int64_t start, int64_t end, int64_t columns, bool marked, int64_t now, size_t out_len) {
    memset(room, 0xa5, sizeof room);
    market_time_reply r = market_time_cells(len ? row : NULL, len, start, end, columns, marked, now, out_len ? room + GUARD : NULL, out_len);
    untouched(room, sizeof room, r.length);
    return r;
}

static void drawn(const char *what, market_time_reply r, const char *text) {
    is(what, r.number, 0), is("length", r.length, strlen(text));
    if (memcmp(room + GUARD, text, strlen(text))) printf("%s: %.*s\n", what, (int)r.length, room + GUARD), wrong = 1;
}

static void mark(uint16_t number) {
    const uint8_t record[] = {4, 0, 21, 0, (uint8_t)number, (uint8_t)(number >> 8)};
    memcpy(rows + rows_len, record, sizeof record), rows_len += sizeof record;
}

static void counted(const char *what, size_t len, int64_t at, const uint64_t *expected) {
    market_time_count_reply r;
#if defined(__x86_64__)
    r = market_time_count(len ? rows : NULL, len, at);
#else
    market_time_count(&r, len ? rows : NULL, len, at);
#endif
    is(what, r.number, expected[0]), is("venues", r.venues, expected[1]), is("trading", r.trading, expected[2]);
    is("not trading", r.not_trading, expected[3]), is("not known", r.not_known, expected[4]);
}

static void classed(const char *what, size_t len, int64_t at, uint32_t number, uint32_t shown) {
    market_time_class_reply r = market_time_class(len ? row : NULL, len, at);
    is(what, r.number, number), is("class", r.shown, shown);
}

int main(void) {
    const int64_t s = 1000000000, from = 1767571200 * s, to = 1767700800 * s, noon = from + 43200 * s;
    book_a();
    row_len = market_time_window(book, used, from, to, row, sizeof row).length;

    drawn("Book A", ask(row_len, from, to, 12, false, 0, 14), "[...###.....#]");
    drawn("now at 10 hours", ask(row_len, from, to, -5, true, from + 36000 * s, 1024), "[...|##.....#]");
    drawn("no row", ask(0, from, to, 11, false, INT64_MIN, 1024), "[            ]");
    is("512 columns", ask(row_len, from, to, 512, false, 0, 514).length, 514), is("513 columns", ask(row_len, from, to, 513, false, 0, 1024).number, 14);
    is("a byte short", ask(row_len, from, to, 12, false, 0, 13).number, 16), is("no room", ask(row_len, from, to, 12, false, 0, 0).number, 16);
    is("now out of range", ask(row_len, to, from, 12, true, INT64_MAX, 1024).number, 10), is("reversed", ask(row_len, to, from, 513, false, 0, 1024).number, 11);
    is("empty", ask(row_len, from, from, 513, false, 0, 1024).number, 12), is("cut short", ask(row_len - 1, from, to, 12, false, 0, 1024).number, 15);

    classed("trading at noon", row_len, noon, 0, 1), classed("closed at midnight", row_len, from, 0, 2), classed("past the row", row_len, to, 0, 4);
    classed("no row", 0, noon, 0, 4), classed("out of range", row_len, INT64_MIN, 10, 0), classed("cut short", row_len - 1, noon, 15, 0);

    /* Book A, a venue that shows nothing, a venue without data, and Book A once more */
    mark(9), memcpy(rows + rows_len, row, row_len), rows_len += row_len, mark(2), mark(9);
    rows_len += market_time_window(NULL, 0, from, to, rows + rows_len, sizeof rows - rows_len).length;
    mark(0), memcpy(rows + rows_len, row, row_len), rows_len += row_len;
    counted("four venues", rows_len, noon, (uint64_t[]){0, 4, 2, 0, 1}), counted("at midnight", rows_len, from, (uint64_t[]){0, 4, 0, 2, 1});
    counted("no rows", 0, noon, (uint64_t[]){0, 0, 0, 0, 0}), counted("out of range", rows_len, INT64_MAX, (uint64_t[]){10, 0, 0, 0, 0});
    counted("cut short", rows_len - 1, noon, (uint64_t[]){15, 0, 0, 0, 0});

    puts(wrong ? "board: WRONG" : "board: as expected");
    return wrong;
}
